"""The answers of the host's socket `host` about scrollback rows and buffers."""
import socket
from unittest import mock

from aids import read_now
from filtered import played
from roam_live.host import scrollback, socket_server
from roam_live.host.scrollback import SCREEN_WAIT, Scrollback
from roam_live.host.socket_peer import HostPeer
from roam_live.host.socket_server import UNREAD
from roam_live.host.state import PasteBuffers, sample
from roam_live.protocol.paste_text import (BUFFER_EMPTY, BUFFER_READ_ONLY, BUFFER_TOO_LONG, BUFFER_UNKNOWN, BUFFERS_TOO_MANY, MOST_BUFFER,
                                           MOST_BUFFERS, MOST_COMING)
from test_socket_server import Sockets

NAME = "00112233445566aa"


class Rows(Sockets):
    """The socket, with the rows of a pane whose scrollback process is played by hand."""

    def setUp(self):
        super().setUp()
        self.socket.close()
        self.fake = played(self)[0]
        with mock.patch.object(scrollback, "program", lambda: "/roam"):
            self.scrollback = Scrollback(self.loop, self.fail, 100)
        self.addCleanup(self.scrollback.close)
        self.serve(self.scrollback)
        self.scrollback.begin(1, 5, (23, 80))
        self.scrollback.feed(1, b"a")
        self.prints(b"rows 0 3 15\n Alpha\n+be\n ta\n")

    def prints(self, data):
        """Print as the scrollback process."""
        self.fake.prints(data)
        self.loop.turns(3)
        return self.fake.taken()

    def asked(self, one, *lines):
        """Return the answers to these lines."""
        self.say(one, "".join(f"{line}\n" for line in lines).encode())
        return read_now(one)


class Asked(Rows):
    """Rows."""

    def test_live(self):
        """It answers from the stored rows."""
        one = self.connect()
        self.assertEqual(self.asked(one, "count 1 5", "rows 1 5 0 2", "rows 1 5 2 9", "rows 1 5 7 1", "find 1 5 2 back al",
                                    "find 1 5 0 on bet"),
                         b"count 1 5 0 3\nrows 1 5 0 2 11\n Alpha\n+be\nrows 1 5 2 1 4\n ta\nrows 1 5 3 0 0\nfound 1 5 0\nfound 1 5 1\n")
        self.assertEqual(self.asked(one, "count 1 4", "rows 2 5 0 1", "find 9 5 0 on a", "find 1 5 0 on x  y", "snapshot 1 6"),
                         b"count 1 4 none it has no such pane any more\nrows 2 5 none\nfound 9 5 none\nfound 1 5 none\n"
                         b"snapshot 1 6 none it has no such pane any more\n")
        self.prints(b"cleared 0\nrows 0 1 3\n c\n")
        self.assertEqual(self.asked(one, "count 1 5", "rows 1 5 0 9"), b"count 1 5 3 4\nrows 1 5 3 1 3\n c\n")

    def test_bad(self):
        """Other lines are answered as bad."""
        one = self.connect()
        lines = ("count", "count 1", "count 1 5 6", "count 0 5", "count 10 5", "count x 5", "rows 1 5 0", "rows 1 5 -1 2", "rows 1 5 0 x",
                 "find 1 5 0 up a", "find 1 5 0 on", "find 1 5 0 on ", "find 1 5 a on b", "snapshot 1", "release", "log 1 5",
                 "count 1 " + "9" * 16, "count  1 5", "buffer", "buffer add", "buffer add x", "buffer add 9999999999", "buffer show",
                 f"paste {NAME} buffer", f"paste {NAME} buffer x", "rows 1 5 \u0661 1", "counts 1 5")
        for line in lines:
            self.assertEqual(self.asked(one, line), b"bad line\n", line)

    def test_cut(self):
        """Requests come in any chunks."""
        text = b"count 1 5\nrows 1 5 0 2\nbuffer add 3\na\nbfind 1 5 0 on be\nbuffer list\n"
        for cut in range(len(text)):
            self.socket.uploads.buffers = PasteBuffers()
            one = self.connect(text[:cut])
            self.say(one, text[cut:])
            self.loop.turns(2)
            self.assertEqual(read_now(one), b"count 1 5 0 3\nrows 1 5 0 2 11\n Alpha\n+be\nbuffer add 1 3\nfound 1 5 1\n"
                             b"buffers 1\n1 3 a\\nb\n")
            one.close()
            self.loop.turns(2)

    def test_snapshot(self):
        """A snapshot has the rows and screen of a moment, and answers everything until its release; later requests wait for it."""
        one, other = self.connect(), self.connect()
        self.assertEqual(self.asked(one, "snapshot 1 5", "count 1 5", "rows 1 5 2 9"), b"")
        self.assertEqual(self.asked(other, "count 1 5"), b"count 1 5 0 3\n")
        self.assertEqual(self.prints(b"rows 0 1 3\n c\nscreen 0 2 6\n s\n t\n"), b"screen 0\n")
        self.assertEqual(read_now(one), b"snapshot 1 5 0 4 2 6\n s\n t\ncount 1 5 0 6\nrows 1 5 2 4 13\n ta\n c\n s\n t\n")
        self.prints(b"cleared 0\nrows 0 2 6\n d\n e\n")
        self.assertEqual(read_now(one), b"more 1 5 2\n")
        self.assertEqual(self.asked(one, "count 1 5", "find 1 5 9 back t", "find 1 5 0 on e"), b"count 1 5 0 6\nfound 1 5 5\nfound 1 5 1\n")
        self.assertEqual(self.asked(other, "count 1 5"), b"count 1 5 4 6\n")
        self.assertEqual(self.asked(one, "release 2 5", "count 1 5", "release 1 5", "count 1 5"), b"count 1 5 0 6\ncount 1 5 4 6\n")
        self.assertEqual(self.scrollback.room.held, 0)
        self.say(one, b"snapshot 1 5\n")
        self.prints(b"screen 0 1 3\n u\n")
        self.assertEqual(len(self.scrollback.room.snapshots), 1)
        self.say(one, b"snapshot 1 5\n")
        self.assertEqual(len(self.scrollback.room.snapshots), 0)
        one.close()
        self.loop.turns(2)
        self.prints(b"screen 0 1 3\n u\n")
        self.assertEqual((len(self.scrollback.room.snapshots), self.scrollback.room.held), (0, 0))
        one = self.connect(b"snapshot 1 5\n")
        self.socket.drop(self.socket.peers[-1])
        self.prints(b"screen 0 1 3\n u\n")
        self.assertEqual((len(self.scrollback.room.snapshots), self.scrollback.room.held), (0, 0))

    def test_silent(self):
        """A process that reports no screen is awaited for a while; later requests wait too."""
        one = self.connect(b"snapshot 1 5\ncount 1 5\n")
        self.assertEqual(read_now(one), b"")
        self.now += SCREEN_WAIT
        self.loop.turns(3)
        self.assertEqual(self.answer(one), ["snapshot 1 5 0 3 1 70", " [the screen is missing here: the scrollback process does not answer]",
                                            "count 1 5 0 4"])

    def test_stopped(self):
        """A stopped process is not awaited: the stored rows come at once, with the reason, and without any the reason alone."""
        with mock.patch("roam_live.host.scrollback.is_stopped", return_value=True):
            one = self.connect(b"snapshot 1 5\nrows 1 5 0 9\nrelease 1 5\n")
            row = " [the screen is missing here: the scrollback process is stopped]"
            self.assertEqual(self.answer(one), [f"snapshot 1 5 0 3 1 {len(row) + 1}", row,
                                                f"rows 1 5 0 4 {11 + 4 + len(row) + 1}", " Alpha", "+be", " ta", row])
            self.scrollback.panes[1].rows.clear()
            one.send(b"snapshot 1 5\n")
            self.loop.turns(3)
            self.assertEqual(self.answer(one), ["snapshot 1 5 none the scrollback process is stopped"])

    @staticmethod
    def answer(one):
        """Return the lines of an answer."""
        return read_now(one).decode().splitlines()

    def test_many(self):
        """Many lines at once, which only a failure can answer."""
        one = self.connect(b"snapshot 2 9\n" * 2000)
        told = b""
        for _ in range(8):
            self.loop.turns(2)
            told += read_now(one)
        self.assertEqual(told.count(b"snapshot 2 9 none it has no such pane any more\n"), 2000)

    def test_more(self):
        """The number of new rows is reported twice a second at most, and only if it changed."""
        one = self.connect(b"snapshot 1 5\n")
        self.prints(b"screen 0 1 3\n u\n")
        read_now(one)
        told = []
        for _ in range(8):
            self.now += 0.125
            self.prints(b"rows 0 1 3\n c\n")
            told.append(read_now(one))
        self.assertEqual([line for line in told if line], [b"more 1 5 1\n", b"more 1 5 5\n"])
        self.assertEqual(self.loop.waited, 0.125)
        self.now += 1
        self.loop.turns(3)
        self.assertEqual(read_now(one), b"more 1 5 8\n")
        self.now += 1
        self.loop.turns(3)
        self.assertEqual(read_now(one), b"")
        self.scrollback.drop(1)
        self.loop.turns(3)
        self.assertEqual(self.asked(one, "count 1 5"), b"count 1 5 0 4\n")

    def test_lost(self):
        """A snapshot dropped for lack of room isn't replaced by the stored rows."""
        one = self.connect(b"snapshot 1 5\n")
        self.prints(b"screen 0 1 3\n u\n")
        read_now(one)
        self.scrollback.room.most_held = 0
        self.prints(b"cleared 0\n")
        self.assertEqual(self.asked(one, "count 1 5", "rows 1 5 0 1", "find 1 5 0 on a", "release 1 5", "count 1 5"),
                         b"count 1 5 none the snapshot took too much memory and was dropped\n"
                         b"rows 1 5 none\nfound 1 5 none\ncount 1 5 3 3\n")

    def test_log(self):
        """Rows are sent as they come, and a gone pane's last screen; then its end."""
        one = self.connect(b"log 1 5 3\n")
        self.assertEqual(read_now(one), b"")
        self.prints(b"rows 0 2 6\n c\n d\n")
        self.assertEqual(read_now(one), b"rows 1 5 3 2 6\n c\n d\n")
        self.scrollback.drop(1)
        self.loop.turns(3)
        self.prints(b"rows 0 1 3\n e\nscreen 0 3 8\n s\n t\n \n")
        self.loop.turns(3)
        self.assertEqual(read_now(one), b"rows 1 5 5 1 3\n e\nrows 1 5 6 2 6\n s\n t\nlog 1 5 end\n")
        self.assertEqual((self.scrollback.leaving, self.scrollback.room.panes), ([], []))
        self.assertEqual(self.asked(one, "log 1 5 0"), b"log 1 5 none\n")

    def test_log_lost(self):
        """A slow log reader misses the rows that are dropped."""
        one = self.connect(b"log 1 5 3\n")
        rows = [f" {number}".encode() for number in range(3000)]
        for at in range(0, 3000, 100):
            data = b"".join(row + b"\n" for row in rows[at : at + 100])
            self.scrollback.panes[1].rows.add(100, data)
        self.scrollback.came()
        self.loop.turns(3)
        self.assertEqual(read_now(one).split(b"\n")[:2], [b"rows 1 5 2903 100 600", b" 2900"])

    def test_log_back(self):
        """Rows that are withdrawn and leave again at another width are sent once."""
        one = self.connect(b"log 1 5 3\n")
        self.prints(b"rows 0 4 16\n+cd\n ef\n+gh\n+ij\n")
        self.assertEqual(read_now(one), b"rows 1 5 3 4 16\n+cd\n ef\n+gh\n+ij\n")
        self.prints(b"back 0 4\n")
        self.prints(b"rows 0 2 13\n cdef\n+ghijk\n")
        self.assertEqual(read_now(one), b"rows 1 5 4 1 3\n+k\n")
        self.assertEqual(self.scrollback.panes[1].rows.end, 5)

    def test_log_waits(self):
        """The host waits a second for a slow log reader, and the output of the scrollback process stays unread meanwhile. If the reader
        continues nothing is lost. One that reads nothing misses rows, and gets no second wait until it has read everything.
        """
        one = self.connect(b"log 1 5 3\n")
        one.setsockopt(socket.SOL_SOCKET, socket.SO_RCVBUF, 4096)
        rows, printed, found = b"".join(b" %04d\n" % number for number in range(100)), 0, b""
        for _ in range(2000):
            if self.socket.has_full_log():
                break
            self.prints(b"rows 0 100 600\n" + rows)
            printed += 1
        self.assertFalse(self.scrollback.reads())
        self.prints(b"rows 0 100 600\n" + rows)
        self.assertEqual(self.scrollback.panes[1].rows.end, 3 + 100 * printed)
        for _ in range(1000):
            found += read_now(one)
            self.loop.turns()
        self.assertTrue(self.scrollback.reads())
        self.assertEqual(found.count(rows), printed + 1)
        while not self.socket.has_full_log():
            self.prints(b"rows 0 100 600\n" + rows)
        self.now += socket_server.LOG_WAIT
        self.loop.turns(2)
        self.assertTrue(self.scrollback.reads())
        for _ in range(300):
            self.prints(b"rows 0 100 600\n" + rows)
        self.assertTrue(self.scrollback.reads())
        self.assertLess(len(self.socket.peers[0].waiting), HostPeer.most + 2000)
        self.now += UNREAD + 1
        self.loop.turns(2)
        self.assertEqual(len(self.socket.peers), 1)
        for _ in range(1000):
            read_now(one)
            self.loop.turns()
        self.assertFalse(self.socket.peers[0].asker.is_late)
        self.assertEqual(self.asked(one, "count 1 5"), b"count 1 5 %d %d\n" % (self.socket.peers[0].asker.next_row - 100,
                                                                             self.socket.peers[0].asker.next_row))


class Taken(Rows):
    """Unread answers."""

    def wide(self):
        """Return a pane with rows of 2 kB."""
        self.scrollback.panes[1].rows.add(100, b"".join(b" " + b"x" * 2000 + b"\n" for _ in range(100)))

    def test_back_pressure(self):
        """A peer that reads nothing isn't read while much waits for it, and is answered in order afterwards."""
        self.wide()
        one = self.connect()
        one.setsockopt(socket.SOL_SOCKET, socket.SO_RCVBUF, 4096)
        for _ in range(50):
            one.send(b"rows 1 5 0 2000\n")
        self.loop.turns(200)
        peer = self.socket.peers[0]
        self.assertGreater(len(peer.waiting), HostPeer.most)
        self.assertLess(len(peer.waiting), HostPeer.most + (1 << 19))
        found = b""
        for _ in range(3000):
            found += read_now(one)
            self.loop.turns()
            if len(found) >= 50 * 200_000 and not peer.waiting:
                break
        self.assertEqual(found.count(b"rows 1 5 3 100"), 50)
        self.assertEqual(peer.answers, 0)

    def test_let_go(self):
        """A peer that reads nothing for a while is disconnected; one that reads something isn't."""
        self.wide()
        one, other = (self.connect(b"rows 1 5 0 2000\n" * 3) for _ in range(2))
        self.loop.turns(20)
        for _ in range(3):
            self.now += UNREAD - 1
            other.recv(65536)
            self.loop.turns(3)
        self.assertEqual([peer.number for peer in self.socket.peers], [2])
        one.close()

    def test_unasked(self):
        """Unrequested reports about a snapshot don't save a peer that reads nothing, and have a bounded queue."""
        self.wide()
        one = self.connect(b"snapshot 1 5\nrows 1 5 0 2000\n" + b"rows 1 5 0 2000\n" * 2)
        self.prints(b"screen 0 1 3\n u\n")
        peer = self.socket.peers[0]
        for _ in range(int(UNREAD) - 1):
            self.now += 1
            self.prints(b"rows 0 1 3\n c\n")
        self.assertEqual(self.socket.peers, [peer])
        self.now += 1
        self.loop.turns(2)
        self.assertEqual(self.socket.peers, [])
        one.close()

    def test_all(self):
        """The answers to all peers stay within their limit."""
        self.wide()
        with mock.patch.object(socket_server, "MOST_ANSWERS", 1_000_000):
            ends = [self.connect(b"rows 1 5 0 2000\n" * 2) for _ in range(10)]
            self.loop.turns(20)
        self.assertLess(sum(peer.answers for peer in self.socket.peers), 1_000_001)
        self.assertLess(len(self.socket.peers), 10)
        for one in ends:
            one.close()


class Buffered(Rows):
    """Buffers."""

    def test_kept(self):
        """The last twenty are stored, whole, with increasing numbers."""
        one = self.connect()
        for number in range(1, MOST_BUFFERS + 3):
            self.assertEqual(self.asked(one, f"buffer add {number}\n" + "x" * (number - 1)), f"buffer add {number} {number}\n".encode())
        self.assertEqual(self.asked(one, "buffer show 2", "buffer show 3"), b"buffer show 2 none\nbuffer show 3 3\nxx\n")
        told = self.asked(one, "buffer list").decode().split("\n")
        self.assertEqual((told[0], told[1], told[-2]), ("buffers 20", f"22 22 {'x' * 21}\\n", "3 3 xx\\n"))

    def test_refused(self):
        """A buffer is refused if it is too long, one of several at once, from a read-only peer, or empty; its bytes are skipped."""
        one, other, watching = self.connect(), self.connect(), self.connect(b"here x 1 1 read-only\n")
        self.say(one, f"buffer add {MOST_BUFFER + 1}\n".encode())
        left = MOST_BUFFER + 1
        while left:
            left -= one.send(b"x" * min(left, 65536))
            self.loop.turns(2)
        self.loop.turns(20)
        self.assertEqual(read_now(one), f"buffer add none {BUFFER_TOO_LONG}\n".encode())
        self.assertEqual(self.asked(one, "buffer add 0"), f"buffer add none {BUFFER_EMPTY}\n".encode())
        self.assertEqual(self.asked(watching, "buffer add 2\na"), f"buffer add none {BUFFER_READ_ONLY}\n".encode())
        self.assertEqual(self.socket.uploads.coming(True), 0)
        more = [self.connect() for _ in range(4)]
        for each in more:
            self.say(each, f"buffer add {MOST_BUFFER}\n".encode())
        more.pop().close()
        self.say(more[0], b"x")
        third = self.connect(f"buffer add {MOST_BUFFER - 1}\n".encode())
        self.assertEqual(self.asked(one, "buffer add 2\na"), f"buffer add none {BUFFERS_TOO_MANY}\n".encode())
        third.close()
        self.connect(f"buffer add {MOST_BUFFER - 2}\n".encode())
        self.assertEqual(self.asked(other, "buffer add 2\na"), b"buffer add 1 2\n")
        self.assertEqual(self.socket.uploads.coming(True), MOST_COMING - 2)
        self.socket.uploads.buffers = PasteBuffers()
        self.say(other, b"buffer add 2\na")
        self.assertEqual(self.socket.uploads.coming(True), MOST_COMING)
        other.close()
        self.loop.turns(2)
        self.assertEqual((self.socket.uploads.coming(True), self.asked(one, "buffer list")), (MOST_COMING - 2, b"buffers 0\n"))

    def test_given(self):
        """A buffer is stored as a text: its pasteable part, once; an unknown one is refused."""
        one = self.connect()
        self.asked(one, "buffer add 12\na\nb\t\x1b[201~c")
        self.assertEqual(self.asked(one, f"paste {NAME} buffer 1"), f"stored {NAME}\n".encode())
        self.assertEqual(self.socket.uploads.texts.texts[NAME].data, b"a\rb\t[201~c\r")
        self.assertEqual(self.asked(one, f"paste {NAME} buffer 9"), f"stored {NAME}\n".encode())
        self.assertEqual(self.asked(one, f"paste {NAME[::-1]} buffer 9"), f"refused {NAME[::-1]} {BUFFER_UNKNOWN}\n".encode())
        self.assertEqual((self.socket.uploads.coming(False), len(self.socket.uploads.texts.texts)), (0, 1))
        self.assertEqual(self.asked(one, f"status {NAME}", f"status {NAME[::-1]}"), f"stored {NAME}\nlost {NAME[::-1]}\n".encode())

    def test_sample(self):
        """The sample has the first printable characters, and a mark for a line's end."""
        self.assertEqual((sample(b"a\nb\x1b[2J\xff" + b"c" * 50), sample("\u4e00".encode() * 50), sample(b"\n")),
                         ("a\\nb[2J\ufffd" + "c" * 32, "\u4e00" * 40, "\\n"))
        self.assertEqual((sample(b"a\r\nb\rc"), sample(b"\n" * 50)), ("a\\nb\\nc", "\\n" * 20))
