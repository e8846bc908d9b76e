"""Unexpected exceptions in the pty host: the part that each ends, and the log."""
import errno
import os
import socket
from unittest import mock

from aids import Case, read_now
from roam_live.common import fault_log
from roam_live.common.errors import logs
from roam_live.common.fault_log import FaultLog, SoonFaults
from roam_live.host import pane as host_pane, scrollback_process, scrollback_store, window_commands
from roam_live.host.scrollback_store import RowsRoom
from roam_live.host.socket_server import HostSocket
from roam_live.host.uploads import PendingPastes
from test_pty_host import Host


class Logged(Case):
    """The log of exceptions."""

    def setUp(self):
        self.now = 100.0
        self.path = self.made_folder() / "log"
        self.path.touch()
        logs.append(self.path)
        self.addCleanup(logs.remove, self.path)
        self.said, self.log = self.heard(), FaultLog(lambda: self.now)

    def fault(self, words, depth=0):
        """Log an exception."""
        try:
            self.deep(words, depth)
        except ValueError as fault:
            self.log.take(fault)

    def deep(self, words, depth):
        """Raise an exception, so many calls deeper."""
        if depth:
            self.deep(words, depth - 1)
        raise ValueError(words)

    def test_told(self):
        """An exception is one line on standard error, and a printable, bounded traceback in the log."""
        self.fault("\x1b[2J" + "x" * 9000, 200)
        text = self.path.read_text()
        self.assertEqual(self.said.getvalue()[:63], f"run: internal error, roam continues: ValueError: ?[2J{'x' * 10}")
        self.assertTrue(text.startswith(f"run, process {os.getpid()}:\nTraceback (most recent call last):\n"))
        self.assertTrue("deep" in text and "\x1b" not in text and len(text) < fault_log.MOST_LOGGED + 100
                        and len(self.said.getvalue()) < 400)

    def test_apart(self):
        """One from the same source line is logged once a minute, with the count; one from another line is logged."""
        for _ in range(5):
            self.fault("one")
        self.fault("two", 3)
        try:
            int("x")
        except ValueError as fault:
            self.log.take(fault)
        self.assertEqual((self.said.getvalue().count("internal error"), self.log.count), (2, 7))
        self.now += fault_log.APART
        self.fault("one")
        self.assertIn("ValueError: one (5 more since the last one logged)\n", self.said.getvalue())

    def test_refused(self):
        """A failure to log raises nothing, and a bounded number of source lines is remembered."""
        with mock.patch.object(fault_log, "say", side_effect=MemoryError):
            self.fault("one")
        with mock.patch.object(fault_log, "place_of", side_effect=map(str, range(100))):
            for _ in range(100):
                self.fault("x")
        self.assertEqual(len(self.log.logged), fault_log.MOST_PLACES)

    def test_soon(self):
        """The third within ten seconds is too many."""
        soon = SoonFaults(lambda: self.now)
        told = []
        for now in (100, 101, 109.9, 110.5, 120, 121, 131):
            self.now = now
            told.append(soon.is_last())
        self.assertEqual(told, [False, False, True, True, False, False, False])


class Kept(Host):
    """The part that an exception ends."""

    def asker(self, *lines):
        """Connect to `host` and send lines."""
        one = socket.socket(socket.AF_UNIX, socket.SOCK_STREAM)
        self.addCleanup(one.close)
        one.connect(str(self.folder / "host"))
        one.setblocking(False)
        one.send("".join(f"0 {line}\n" for line in lines).encode())
        return one

    def test_peer(self):
        """An exception in a peer's line ends that connection only."""
        panes = self.begin()
        other = self.asker("who")
        take_line = HostSocket.take_line
        with mock.patch.object(HostSocket, "take_line",
                               lambda one, peer, number, line: 1 / 0 if line == "zero" else take_line(one, peer, number, line)):
            one = self.asker("zero", "who")
            self.turn(4)
        self.assertEqual((one.recv(9), [peer.asks for peer in self.host.channel.peers], self.host.common.faults.count), (b"", [True], 1))
        self.assertIn(b"host ", read_now(other))
        self.made[0].send(b"goes on")
        self.turn()
        self.assertEqual(read_now(panes[0]), b"goes on")

    def test_chunk(self):
        """An exception in a pane's output loses none of it; the third within 10 s closes the pane, and no other."""
        panes = self.begin()
        self.host.asked.close = True
        pane = self.host.panes[2]
        with mock.patch.object(pane, "touch", side_effect=ValueError("wrong")):
            for text in (b"one", b"two"):
                self.made[1].send(text)
                self.turn()
        self.made[1].send(b"three")
        self.turn()
        self.assertEqual((read_now(panes[1]), pane.state.has_ended), (b"onetwothree", False))
        with mock.patch.object(pane, "touch", side_effect=ValueError("wrong")):
            self.made[1].send(b"four")
            self.turn(4)
        self.assertIsNone(pane.terminal)
        self.assertEqual((list(self.host.panes), self.host.is_over), ([1, 2], False))
        self.assertIn(host_pane.GIVEN_UP, read_now(panes[1]))
        self.assertTrue(read_now(self.server).endswith(b"close 2 5\n"))
        self.made[0].send(b"goes on")
        self.turn()
        self.assertEqual(read_now(panes[0]), b"goes on")

    def test_only(self):
        """The only pane of a window stays, and a key starts its command again."""
        self.tell("1 1 1 23 80 4", "focus 1")
        self.host.asked.close = True
        end = self.taken(self.listeners["p1"])
        pane = self.host.panes[1]
        with mock.patch.object(pane, "touch", side_effect=ValueError("wrong")):
            for _ in range(3):
                self.made[0].send(b"x")
                self.turn()
        self.assertEqual((pane.terminal, pane.state.process, self.host.is_over), (None, None, False))
        read_now(end)
        end.send(b"k")
        self.turn()
        self.assertIsNone(pane.state.process)
        self.now += 1.0
        self.turn()
        self.made[1].send(b"new")
        self.turn()
        self.assertEqual((pane.state.process, read_now(end), self.host.common.windows()), (72, b"new", [self.host]))

    def test_moment(self):
        """Exceptions in a timer, a hook and `tend` are logged, and everything else continues."""
        panes = self.begin()
        self.host.loop.later("moment", 0, lambda: 1 / 0)
        self.host.loop.each(lambda: [][0])
        with mock.patch.object(self.host, "touch", side_effect=KeyError("touch")):
            self.made[1].send(b"x")
            self.turn(3)
        self.made[0].send(b"goes on")
        self.turn()
        self.assertEqual((read_now(panes[0]), self.host.common.is_over), (b"goes on", False))
        self.assertEqual([name in self.said.getvalue() for name in ("ZeroDivisionError", "IndexError", "KeyError")], [True] * 3)

    def test_panes(self):
        """Malformed lines of the server are ignored; an exception in one drops that connection only."""
        self.begin()
        self.tell("", " ", "focus", "focus 9 9", "1 2", "query 1 " + "9" * 9000 + " version", "1 1 1 99999 99999 4", "\u0661 gone", "modes")
        self.assertEqual((self.host.common.faults.count, sorted(self.host.panes)), (0, [1, 2]))
        with mock.patch.object(self.host, "there_is", side_effect=KeyError("there is")):
            self.tell("1 1 1 23 39 4")
        self.assertEqual((self.host.common.faults.count, sorted(self.host.panes)), (1, [1, 2]))

    def test_memory(self):
        """If memory is short, scrollback rows are dropped and the pane continues a second later, however often that happens."""
        panes = self.begin()
        self.host.rows.shed = mock.Mock()
        with mock.patch.object(self.host.panes[1].output, "take", lambda *words: self.short()):
            self.made[0].send(b"kept")
            for _ in range(5):
                self.turn()
                self.now += 1.0
        self.assertEqual(len(self.host.rows.shed.call_args_list), 5)
        self.now += 1.0
        self.turn()
        self.assertEqual((read_now(panes[0]), self.host.panes[1].runs()), (b"kept", True))

    def short(self):
        """Raise a MemoryError."""
        raise MemoryError


class Sizes(Case):
    """Sizes in requests."""

    def test_open(self):
        """A size is cut to the largest of a session; an invalid size is a bad line."""
        asked = []
        table = mock.Mock(open=lambda size, beside, told, begins, request: asked.append(size))
        lines = window_commands.WindowLines(table, mock.Mock(channels={}))
        peer = mock.Mock(is_read_only=lambda: False, opening=0, asks_windows=False)
        words = ("24 80", "1 1", "24 65536", "99999 99999", "65537 80", "200 500", "201 501", "0 80", "100000 80", "24", "-1 80")
        taken = []
        for word in words:
            peer.opening = 0
            taken.append(lines.take(peer, 1, f"open {word}"))
        self.assertEqual(asked, [(24, 80), (1, 1), (24, 500), (200, 500), (200, 80), (200, 500), (200, 500)])
        self.assertEqual(taken, [True] * 7 + [False] * 4)


class Short(Case):
    """Scrollback rows if memory is short."""

    def test_shed(self):
        """The older half is dropped, of all panes, and so are snapshots."""
        room = RowsRoom(1000)
        panes = [room.pane(number, 1) for number in (1, 2)]
        for count in range(8):
            panes[count % 2].add(1, bytes(scrollback_store.JOINED - 1) + b"\n")
        snapshot = room.snapshot(panes[0], 1, b"x\n")
        room.shed()
        self.assertEqual(([len(pane.chunks) for pane in panes], snapshot.is_lost, room.held), ([2, 2], True, 0))
        self.assertEqual(room.kept, sum(chunk.charge() for pane in panes for chunk in pane.chunks))

    def test_handed(self):
        """A record for the scrollback process is queued completely or not at all."""
        one = scrollback_process.ScrollbackProcess.__new__(scrollback_process.ScrollbackProcess)
        one.terminal, one.chunks, one.chunks_size, one.waiting = 3, [b"ab", b"c"], 3, bytearray()
        one.sheds = mock.Mock()
        with mock.patch.object(scrollback_process.ScrollbackProcess, "join_chunks", side_effect=[MemoryError, None]):
            one.join()
        one.terminal = 3
        one.join()
        self.assertEqual((one.sheds.call_count, bytes(one.waiting), one.chunks), (1, b"bytes 3 3\nabc", []))

    def test_records(self):
        """A chunk can be fed again after a MemoryError."""
        records = scrollback_process.ScrollbackRecords()
        self.assertEqual(records.fed(b"rows 7 2 6\n a"), [])
        with mock.patch.object(records, "made", side_effect=MemoryError), self.assertRaises(MemoryError):
            records.fed(b"\n b\nrows 8 1 3\n c\nrow")
        found = records.fed(b"\n b\nrows 8 1 3\n c\nrow") + records.fed(b"s 9 0 0\n")
        self.assertEqual([tuple(one) for one in found], [("rows", 7, 2, b" a\n b\n"), ("rows", 8, 1, b" c\n"), ("rows", 9, 0, b"")])
