"""The two ends of a relay, made by hand: commands, clients and frames over pipes."""
import argparse
import contextlib
import os
import signal
import socket
import zlib
from unittest import mock

from aids import Case, StillLoop, ended, loaded, read_now
from roam_live.common.errors import Fault
from roam_live.protocol.datagram_stream import LONGEST, SHORTEST
from roam_live.relay import common, far, near, near_command
from test_frames import HOSTILE, ODD
from roam_live.relay.forwarding import BYTES, FORWARDS, OPEN
from roam_live.relay.frames import COUNT, ENDED, HAD, HEADER, KILLED, UNPACKS, WAITING_LIMIT, BadWords, RelayStream, Waiting, greeting

relay = loaded("relay")


def datagram(instruction, fragment=0, length=SHORTEST):
    """Return a datagram of an instruction."""
    return (b"RM" + bytes(26) + instruction.to_bytes(8, "big") + fragment.to_bytes(2, "big") + bytes(4)).ljust(length, b"x")


def packed(*frames):
    """Return frames, each a peer and a text, in their form on a stream."""
    packer = zlib.compressobj()
    return packer.compress(b"".join(HEADER.pack(len(text), peer) + text for peer, text in frames)) + packer.flush(zlib.Z_SYNC_FLUSH)


class Other:
    """The reader at the other end of a stream."""

    def __init__(self, end):
        self.end, self.text = end, b""

    def frames(self):
        """Return its received frames, after the greeting."""
        self.text += read_now(self.end)
        body = self.text.partition(b"\n")[2]
        text, found = zlib.decompressobj().decompress(body), []
        while text:
            length, peer = HEADER.unpack(text[: HEADER.size])
            found.append((peer, text[HEADER.size : HEADER.size + length]))
            text = text[HEADER.size + length :]
        return [frame for frame in found if frame not in ((0, UNPACKS), (0, FORWARDS))]


class FakeLink:
    """A simulated command: its stream is over pipes."""

    def __init__(self, case, session="-"):
        (self.source, self.said), (heard, self.target) = case.pipe(), case.pipe()
        self.other, self.packer = Other(heard), zlib.compressobj()
        self.stream = RelayStream(self.source, self.target, session)
        self.errors = None
        self.since = case.now
        self.process = mock.Mock(poll=mock.Mock(return_value=None))
        self.has_ended = False

    def say(self, text):
        """Send a text from the other end."""
        os.write(self.said, text)

    def tell(self, *frames):
        """Send frames from the other end, of one stream."""
        text = b"".join(HEADER.pack(len(text), peer) + text for peer, text in frames)
        self.say(self.packer.compress(text) + self.packer.flush(zlib.Z_SYNC_FLUSH))

    def hang_up(self):
        """End it from the other end."""
        ended(self.said)

    def join(self, loop, hears):
        """Let a loop write, and call `hears` for input."""
        self.loop = loop
        loop.add(self.target, None, self.stream.flush, has_more=lambda: self.stream.going)
        loop.add(self.source, hears)

    def end(self):
        """End it."""
        self.has_ended = True
        self.loop.remove(self.target)
        self.loop.remove(self.source)
        ended(self.source)
        ended(self.target)

    def pass_errors(self):
        """Do nothing: there are none."""

    def status(self):
        """Return its status."""
        return 7


class Ends(Case):
    """A folder, with a stopped clock."""

    def setUp(self):
        self.stop_clock()
        self.environment(ROAM_UDP="never")
        self.folder = self.made_folder()
        self.wakeup, self.wakes = self.pipe()

    def asked(self, **more):
        """Return the options of a command line."""
        known = {"far": False, "greeted": False, "owner": None, "alone": None, "log": None, "host": "", "dir": str(self.folder),
                 "session": None, "server": None, "port": None, "command": ["ssh", "there"]}
        return argparse.Namespace(**{**known, **more})


class Nears(Ends):
    """The near end, next to the clients."""

    def setUp(self):
        super().setUp()
        self.links = []
        self.made = self.patch_of(near, "RunningCommand", side_effect=self.new_link)
        self.printed_text = self.printed()
        self.said = self.heard()
        self.near = self.near_end()

    def near_end(self, **more):
        """Return a near end."""
        one = near.Near(self.asked(**more), self.wakeup, StillLoop())
        self.addCleanup(lambda: one.is_closed or self.close(one))
        one.is_closed = False
        return one

    def close(self, one):
        """End it."""
        one.is_closed = True
        one.close()

    def new_link(self, command, session, may_ask):
        """Return a simulated command."""
        link = FakeLink(self, session)
        link.words = command, session, may_ask
        self.links.append(link)
        return link

    def turn(self, count=1):
        """Take so many turns without waits."""
        for _ in range(count):
            self.near.turn()

    def answer(self, session="abc"):
        """Let the first command's other end answer."""
        self.turn()
        self.links[-1].say(greeting(session))
        self.turn()

    def client(self):
        """Return a client that connects."""
        one = socket.socket(socket.AF_UNIX, socket.SOCK_STREAM)
        self.addCleanup(one.close)
        one.connect(str(self.folder / "clients"))
        one.setblocking(False)
        self.turn(2)
        return one

    def test_answered(self):
        """It starts its command, which may ask, and reports the session once the other end has answered."""
        self.turn(3)
        self.assertEqual([link.words for link in self.links], [(["ssh", "there"], "-", True)])
        self.links[0].say(b"Welcome\r\n" + greeting("abc"))
        self.turn()
        self.assertEqual(self.printed_text.getvalue(), "port - session abc\n")
        self.assertEqual((self.folder / "session").read_text(encoding="utf-8"), "abc\n")
        self.assertIs(self.near.link, self.links[0])
        self.assertEqual((self.near.tries, self.said.getvalue()), ([], ""))

    def test_windows(self):
        """Reported windows have a socket each here, and the session is found by an existing one; the clients of a gone one are dropped, and
        no others.
        """
        self.answer()
        self.near.take_windows({2: "abc", 5: "def"})
        self.assertEqual((self.near.session, self.near.peers.has_windows), ("abc", True))
        clients = {}
        for number in (2, 5):
            clients[number] = socket.socket(socket.AF_UNIX, socket.SOCK_STREAM)
            self.addCleanup(clients[number].close)
            clients[number].connect(str(self.folder / f"w/{number}/clients"))
            self.turn(2)
        self.near.take_windows({5: "def"})
        self.assertEqual((self.near.session, (self.folder / "session").read_text(encoding="utf-8")), ("def", "def\n"))
        self.assertEqual((list(self.near.window_of.values()), clients[2].recv(1)), ([5], b""))
        self.near.take_windows({})
        self.assertEqual(list(self.near.window_of.values()), [5])

    def test_forwards(self):
        """Datagrams go both ways, each to its own client."""
        self.answer()
        clients = [self.client(), self.client()]
        for number, client in enumerate(clients, 1):
            text = datagram(number)
            client.send(len(text).to_bytes(2, "big") + text)
        self.turn(3)
        self.assertEqual(self.links[0].other.frames(), [(1, datagram(1)), (2, datagram(2))])
        self.links[0].say(packed((2, datagram(7)), (1, datagram(8)), (9, datagram(9))))
        self.turn(2)
        for client, number in zip(clients, (8, 7)):
            text = datagram(number)
            self.assertEqual(read_now(client), len(text).to_bytes(2, "big") + text)
        clients[0].close()
        self.turn(2)
        self.assertEqual((len(self.near.carriers), list(self.near.peers.numbers.values())), (1, [2]))

    def test_not_forwarded(self):
        """Without the far end's announcement of forwarding, none of the sockets that replace remote ones exist; unknown announcements are
        ignored.
        """
        self.answer()
        told = [(0, b"p1 1 1 23 80\nfocus 1\n"), (0, b"b\3"), (0, b"b"), (0, b"k\3\1"), (0, b"z?")]
        self.links[0].say(packed(*told))
        self.turn(2)
        self.assertEqual((self.near.forwards, self.near.link), (False, self.links[0]))
        self.assertEqual([name for name in ("panes", "host") if (self.folder / name).exists()], [])

    def test_ended(self):
        """The session's end ends it with status 0, and is recorded."""
        for text, noted in ((ENDED, ""), (KILLED, "killed")):
            with self.subTest(noted):
                self.answer()
                self.links[-1].say(packed((0, text)))
                with self.assertRaises(common.Ended) as way:
                    self.turn()
                self.assertEqual(way.exception.args, (0,))
                self.close(self.near)
                self.assertEqual((self.folder / "ended").read_text(encoding="utf-8"), noted)
                for name in ("clients", "session", "panes", "host"):
                    self.assertFalse((self.folder / name).exists(), name)
                self.near = self.near_end()

    def test_hostile(self):
        """A far end with invalid messages is ended, with a report, and another is spawned, after growing pauses; the next greeting has the
        session. Ten times end the relay.
        """
        self.answer()
        texts = (packed((0, b"")), packed((0, OPEN + b"\0\1panes")), packed((0, BYTES + b"\0")), packed((0, ENDED + b"x")),
                 packed((0, HAD + b"1")), packed((0, COUNT.pack(HAD, 1))), packed((1, datagram(1)[:-1])),
                 packed((1, datagram(1, length=LONGEST + 1))), b"\xff" * 9, zlib.compress(b"") + b"x")
        for count, text in enumerate(texts):
            link, pause = self.near.link, min(2 << count, 60)
            link.say(text)
            if count == 9:
                with self.assertRaisesRegex(Fault, "; the other end has sent invalid data 10 times; giving up"):
                    self.turn()
                break
            self.turn()
            self.assertEqual(self.said.getvalue().count(f"; next try in {pause} s\n"), max(1, count - 4), text)
            self.assertTrue(link.has_ended and self.near.link is None)
            self.now += pause - 0.1
            self.turn()
            self.assertEqual(len(self.links), count + 1)
            self.now += 0.1
            self.turn()
            self.assertEqual(self.links[-1].words, (["ssh", "there"], "abc", False))
            self.links[-1].say(greeting("abc"))
            self.turn()
            self.assertIs(self.near.link, self.links[-1])
        self.assertNotIn("Traceback", self.said.getvalue())

    def test_forgiven(self):
        """Ten minutes of a validated transport make it forget earlier invalid messages."""
        self.answer()
        for seconds, count in ((599, 2), (600, 1)):
            self.near.broken.count = 1
            self.near.link.say(packed((0, b"")))
            self.turn()
            self.now += 4
            self.turn()
            self.links[-1].say(greeting("abc"))
            self.turn()
            self.near.tend()
            for _ in range(seconds):
                self.now += 1
                self.near.link.stream.heard = self.near.link.stream.moved = self.now
                self.near.tend()
            self.assertEqual(self.near.broken.count, count if count > 1 else 0)

    def test_told_often(self):
        """Reports of windows in quick succession are applied once in a tenth of a second, with the newest of them."""
        self.answer()
        take = self.patch_of(self.near, "take_windows")
        for text in (b"n1 a", b"n1 b", b"n1 c"):
            self.near.hear_windows(text)
        self.turn()
        take.assert_called_once_with({1: "a"})
        self.now += 0.1
        self.turn()
        self.assertEqual(take.call_args_list[1:], [mock.call({1: "c"})])
        self.now += 0.1
        self.turn()
        self.near.hear_windows(b"n1 d")
        self.assertEqual(take.call_args_list[2:], [mock.call({1: "d"})])

    def test_whatever(self):
        """Whatever a far end sends after its answer, this one continues, logs printable words, and stores little of it."""
        self.answer()
        for name, (text, told) in {**HOSTILE, **{name: (text, "") for name, text in ODD.items()}}.items():
            with self.subTest(name):
                link, before, kept = self.near.link, len(self.said.getvalue()), 0
                for begin in range(0, len(text), 16384):
                    if self.near.link is link:
                        link.say(text[begin : begin + 16384])
                        self.turn()
                        kept = max(kept, len(link.stream.coming))
                self.assertLess(kept, 140_000)
                said = self.said.getvalue()[before:]
                self.assertTrue("".join(said.split("\n")).isprintable())
                self.assertIn(told, said)
                self.assertEqual(self.near.link is link, not told)
                self.near.tries = []
                self.near.link, self.near.has_answered, self.near.next_try, self.near.broken.count = None, False, 0.0, 0
                self.answer()

    def test_not_a_datagram(self):
        """A text with the length of a datagram that isn't roam's reaches no client."""
        self.answer()
        client = self.client()
        text = datagram(1)
        client.send(len(text).to_bytes(2, "big") + text)
        self.turn(2)
        self.links[0].say(packed((1, b"XX" + datagram(1)[2:])))
        self.turn(2)
        self.assertEqual(read_now(client), b"")

    def test_first_hostile(self):
        """Invalid messages of the first one end it."""
        self.turn()
        self.links[0].say(b"x" * 65536)
        self.turn()
        self.links[0].say(b"x")
        with self.assertRaisesRegex(BadWords, "the other end is not a relay"):
            self.turn(2)

    def test_first_earlier(self):
        """So does a first one of another version."""
        self.turn()
        self.links[0].say(b"roam-relay 1 abc\n")
        with self.assertRaisesRegex(BadWords, "of an older roam"):
            self.turn()

    def test_many_clients(self):
        """256 clients are accepted; the others wait until one has left, and it continues."""
        clients = []
        for number in range(260):
            one = socket.socket(socket.AF_UNIX, socket.SOCK_STREAM)
            self.addCleanup(one.close)
            one.setblocking(False)
            one.connect(str(self.folder / "clients"))
            clients.append(one)
            if number % 8 == 7:
                with mock.patch.object(self.near, "tend"):
                    self.turn(8)
        self.turn(8)
        self.assertEqual(len(self.near.carriers), 256)
        for one in clients[:3]:
            one.close()
        self.turn(8)
        self.assertEqual(len(self.near.carriers), 256)

    def test_other_session(self):
        """Another session over the same command is the end of this one."""
        self.answer()
        self.near.drop(self.near.link)
        self.now += 30
        self.turn()
        self.links[-1].say(greeting("def"))
        with self.assertRaises(common.Ended) as way:
            self.turn()
        self.assertEqual((way.exception.args, self.near.is_over), ((0,), True))

    def test_silent(self):
        """After seven seconds of silence another command is spawned beside the silent one, and the first that answers is the link."""
        self.answer()
        self.now += 7.0
        self.turn()
        self.assertEqual((len(self.links), self.said.getvalue()), (1, ""))
        self.now += 0.1
        self.turn()
        self.assertEqual((len(self.links), self.said.getvalue()), (2, "%s: the other end is silent\n" % self.tool))
        self.assertIs(self.near.link, self.links[0])
        self.links[1].say(greeting("abc"))
        self.turn(2)
        self.assertTrue(self.links[0].has_ended and self.near.link is self.links[1])
        self.assertTrue(self.said.getvalue().endswith("the other end answers again\n"))

    @property
    def tool(self):
        """Return the name of this tool."""
        from roam_live.common.errors import tool_name

        return tool_name()

    def test_back(self):
        """A silent one that answers again stays, and the others end."""
        self.answer()
        self.now += 7.1
        self.turn()
        self.links[0].say(packed((0, b"z")))
        self.turn(2)
        self.assertTrue(self.links[1].has_ended and self.near.link is self.links[0])
        self.assertEqual((self.near.tries, self.near.ending), ([], [self.links[1]]))

    def test_pauses(self):
        """Commands are started after 0.2, 1, 2 and then every 5 s, and each has 20 s."""
        self.answer()
        self.near.drop(self.near.link)
        begun = []
        self.near.next_try = 0.0
        self.near.retry.faults = 0
        for _ in range(400):
            before = len(self.links)
            self.near.tend()
            if len(self.links) > before:
                begun.append(round(self.now - 100, 1))
            self.now = round(self.now + 0.1, 1)
        self.assertEqual([round(begun[at + 1] - begun[at], 1) for at in range(6)], [0.2, 1, 2, 5, 5, 5])
        self.assertTrue(self.links[1].has_ended)
        self.assertLessEqual(len(self.near.tries), 5)
        self.assertEqual(self.said.getvalue().count("the other end has ended"), 1)
        self.assertEqual((near.PATIENCE, near.SILENT, near.PAUSES), (20.0, 7.0, (0.2, 1, 2, 5)))

    def test_patience(self):
        """The first, which may wait for the user's answer, has unlimited time."""
        self.turn()
        self.now += 3600
        self.turn(2)
        self.assertEqual((len(self.links), self.links[0].has_ended), (1, False))

    def test_validated(self):
        """A link of 5 s resets the pauses."""
        self.answer()
        self.near.retry.faults = 4
        self.now += 5
        self.near.tend()
        self.assertEqual(self.near.retry.faults, 4)
        self.now += 0.1
        self.near.tend()
        self.assertEqual(self.near.retry.faults, 0)

    def test_lost(self):
        """Another command replaces an ended one; one that ends before any answer ends a relay that can't wait."""
        self.answer()
        os.close(self.links[0].said)
        self.turn()
        self.assertIsNone(self.near.link)
        self.now += 0.3
        self.turn()
        self.assertEqual(len(self.links), 2)
        self.close(self.near)
        for more, ends in (({"alone": 9.0}, True), ({}, False)):
            self.near = self.near_end(**more)
            self.turn()
            os.close(self.links[-1].said)
            line = "ssh there ended with status 7 before it answered"
            if ends:
                with self.assertRaisesRegex(Fault, line):
                    self.turn()
            else:
                self.turn()
                self.assertIn(line, self.said.getvalue())
            self.close(self.near)

    def test_not_there(self):
        """If nothing is installed there a message gives advice."""
        self.close(self.near)
        self.near = self.near_end(alone=9.0)
        self.turn()
        self.links[-1].status = lambda: 127
        os.close(self.links[-1].said)
        told = "before it answered: roam is not installed there, or --far must name its roam-mux$"
        with self.assertRaisesRegex(Fault, told):
            self.turn()

    def test_not_started(self):
        """If the system refuses the first command that is an error; later it is reported and retried."""
        self.made.side_effect = FileNotFoundError(2, "No such file or directory")
        with self.assertRaisesRegex(Fault, "^ssh: No such file or directory$"):
            self.turn()
        self.near.has_answered = True
        self.turn()
        self.assertIn("ssh: No such file or directory\n", self.said.getvalue())
        self.assertEqual(self.near.next_try, 100.2)

    def test_alone(self):
        """With --alone it ends if no front end was connected for so many seconds; it checks every five."""
        self.near.asked.alone = 60.0
        counts = self.patch_of(near.NearSockets, "is_used", return_value=True)
        self.now += 4.9
        self.near.look()
        counts.assert_not_called()
        self.now += 0.1
        self.near.look()
        self.near.look()
        counts.assert_called_once_with()
        counts.return_value = False
        for _ in range(12):
            self.now += 5
            self.near.look()
        self.now += 5
        with self.assertRaises(common.Ended) as way:
            self.near.look()
        self.assertEqual(way.exception.args, (0,))

    def test_owner(self):
        """With --with it ends when that process does, and by a signal with 128 and its number."""
        process = self.process("true")
        process.wait()
        reader, writer = self.pipe()
        self.patch_of(near, "opened_process", side_effect=[reader])
        self.close(self.near)
        self.near = self.near_end(owner=process.pid)
        self.turn()
        os.close(writer)
        with self.assertRaises(common.Ended) as way:
            self.turn()
        self.assertEqual(way.exception.args, (0,))
        self.near.loop.remove(reader)
        os.write(self.wakes, bytes([signal.SIGCHLD, signal.SIGTERM]))
        with self.assertRaises(common.Ended) as way:
            self.turn()
        self.assertEqual(way.exception.args, (143,))
        common.end_for(self.wakeup)

    def test_clients(self):
        """256 clients are accepted; another waits, and so does one without a free descriptor, for a second."""
        listener = self.near.listener
        self.near.carriers = [None] * 255
        self.assertTrue(listener.hears())
        self.near.carriers = [None] * 256
        self.assertFalse(listener.hears())
        self.near.carriers = []
        end = listener.end
        listener.end = mock.Mock(accept=mock.Mock(side_effect=OSError(24, "Too many open files")))
        listener.take()
        self.assertEqual((listener.hears(), "a client waits: Too many open files" in self.said.getvalue()), (False, True))
        self.now += 1.0
        self.turn()
        self.assertTrue(listener.hears())
        listener.end = mock.Mock(accept=mock.Mock(side_effect=BlockingIOError(11, "none")))
        listener.take()
        self.assertTrue(listener.hears())
        listener.end = end
        with mock.patch("os.getuid", return_value=os.getuid() + 1):
            one = socket.socket(socket.AF_UNIX, socket.SOCK_STREAM)
            self.addCleanup(one.close)
            one.connect(str(self.folder / "clients"))
            listener.take()
        self.assertEqual((self.near.carriers, one.recv(1)), ([], b""))

    def test_lies(self):
        """A client that sends an invalid datagram is disconnected."""
        client = self.client()
        client.send((SHORTEST - 1).to_bytes(2, "big") + bytes(SHORTEST - 1))
        self.turn()
        self.assertEqual((self.near.carriers, client.recv(1)), ([], b""))

    def wait_time(self):
        """Return its waiting time."""
        return self.near.loop.wait_time()

    def test_wait_time(self):
        """It waits until the next command, check, heartbeat or silence is due."""
        self.assertIsNone(self.wait_time())
        self.assertEqual(len(self.links), 1)
        self.near.asked.alone = 60.0
        self.assertAlmostEqual(self.wait_time(), 5.0)
        self.near.loop.later("x", 1, lambda: None)
        self.assertAlmostEqual(self.wait_time(), 1.0)
        self.now += 1
        self.links[0].say(greeting("abc"))
        self.turn()
        self.near.asked.alone = None
        self.assertAlmostEqual(self.wait_time(), self.near.link.stream.due_at() - self.now)
        self.now += 6.9
        self.near.link.stream.spoke = self.now
        self.assertAlmostEqual(self.wait_time(), 0.1)

    def test_log(self):
        """Later lines go to the log that --log names."""
        log = self.folder / "log"
        dup = self.patch("os.dup2")
        self.near.asked.log = str(log)
        self.patch_of(near, "logs", [])
        self.answer()
        self.assertEqual((dup.call_args[0][1], near.logs, log.exists()), (2, [str(log)], True))

    def test_port(self):
        """A port of loopback is another entry: each address has a number of its own."""
        self.close(self.near)
        self.near = self.near_end(port=0, dir=None)
        port = self.near.port.getsockname()[1]
        self.answer()
        self.assertEqual(self.printed_text.getvalue(), f"port {port} session abc\n")
        one = common.loopback_socket()
        self.addCleanup(one.close)
        one.sendto(datagram(1), ("127.0.0.1", port))
        one.sendto(b"no datagram", ("127.0.0.1", port))
        self.turn(3)
        self.assertEqual(self.links[0].other.frames(), [(1, datagram(1))])
        self.links[0].say(packed((1, datagram(2))))
        self.turn(2)
        self.assertEqual(one.recv(2000), datagram(2))
        with self.assertRaisesRegex(Fault, f"^port {port}: Address already in use$"):
            near.bound_port(port)
        self.assertIsNone(near.bound_port(None))


class Numbers(Ends):
    """Numbers of clients."""

    def test_numbers(self):
        """A number isn't reused before all others, and 256 are known at once."""
        gone = []
        peers = near.Peers(gone.append)
        self.assertEqual([peers.number(name) for name in "abab"], [1, 2, 1, 2])
        peers.drop(1)
        self.assertEqual((peers.number("a"), gone), (3, [1]))
        peers.last[0] = 65535
        self.assertEqual([peers.number(name) for name in "cd"], [1, 4])
        self.assertEqual(peers.addresses, {2: "b", 3: "a", 1: "c", 4: "d"})

    def test_full_window(self):
        """In a window without a free number the peer that was silent for longest loses its own to the new one."""
        gone = []
        peers = near.Peers(gone.append)
        peers.has_windows, most = True, near_command.MOST_IN_WINDOW
        first = (1 << near_command.WINDOW_SHIFT) + 1
        peers.numbers, peers.last[1] = {name: first + name for name in range(most)}, first + most - 1
        peers.addresses = {number: name for name, number in peers.numbers.items()}
        peers.moments = {number: 100.0 + (number - first - 7) % most for number in peers.addresses}
        self.assertEqual((peers.number("new", 1), gone, len(peers.numbers)), (first + 7, [first + 7], most))

    def test_many(self):
        """The longest silent of too many is forgotten, and so is one that was silent for three minutes."""
        gone = []
        peers = near.Peers(gone.append)
        peers.numbers = {number: number + 1 for number in range(256)}
        peers.addresses = {number + 1: number for number in range(256)}
        peers.moments = {number + 1: 101.0 + number for number in range(256)}
        peers.last[0], self.now = 256, 356.0
        peers.number(0)
        self.now += 1
        peers.number("new")
        self.assertEqual((gone, len(peers.numbers)), ([2], 256))
        self.now = peers.moments[257] + 180
        peers.drop_silent()
        self.assertEqual(set(peers.moments), {257})
        self.now += 0.1
        self.assertEqual(peers.number("other"), 258)
        peers.drop_silent()
        self.assertEqual((set(peers.moments), set(peers.addresses)), ({258}, {258}))


class Fars(Ends):
    """The far end, next to the server."""

    def setUp(self):
        super().setUp()
        self.listener = self.listening(self.folder / "clients")
        (self.source, self.said_end), (heard, self.target) = self.pipe(), self.pipe()
        self.other = Other(heard)
        self.patch_of(far, "RelayStream", side_effect=lambda _, __, session: RelayStream(self.source, self.target, session))
        self.set_blocking = self.patch_of(far.os, "set_blocking")
        self.far = self.far_end()
        self.said = self.heard()

    def far_end(self, **more):
        """Return a far end; standard input and output are the pipes here."""
        one = far.Far(self.asked(far=True, command=[], **more), self.wakeup, StillLoop())
        self.addCleanup(one.close)
        for number, end in ((0, self.source), (1, self.target)):
            known = one.loop.sources[number]
            one.loop.remove(number)
            one.loop.add(end, known.reads, known.writes, hears=known.hears, has_more=known.has_more)
        return one

    @property
    def waited(self):
        """Return the time that it would have waited."""
        return self.far.loop.waited

    def say(self, text):
        """Send a text from the other end."""
        os.write(self.said_end, text)
        self.far.turn()

    def test_greets(self):
        """It greets with the session if known, else with none; neither reads nor writes block."""
        self.assertEqual(self.set_blocking.call_args_list, [mock.call(0, False), mock.call(1, False)])
        self.far.turn()
        self.assertEqual(read_now(self.other.end), b"roam-relay 2 -\n" + packed((0, FORWARDS)))
        one = self.far_end(session="5e55")
        self.assertTrue(one.stream.going.startswith(b"roam-relay 2 5e55\n"))
        self.assertEqual((one.stream.session, self.far_end(greeted=True).stream.session), (None, "-"))

    def test_host(self):
        """The socket `host` of a window is that of its session, even without a known server process; `panes` is the window's own."""
        window = self.folder / "main/w/1"
        window.mkdir(parents=True)
        host, panes = self.listening(self.folder / "main/host"), self.listening(window / "panes")
        one = self.far_end(dir=str(window))
        for name, listener in (("host", host), ("panes", panes)):
            with one.opened_socket(name) as opened, self.taken(listener) as taken:
                opened.send(b"x")
                self.assertEqual(taken.recv(9), b"x", name)
        self.assertRaises(OSError, self.far_end(dir=str(self.folder)).opened_socket, "host")

    def test_forwards(self):
        """Each client has a stream of its own to the server."""
        self.say(greeting("-") + packed((4, datagram(1)), (7, datagram(2)), (4, datagram(3)), (5, b"XX" + datagram(4)[2:])))
        self.far.turn()
        servers = [self.taken(self.listener) for _ in range(2)]
        texts = [read_now(server) for server in servers]
        one = SHORTEST.to_bytes(2, "big")
        self.assertEqual(texts, [one + datagram(1) + one + datagram(3), one + datagram(2)])
        self.assertEqual(set(self.far.sockets), {4, 7})
        servers[1].send(one + datagram(9))
        for _ in range(3):
            self.far.turn()
        self.assertAlmostEqual(self.waited, 3.0)
        self.assertEqual([frame for frame in self.other.frames() if frame[0]], [(7, datagram(9))])
        servers[0].close()
        self.far.turn()
        self.assertEqual(set(self.far.sockets), {7})
        self.now += 180.1
        self.far.stream.heard = self.now
        self.far.drop_silent()
        self.assertEqual((self.far.sockets, self.far.moments), ({}, {}))

    def test_starts(self):
        """New starts reach the server slowly, whichever peers bring them; a known one always does."""
        (self.folder / "session").write_text("5e55\n", encoding="ascii")
        new = [(b"RM\2\2" + (0x5E55).to_bytes(8, "big") + name.to_bytes(8, "big")).ljust(SHORTEST, b"\0") for name in range(5)]
        self.say(greeting("-") + packed(*((peer, new[peer]) for peer in range(1, 5)), (9, new[1]), (8, new[3])))
        self.assertEqual(set(self.far.sockets), {1, 2, 9})
        self.now += 10
        self.far.stream.heard = self.now
        self.far.send(7, new[4])
        self.far.send(8, new[3])
        self.assertEqual(set(self.far.sockets), {1, 2, 9, 7})

    def test_nobody(self):
        """Without a server a datagram is lost, like any other may be."""
        self.listener.close()
        self.say(greeting("-") + packed((4, datagram(1))))
        self.assertEqual(self.far.sockets, {})

    def test_most(self):
        """Of 256 clients the longest silent gives way to another."""
        self.far.sockets = {number: mock.Mock() for number in range(1, 257)}
        self.far.moments = {number: float(number) for number in range(1, 257)}
        self.far.moments[1] = 300.0
        dropped = self.far.sockets[2]
        with mock.patch.object(self.far, "opened", return_value=mock.Mock()):
            self.far.send(300, datagram(1))
        dropped.close.assert_called_once_with()
        self.assertEqual((len(self.far.sockets), 2 in self.far.sockets, self.far.moments[300]), (256, False, 100.0))
        self.far.sockets[300].send.assert_called_once_with(datagram(1))

    def test_silence(self):
        """It ends after 30 s without messages; its own messages come every 3 s."""
        self.far.turn()
        self.assertAlmostEqual(self.waited, 3.0)
        self.now += 3
        self.far.turn()
        self.far.turn()
        self.assertEqual(self.other.frames(), [(0, COUNT.pack(HAD, 0))])
        self.now = 130.0
        self.far.stream.spoke = self.now
        self.far.turn()
        self.now += 0.1
        with self.assertRaisesRegex(Fault, "^the other end has been silent for 30 s$"):
            self.far.turn()

    def test_left(self):
        """The other end's end is its own, with status 0; so is one that accepts nothing more, and a signal."""
        os.close(self.said_end)
        with self.assertRaises(common.Ended) as way:
            self.far.turn()
        self.assertEqual(way.exception.args, (0,))
        os.write(self.wakes, bytes([signal.SIGHUP]))
        with self.assertRaises(common.Ended) as way:
            self.far.turn()
        self.assertEqual(way.exception.args, (129,))
        with mock.patch.object(self.far.stream, "flush", return_value=False), self.assertRaises(common.Ended) as way:
            self.far.stream.going += b"x"
            self.far.flush()
        self.assertEqual(way.exception.args, (0,))

    def test_end(self):
        """The server's end is reported: as the session's if it was intended."""
        for status, told in ((0, ENDED), (1, KILLED)):
            reader, writer = self.pipe()
            self.far.place = mock.Mock(ending=mock.Mock(return_value=("", status)))
            self.far.loop.add(reader, self.far.tell_end)
            os.close(writer)
            with self.assertRaises(common.Ended) as way:
                self.far.turn()
            self.assertEqual((way.exception.args, self.other.frames()[-1]), ((0,), (0, told)))

    def test_heir(self):
        """After the end of its own window's server it continues with another one; without one it reports the end."""
        servers = [self.pipe() for _ in range(2)]
        self.patch_of(far, "opened_process", side_effect=[os.dup(reader) for reader, _ in servers])
        heir = mock.Mock(process=mock.Mock(return_value=77), ending=mock.Mock(return_value=("", 0)))
        self.far.windows.heir = mock.Mock(side_effect=[heir, None])
        self.far.follow_server(5)
        ended(servers[0][1])
        self.far.turn()
        self.assertEqual((self.far.place, far.opened_process.call_args_list), (heir, [mock.call(5), mock.call(77)]))
        ended(servers[1][1])
        with self.assertRaises(common.Ended):
            self.far.turn()
        self.assertEqual(self.other.frames()[-1], (0, ENDED))

    def test_host(self):
        """If it knows the server it detects the end of the pty host."""
        self.patch_of(far, "opened_process", return_value=self.pipe()[0])
        watch = self.patch_of(far, "HostWatchdog")
        self.far = self.far_end(server=os.getpid())
        self.assertEqual(self.far.place.folder, str(self.folder))
        watch.assert_called_once_with(self.far.place, self.far.loop)

    def test_port(self):
        """A server with a port is reached there."""
        server = common.loopback_socket()
        self.addCleanup(server.close)
        server.bind(("127.0.0.1", 0))
        self.far.asked.port = server.getsockname()[1]
        self.far.send(3, datagram(1))
        text, address = server.recvfrom(2000)
        self.assertEqual(text, datagram(1))
        server.sendto(datagram(2), address)
        server.sendto(b"none", address)
        self.far.stream.session = "-"
        for _ in range(3):
            self.far.turn()
        self.assertEqual([frame for frame in self.other.frames() if frame[0]], [(3, datagram(2))])


class Queued(Case):
    """The queue for a relay's stream."""

    def test_newest(self):
        """Of one client's instructions the partly sent one stays, and the newest."""
        waiting = Waiting()
        for instruction in (1, 2, 3):
            for fragment in (0, 1):
                for peer in (1, 2):
                    waiting.add(peer, datagram(instruction, fragment))
            if instruction == 1:
                waiting.take()
        found = [(peer, one[35], one[37]) for peer, one in (waiting.take() for _ in range(len(waiting.datagrams)))]
        self.assertEqual(found, [(1, 1, 1), (1, 3, 0), (2, 3, 0), (1, 3, 1), (2, 3, 1)])
        self.assertEqual(waiting.size, 0)

    def test_limit(self):
        """Above the limit the oldest goes, and each datagram counts with an overhead."""
        waiting = Waiting()
        for number in range(100):
            waiting.add(1, b"no datagram" + bytes([number]) + bytes(WAITING_LIMIT // 50))
        numbers = [one[11] for _, one in waiting.datagrams]
        self.assertEqual(numbers, list(range(100 - len(numbers), 100)))
        self.assertTrue(WAITING_LIMIT * 0.95 < waiting.size <= WAITING_LIMIT)
        self.assertEqual(len(numbers), 49)
        waiting.forget(2)
        self.assertEqual(len(waiting.datagrams), 49)
        waiting.forget(1)
        self.assertEqual((waiting.size, len(waiting.datagrams)), (0, 0))
        for _ in range(WAITING_LIMIT // 140 + 100):
            waiting.datagrams.append((1, b"the shortest one"))
            waiting.size += 144
        waiting.add(1, b"the shortest one")
        self.assertLessEqual(len(waiting.datagrams) * 144, WAITING_LIMIT)

    def test_forgotten(self):
        """The datagrams of other clients stay."""
        waiting = Waiting()
        for peer in (1, 2):
            waiting.add(peer, datagram(1))
        waiting.take()
        waiting.forget(1)
        self.assertEqual(([peer for peer, _ in waiting.datagrams], waiting.begun, set(waiting.newest)), ([2], {}, {2}))


class Streams(Ends):
    """The data on a relay's stream."""

    def setUp(self):
        super().setUp()
        self.there, self.back = self.pipe(), self.pipe()
        self.sender, self.receiver = RelayStream(self.back[0], self.there[1], "5e55"), RelayStream(self.there[0], self.back[1], "-")
        self.sender.session = "-"

    def received(self, text):
        """Return the frames in a text."""
        os.write(self.there[1], text)
        return list(self.receiver.received())

    def test_cut(self):
        """Frames arrive once, in order and whole, wherever they are cut, after a shell's initial output; and they are small."""
        waiting = Waiting()
        texts = [bytes([number]) * (34 + number * 9) for number in range(1, 60)]
        for number, text in enumerate(texts, 1):
            waiting.add(number, text)
        while waiting.datagrams:
            self.sender.fill(waiting)
        stream = b"Welcome to this machine\r\n" + bytes(self.sender.going)
        found = [frame for begin in range(0, len(stream), 7) for frame in self.received(stream[begin : begin + 7])]
        self.assertEqual((found, self.receiver.session), (list(enumerate(texts, 1)), "5e55"))
        self.assertLess(len(stream), sum(map(len, texts)) / 2)
        self.assertEqual((self.receiver.had, self.sender.sent), (sum(map(len, texts)),) * 2)

    def test_each_cut(self):
        """A short stream, cut at each place."""
        text = greeting("abc") + packed((1, datagram(1)), (0, b"z1"), (0, b"zp"), (9, datagram(2)))
        for cut in range(len(text) + 1):
            self.receiver = RelayStream(self.there[0], self.back[1], "-")
            found = [frame for chunk in (text[:cut], text[cut:]) if chunk for frame in self.received(chunk)]
            self.assertEqual(found, [(1, datagram(1)), (0, b"z1"), (0, b"zp"), (9, datagram(2))], cut)

    def test_each_cut_carried(self):
        """The frames of forwarded connections, cut at each position: their bytes are counted, and the first frame announces them."""
        told = [(0, FORWARDS), (0, b"o\0\1panes"), (0, b"d\0\1focus 1\n"), (0, b"t\0\1" + bytes(8)), (0, b"q\0\1"), (1, datagram(1))]
        for frames, forwards in ((told, True), (told[1:], False)):
            text = greeting("abc") + packed(*frames)
            for cut in range(len(text) + 1):
                self.receiver = RelayStream(self.there[0], self.back[1], "-")
                found = [frame for chunk in (text[:cut], text[cut:]) if chunk for frame in self.received(chunk)]
                self.assertEqual((found, self.receiver.forwards), (frames, forwards), cut)
                self.assertEqual(self.receiver.had, 11 + SHORTEST)

    def test_versions(self):
        for line, told in ((b"roam-relay 1 5e55\n", "the other end is of an older roam: its relay has version 1, and this one version 2"),
                           (b"roam-relay 3 5e55\n", "the other end is of a newer roam: its relay has version 3, and this one version 2")):
            self.receiver = RelayStream(self.there[0], self.back[1], "-")
            with self.assertRaises(BadWords) as fault:
                self.received(line)
            self.assertEqual(str(fault.exception), told)

    def test_noise(self):
        """Before its greeting the other end may print 65,536 bytes, such as one with an invalid version."""
        unknown = b"\nroam-relay " + b"9" * 5000 + b" 5e55\n"
        self.assertEqual(self.received(b"x" * (65536 - len(unknown)) + unknown), [])
        self.assertEqual((self.received(greeting("abc")), self.receiver.session), ([], "abc"))

    def test_gone(self):
        """No data is no end; the end of file is one."""
        self.assertEqual(list(self.receiver.received()), [])
        os.close(self.there[1])
        self.assertIsNone(self.receiver.received())

    def test_window(self):
        """At most 131,072 bytes are in flight until the other end acknowledges them, which it does after 16,384."""
        waiting = Waiting()
        for number in range(1, 301):
            waiting.add(number, os.urandom(1000))
        sent = 0
        while sent != self.sender.sent or not sent:
            sent = self.sender.sent
            self.sender.fill(waiting)
            self.sender.going.clear()
        self.assertEqual(sent, 132_000)
        self.receiver.session = "-"
        self.assertEqual(self.received(packed(*[(1, bytes(1000))] * 16)), [(1, bytes(1000))] * 16)
        self.receiver.fill(Waiting())
        self.assertEqual(self.receiver.told, 0)
        self.receiver.had += 384
        self.receiver.fill(Waiting())
        self.assertEqual(self.receiver.told, 16384)
        self.sender._acknowledge(2000)
        self.sender.fill(waiting)
        self.assertEqual(self.sender.sent, 134_000)
        with self.assertRaisesRegex(BadWords, "the other end acknowledged 134001 bytes of 134000"):
            self.sender._acknowledge(134_001)
        self.sender._acknowledge(134_000)
        self.assertEqual(self.sender.acknowledged, 134_000)
        self.sender._acknowledge(1)
        self.assertEqual(self.sender.acknowledged, 134_000)

    def test_silence(self):
        """It is silent if nothing arrives, or if sent data is not acknowledged."""
        self.assertFalse(self.sender.is_silent(7))
        self.now += 7
        self.assertFalse(self.sender.is_silent(7))
        self.now += 0.1
        self.assertTrue(self.sender.is_silent(7))
        self.sender.heard = self.now
        self.assertFalse(self.sender.is_silent(7))
        waiting = Waiting()
        waiting.add(1, datagram(1))
        self.sender.fill(waiting)
        self.assertEqual(self.sender.moved, self.now)
        self.now += 7.1
        self.sender.heard = self.now
        self.assertTrue(self.sender.is_silent(7))
        self.sender._acknowledge(SHORTEST)
        self.assertFalse(self.sender.is_silent(7))

    def test_heartbeat(self):
        """An end sends something every 3 s at least."""
        self.assertEqual(self.sender.due_at(), 103.0)
        self.sender.fill(Waiting())
        before = len(self.sender.going)
        self.now = 103.0
        self.sender.fill(Waiting())
        self.assertGreater(len(self.sender.going), before)
        self.assertEqual(self.sender.due_at(), 106.0)
        self.sender.had, self.sender.spoke = 5, 105.0
        self.assertEqual(self.sender.due_at(), 106.0)


class Commands(Case):
    """A running command, and its messages."""

    def test_runs(self):
        """Its standard error is passed on as printable lines, and its end has a status."""
        said = self.patch("os.write")
        reads = self.patch_of(near_command, "read", side_effect=[b"no \x1b[c\n", b""])
        link = near_command.RunningCommand(["sh", "-c", "exec cat"], "-", False)
        self.addCleanup(link.process.wait)
        self.assertEqual(os.getsid(link.process.pid), link.process.pid)
        for end in (link.process.stdin, link.process.stdout, link.process.stderr):
            self.assertFalse(os.get_blocking(end.fileno()))
        link.pass_errors()
        said.assert_called_once_with(2, b"no ?[c\n")
        self.assertEqual(reads.call_args[0], (link.process.stderr.fileno(),))
        link.end()
        self.assertIsNone(link.errors)
        self.assertEqual(link.status(), -15)
        self.assertEqual(link.stream.going, b"roam-relay 2 -\n")

    def test_sayings(self):
        """A command's messages are short and printable, and the known logs have room for them."""
        link = near_command.RunningCommand(["sleep", "60"], "-", False)
        self.addCleanup(lambda: (link.end(), link.status()))
        rooms, writes = self.patch_of(near_command, "log_turn", side_effect=lambda more: contextlib.nullcontext()), self.patch("os.write")
        self.patch_of(near_command, "read", return_value=b"the far host\x1b[c says so\n" * 2000)
        for _ in range(20):
            link.pass_errors()
        said = b"".join(call[0][1] for call in writes.call_args_list).decode()
        self.assertTrue("".join(said.split("\n")).isprintable() and said.endswith("[output limited to 65536 bytes]\n"))
        self.assertLess(len(said), 70_000)
        self.assertEqual(sum(call[0][0] for call in rooms.call_args_list), len(said.encode()))

    def test_killed(self):
        """One that doesn't end in a second is killed."""
        link = near_command.RunningCommand(["sleep", "60"], "-", True)
        self.assertEqual(os.getsid(link.process.pid), os.getsid(0))
        waits = link.process.wait
        with mock.patch.object(link.process, "wait", side_effect=[near_command.subprocess.TimeoutExpired("x", 1), -9]) as asked:
            self.assertEqual(link.status(), -9)
            self.assertEqual(asked.call_args_list, [mock.call(1.0), mock.call()])
        self.assertEqual(waits(), -9)
        for end in (link.process.stdin, link.process.stdout, link.process.stderr):
            end.close()


class Words(Ends):
    """The options of the command line."""

    def test_wrong(self):
        folder = str(self.folder)
        port = "a port is 1 to 65535, or - with --dir"
        for words, wrong in (
            (["--dir", folder, "-", "ssh"], ""), (["0", "ssh"], ""), (["65535", "ssh"], ""), (["65536", "ssh"], port), (["x", "ssh"], port),
            (["\u00b2", "ssh"], port), (["9" * 5000, "ssh"], port),
            (["--far", "0"], port), (["--far", "1"], ""), (["-", "ssh"], "- instead of a port requires --dir"),
            (["--alone", "9", "0", "ssh"], "--alone requires --dir"), (["0"], "the command is missing"),
            (["--far", "1", "ssh"], "--far takes no command"), (["--far", "--session", "5e55", "1"], ""),
            (["--far", "--session", "xyz", "1"], "a session's id is 1 to 16 hexadecimal digits"),
        ):
            self.words("relay", *words)
            said = self.heard()
            if wrong:
                with self.assertRaises(SystemExit):
                    relay.read_words()
                self.assertTrue(said.getvalue().endswith(f"error: {wrong}\n"), said.getvalue())
            else:
                self.assertEqual(relay.wrong_in(relay.read_words()), "")

    def test_asked(self):
        self.words("relay", "--with", "7", "--alone", "9", "--log", "l", "--dir", "d", "-", "ssh", "-p", "22", "there")
        asked = relay.read_words()
        self.assertEqual((asked.owner, asked.alone, asked.log, asked.dir, asked.port, asked.command, asked.far),
                         (7, 9.0, "l", "d", None, ["ssh", "-p", "22", "there"], False))
        (self.folder / "session").write_text("5e55\n", encoding="utf-8")
        self.words("relay", "--far", "--server", "8", "--dir", str(self.folder), "-")
        asked = relay.read_words()
        self.assertEqual((asked.session, asked.server, asked.greeted), ("5e55", 8, False))
        self.assertIsNone(relay.session_in("/no/such"))

    def test_main(self):
        """It runs until its end, returns the status, and leaves nothing."""
        end = mock.Mock(turn=mock.Mock(side_effect=[None, common.Ended(129)]))
        made = self.patch_of(near, "Near", return_value=end)
        self.patch_of(relay, "woken", return_value=5)
        self.words("relay", "0", "ssh")
        self.assertEqual(relay.main(), 129)
        self.assertEqual((made.call_args[0][1], end.turn.call_count, end.close.call_count), (5, 2, 1))
        end.turn.side_effect = [common.Ended(0)]
        self.patch_of(far, "Far", return_value=end)
        self.words("relay", "--far", "1")
        with mock.patch("os.isatty", return_value=False):
            self.assertEqual(relay.main(), 0)
        self.assertEqual(end.close.call_count, 2)
        with mock.patch("os.isatty", return_value=True), self.assertRaisesRegex(Fault, "^standard input is a terminal; "):
            relay.main()
