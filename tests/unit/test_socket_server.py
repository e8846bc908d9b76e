"""The host's socket `host`: reports of the terminals at a session."""
import os
import socket
import time
import unittest
from unittest import mock

from aids import Case, LinkedClient, StillLoop, read_now, without_numbers
from roam_live.common.retry import PAUSES
from roam_live.host import foreground_watch
from roam_live.host.socket_peer import HostPeer
from roam_live.host.socket_server import MOST_PEERS, RECONNECTS, HostSocket
from roam_live.host.state import PaneState
from roam_live.host.window_channel import WindowChannel
from roam_live.protocol import presence
from roam_live.protocol.host_client import KNOWS
from roam_live.protocol.host_lines import LONGEST_HOST_LINE
from roam_live.protocol.host_link import LAUNCHES

from roam_live.protocol.presence import MOST_ATTENDED, MOST_OTHERS, STAYS, Attended, OtherTerminals, Presence, presence_said, terminal_name
from roam_live.protocol.zoom_record import OVER, ZoomNote

A, B = "here:/dev/pts/1 24 80 read-write", "there:/dev/pts/2 12 40 read-only"


NAMED = "00112233445566aa"


class Sockets(Case):
    """The socket in a folder of its own, with a named host."""

    def setUp(self):
        self.folder = self.made_folder()
        self.loop = StillLoop(lambda: self.now)
        without_numbers(self)
        self.serve()

    def serve(self, rows=None, name=NAMED):
        """Let a host listen in the folder, of one window."""
        self.socket = HostSocket(self.loop, rows)
        self.channel = WindowChannel(self.socket)
        self.socket.listen(self.folder)
        self.socket.state.name = name
        self.addCleanup(self.socket.close)

    def connect(self, text=b""):
        """Connect, and send this."""
        one = socket.socket(socket.AF_UNIX, socket.SOCK_STREAM)
        self.addCleanup(one.close)
        one.connect(str(self.folder / "host"))
        one.setblocking(False)
        one.send(text)
        self.loop.turns(3)
        return one

    def say(self, one, text):
        """Send this from a peer."""
        one.send(text)
        self.loop.turns(3)


class Told(Sockets):
    """The reports to subscribers."""

    def test_others(self):
        """A subscriber gets the other terminals, and each change, but not itself, nor silent ones."""
        first = self.connect(f"here {A}\nwho\n".encode())
        self.assertEqual(read_now(first), f"host {NAMED}\nothers 0\n".encode())
        self.connect()
        second = self.connect(f"here {B}\n".encode())
        self.assertEqual((read_now(first), read_now(second)), (f"there 3 {B}\nothers 1\n".encode(), b""))
        self.say(second, b"who\n")
        self.assertEqual(read_now(second), f"host {NAMED}\nthere 1 {A}\nothers 1\n".encode())
        self.say(first, b"here here:/dev/pts/1 20 80 read-write\n")
        self.assertEqual((read_now(first), read_now(second)), (b"", b"there 1 here:/dev/pts/1 20 80 read-write\nothers 1\n"))
        self.say(first, b"here here:/dev/pts/1 20 80 read-write\n")
        self.assertEqual(read_now(second), b"")
        first.close()
        self.loop.turns(3)
        self.assertEqual(read_now(second), b"gone 1\nothers 0\n")

    def test_at_once(self):
        """Of simultaneous changes the newest is reported, and each number once."""
        first = self.connect(b"who\n")
        self.connect("".join(f"here {A.replace('24', str(rows))}\n" for rows in range(1, 31)).encode())
        self.assertEqual(read_now(first), f"host {NAMED}\nothers 0\n".encode() + f"there 2 {A.replace('24', '30')}\nothers 1\n".encode())

    def test_dropped_beside(self):
        """A peer that a new window's reports drop hides its neighbour from nobody: all others join the window."""
        ends = [self.connect(b"") for _ in range(3)]
        for peer in self.socket.peers:
            peer.at, peer.channel = 2, None
        joined, drops = [], [self.socket.peers[0]]

        class Channel:
            window = 2

            @staticmethod
            def take_up(peer):
                joined.append(peer.number)
                if drops:
                    self.socket.drop(drops.pop())

            @staticmethod
            def forget(peer):
                """Forget a peer."""

        self.socket.add(Channel())
        del self.socket.channels[2]
        self.assertEqual((joined, len(ends)), ([1, 2, 3], 3))

    def test_cut(self):
        """Lines come in any chunks."""
        text = f"here {A}\nwho\n".encode()
        for cut in range(len(text)):
            one = self.connect(text[:cut])
            self.say(one, text[cut:])
            self.assertEqual(read_now(one), f"host {NAMED}\nothers 0\n".encode())
            one.close()
            self.loop.turns(2)

    def test_bad(self):
        """An invalid line is answered as such, and the connection continues."""
        one = self.connect(b"who\n")
        read_now(one)
        for line in ("", "whom", "here", f"here {A} x", "here a\x1b[2J 24 80 read-write", "here a 0 80 read-write", "here a 24 80 reads",
                     "here  24 80 read-write", f"here {'a' * 65} 24 80 read-write", "here a 100000 80 read-write",
                     "here \u00e9 24 80 read-write"):
            self.say(one, f"{line}\n".encode())
            self.assertEqual(read_now(one), b"bad line\n", line)
        self.say(one, b"here \xff\xfe 24 80 read-write\n")
        self.assertEqual((read_now(one), [peer.presence for peer in self.socket.peers]), (b"bad line\n", [None]))

    def test_long(self):
        """A peer whose line is too long is disconnected."""
        one = self.connect(b"x" * (LONGEST_HOST_LINE - 1))
        self.assertEqual(len(self.socket.peers), 1)
        self.say(one, b"x")
        self.assertEqual((one.recv(1), self.socket.peers), (b"", []))
        self.connect(b"who\n" + b"x" * LONGEST_HOST_LINE + b"\nwho\n")
        self.assertEqual(self.socket.peers, [])


class Commands(Sockets):
    """Foreground programs of panes."""

    def setUp(self):
        super().setUp()
        self.asked = []
        self.channel.host = mock.Mock(look_at_fronts=lambda: self.asked.append(self.channel.has_asked_commands()))

    def test_told(self):
        """A subscriber gets each name of a generation once; others get nothing."""
        other, first = self.connect(b"who\n"), self.connect(b"commands\n")
        read_now(other)
        self.assertEqual((self.asked, read_now(first)), ([True], b""))
        for told in ((1, 4, "sh"), (2, 9, "vi"), (1, 4, "sh"), (1, 4, "less a"), (1, 5, "less a")):
            self.channel.tell_command(*told)
        self.loop.turn()
        self.assertEqual(read_now(first), b"command 1 4 sh\ncommand 2 9 vi\ncommand 1 4 less a\ncommand 1 5 less a\n")
        late = self.connect(b"commands\n")
        self.channel.tell_command(1, 5, "less a")
        self.loop.turns(2)
        self.assertEqual((read_now(late), read_now(first), read_now(other), len(self.asked)), (b"command 1 5 less a\n", b"", b"", 2))

    def test_wanted(self):
        """It isn't wanted without subscribers, nor once those have left."""
        one = self.connect(b"who\n")
        self.assertFalse(self.channel.has_asked_commands())
        self.say(one, b"commands\n")
        self.assertTrue(self.channel.has_asked_commands())
        one.close()
        self.loop.turns(2)
        self.assertFalse(self.channel.has_asked_commands())


class Fronts(Case):
    """The lookups of foreground programs."""

    def setUp(self):
        self.loop, self.told = StillLoop(lambda: self.now), []
        self.fronts = foreground_watch.Fronts(self.loop, lambda *words: self.told.append(words))
        self.fronts.is_wanted = True
        self.pane = mock.Mock(state=PaneState(id=7, number=3, generation=7, size=(24, 80)), terminal=5)
        self.looks = self.patch_of(foreground_watch, "group_in_front", return_value=70)
        self.patch_of(foreground_watch, "name_of", side_effect=lambda group: f"a{group}")

    def touch(self, seconds=0.0):
        """Type something in a pane, and let so many seconds pass."""
        self.fronts.touched(self.pane)
        self.now += seconds
        self.loop.do_due()

    def test_looks(self):
        """It looks up a tenth of a second after output, twice a second at most, and never without output."""
        self.touch(0.09)
        self.assertEqual(self.told, [])
        self.touch(0.011)
        self.assertEqual(self.told, [(3, 7, "a70")])
        for _ in range(100):
            self.touch(0.1)
        self.assertLessEqual(self.looks.call_count, 21)
        self.assertGreaterEqual(self.looks.call_count, 16)
        self.now += 1
        self.loop.do_due()
        count = self.looks.call_count
        self.now += 100
        self.assertIsNone(self.loop.wait_time())
        self.loop.do_due()
        self.assertEqual(self.looks.call_count, count)

    def test_unwanted(self):
        """Without subscribers there is no lookup; and nothing is reported of a pane without a terminal, or without a foreground program."""
        self.fronts.is_wanted = False
        self.touch(1)
        self.assertEqual((self.looks.call_count, self.loop.due), (0, {}))
        self.fronts.is_wanted = True
        self.looks.return_value = None
        self.touch(1)
        self.pane.terminal = None
        self.touch(1)
        self.assertEqual((self.looks.call_count, self.told), (1, []))

    def test_gone(self):
        """A pane that is gone isn't looked up."""
        self.touch()
        self.fronts.drop(3)
        self.now += 1
        self.loop.do_due()
        self.assertEqual((self.looks.call_count, self.fronts.looked), (0, {}))


class Replaced(Sockets):
    """A host that replaces another, whose terminals reconnect."""

    def test_reconnect(self):
        """No terminal gets the others before all had time to reconnect; then all are reported."""
        self.socket.await_terminals()
        one = self.connect(f"here {A}\nwho\n".encode())
        self.assertEqual(read_now(one), f"host {NAMED}\n".encode())
        self.now += RECONNECTS - 0.01
        self.connect(f"here {B}\n".encode())
        self.assertEqual(read_now(one), b"")
        self.now += 0.01
        self.loop.turns(3)
        self.assertEqual(read_now(one), f"there 2 {B}\nothers 1\n".encode())
        self.say(one, b"here here:/dev/pts/1 20 80 read-write\nwho\n")
        self.assertEqual((read_now(one), "others of 0" in self.loop.due), (f"host {NAMED}\n".encode(), False))


class Bounds(Sockets):
    """Limits."""

    def test_numbers(self):
        """The numbers are those in docs/HOST_PROTOCOL.md."""
        self.assertEqual((MOST_PEERS, LONGEST_HOST_LINE, HostPeer.most), (256, 256, 65536))

    def test_most(self):
        """256 are connected; one more waits without cost until another has left."""
        there = [self.connect(f"here {A}\n".encode()) for _ in range(MOST_PEERS)]
        late = self.connect(b"who\n")
        found = self.loop.found
        self.loop.turns(5)
        self.assertEqual((read_now(late), len(self.socket.peers), self.loop.found), (b"", MOST_PEERS, found))
        there[0].close()
        self.loop.turns(4)
        self.assertTrue(read_now(late).endswith(b"others 255\n"))

    def test_unread(self):
        """A peer that never reads is disconnected once 65,536 bytes wait, and the others still get their lines."""
        slow, other, moves = self.connect(b"who\n"), self.connect(b"who\n"), self.connect()
        most, got = 0, b""
        for count in range(20000):
            self.say(moves, f"here {A.replace('24', str(count % 90 + 1))}\n".encode())
            most = max([most, *(len(peer.waiting) for peer in self.socket.peers)])
            got = got[-100:] + read_now(other)
            if len(self.socket.peers) == 2:
                break
        self.assertEqual([peer.number for peer in self.socket.peers], [2, 3])
        self.assertLessEqual(most, HostPeer.most)
        self.assertTrue(got.endswith(f"there 3 {A.replace('24', str(count % 90 + 1))}\nothers 1\n".encode()))
        self.assertTrue(slow)

    def test_flood(self):
        """So is one that sends invalid lines again and again."""
        one = self.connect()
        for _ in range(3000):
            try:
                one.send(b"\n" * 4096)
            except OSError:
                break
            self.loop.turn()
        self.assertEqual(self.socket.peers, [])

    def test_another_user(self):
        """A connection of another user is closed."""
        with mock.patch("os.getuid", return_value=os.getuid() + 1):
            one = self.connect()
        self.assertEqual((one.recv(1), self.socket.peers), (b"", []))

    def test_no_descriptor(self):
        """A connection waits while the system has no descriptor, and is accepted a second later."""
        with mock.patch.object(self.socket.listener, "end", mock.Mock(accept=mock.Mock(side_effect=OSError(24, "none")))):
            one = self.connect(b"who\n")
        self.assertEqual(read_now(one), b"")
        self.now += 1
        self.loop.turns(4)
        self.assertEqual(read_now(one), f"host {NAMED}\nothers 0\n".encode())

    def test_taken(self):
        """If another process listens there it stays, which is reported, and no terminals are known."""
        said = self.heard()
        other = HostSocket(StillLoop())
        other.listen(self.folder)
        self.assertIn("this pty host cannot accept connections: another process already listens at ", said.getvalue())
        other.loop.turns(2)
        other.close()
        self.assertTrue((self.folder / "host").exists())


class Links(Sockets):
    """A front end's connection there."""

    def link(self, is_read_only=False, folder=None, size=(24, 80)):
        """Return a terminal's link."""
        sizes = [size]
        one = LinkedClient(folder or self.folder, StillLoop(lambda: self.now), lambda: sizes[-1], is_read_only,
                           lambda: self.known.append(one))
        one.sizes = sizes
        self.addCleanup(one.leave)
        return one

    def setUp(self):
        super().setUp()
        self.known = []

    def turn(self, *links, count=6):
        """Take turns of all."""
        for _ in range(count):
            for link in links:
                link.loop.turn()
            self.loop.turn()

    def test_known(self):
        """It waits two seconds for the other terminals, and then knows them; a read-only one doesn't type."""
        one = self.link()
        self.assertEqual((one.is_awaited(), one.has_others(), KNOWS), (True, None, 2.0))
        self.turn(one)
        self.assertEqual((one.is_awaited(), one.has_others(), self.known), (False, False, [one]))
        watcher = self.link(is_read_only=True)
        self.turn(one, watcher)
        self.assertEqual((one.has_others(), watcher.has_others()), (False, True))
        other = self.link()
        self.turn(one, other)
        self.assertEqual((one.has_others(), other.has_others()), (True, True))
        other.leave()
        self.turn(one)
        self.assertEqual(one.has_others(), False)

    def test_sizes(self):
        """A new size is reported, and an equal one isn't."""
        one, other = self.link(), self.link()
        one.sizes.append((12, 40))
        one.say_here()
        one.say_here()
        self.turn(one, other)
        self.assertEqual(list(other.others.there.values()), [Presence(terminal_name(), 12, 40, "read-write")])
        self.assertEqual(one.waiting, b"")

    def test_lost(self):
        """Without the host nothing is known; it reconnects after pauses, reports itself again and gets everything."""
        one, other = self.link(), self.link()
        self.turn(one, other)
        self.socket.close()
        self.turn(one, other)
        self.assertEqual((one.has_others(), one.is_awaited(), one.peer), (None, True, None))
        self.serve(name="another")
        self.now += PAUSES[0]
        self.turn(one, other)
        self.assertEqual((one.has_others(), other.has_others()), (True, True))

    def test_zoom(self):
        """A zoom is reported at once, and again to a new host, and stays after its terminal has left. A new terminal gets it before the
        others.
        """
        one, other = self.link(), self.link()
        self.turn(one, other)
        note = ZoomNote((24, 80), ((48, 160),))
        one.note_zoom(note)
        self.assertEqual(one.waiting, b"")
        self.turn(one, other)
        number = self.socket.peers[0].number
        self.assertEqual((other.zoomed, one.zoomed), ((number, note),) * 2)
        one.lost("ended")
        self.turn(other)
        self.assertEqual((other.zoomed, one.zoomed), ((0, note), (0, None)))
        self.now += PAUSES[-1]
        self.turn(one, other, count=12)
        self.assertEqual(other.zoomed, (self.socket.peers[-1].number, note))
        one.leave()
        self.turn(other)
        late = self.connect(b"who\n")
        self.assertEqual(read_now(late).splitlines()[-2:], [b"zoomed 0 24 80 48 160", b"others 1"])
        other.note_zoom(None)
        self.turn(other)
        self.assertEqual(read_now(late).splitlines(), [b"zoomed none", b"others 1"])

    def test_zoom_left(self):
        """A front end killed before its zoom, or its end, was complete leaves none behind: some seconds later it is dropped if the window
        has another size. It stays until then, since the last input may come late.
        """
        for size, told in (((24, 80), b"zoomed none\nothers 0\n"), ((48, 160), b""), (None, b"")):
            one, other = self.connect(f"here {A}\n".encode()), self.connect(f"here {B}\nwho\n".encode())
            self.say(one, b"zoom 24 80 48 160\n")
            self.channel.sized(size)
            one.close()
            self.loop.turns(3)
            self.assertIn(b"zoomed 0 24 80 48 160\nothers 0\n", read_now(other))
            self.channel.sized((24, 90))
            self.channel.sized(size)
            self.loop.turns(3)
            self.assertEqual(read_now(other), b"")
            self.now += OVER
            self.loop.turns(3)
            self.assertEqual(read_now(other), told, size)
            self.channel.sized((48, 160))
            self.channel.sized((24, 80))
            self.loop.turns(3)
            self.assertEqual((read_now(other), self.channel.zoom.note), (b"" if told else b"zoomed none\nothers 0\n", None))
            other.close()
            self.loop.turns(3)
        one = self.connect(f"here {A}\nzoom 24 80 48 160\n".encode())
        one.close()
        self.loop.turns(3)
        self.assertEqual(list(self.loop.due), ["zoom left in 0"])
        self.socket.close()
        self.assertEqual(self.loop.due, {})

    def test_no_zoom(self):
        """A read-only terminal makes none, and neither do lines without one."""
        for text in (f"here {B}\nzoom 24 80 48 160\n", "zoom\n", "zoom 24 80\n", "zoom 24 80 48 999\n", "zoom 24 80 \x1b[c 160\n"):
            one = self.connect(text.encode())
            self.assertEqual((read_now(one), self.channel.zoom.note), (b"bad line\n", None), text)
        link = self.link()
        for line in ("zoomed 0 24 80 48 160", "zoomed 1 \x1b[c 80 48 160", "zoomed", "zoomed none none", "zoomed -1 24 80 48 160"):
            link.take(line)
        self.assertEqual(link.zoomed, (0, ZoomNote((24, 80), ((48, 160),))))

    def test_environment_sent(self):
        """A terminal sends its environment once to each host, and not again after a reconnection to the same one."""
        one = self.link()
        one.link.environment = ["environment DISPLAY 3a37", "environment SSH_CONNECTION none"]
        self.turn(one)
        values = self.socket.pane_environment.values
        self.assertEqual((values["DISPLAY"], values["SSH_CONNECTION"]), (":7", ""))
        for name, wanted in ((NAMED, "later"), ("another", ":7")):
            self.socket.state.name, values["DISPLAY"] = name, "later"
            one.lost("ended")
            self.now += PAUSES[-1]
            self.turn(one)
            self.assertEqual(values["DISPLAY"], wanted)

    def test_colours(self):
        """A read-write terminal reports its colours once to each host, as soon as it has answered; a read-only one reports none."""
        one, watcher = self.link(), self.link(is_read_only=True)
        one.tell_colour("\x1b]10;rgb:ff/ff/ff\x07")
        watcher.tell_colour("\x1b]11;rgb:0/0/0\x07")
        self.turn(one, watcher)
        for text in ("\x1b]11;rgb:1e/1e/2e\x1b\\", "\x1b]11;rgb:1e/1e/2e\x1b\\", "\x1b]11;rgb:1e\x07"):
            one.tell_colour(text)
        self.assertEqual(one.waiting, b"colour background 1e1e/1e1e/2e2e\n")
        self.turn(one, watcher)
        self.assertEqual(self.socket.colours.known, {"foreground": "ffff/ffff/ffff", "background": "1e1e/1e1e/2e2e"})
        self.socket.state.name, self.socket.colours.known = "another", {}
        one.lost("ended")
        self.now += PAUSES[-1]
        self.turn(one)
        self.assertEqual(len(self.socket.colours.known), 2)
        one.lost("ended")
        one.tell_colour("\x1b]10;rgb:0/0/0\x07")
        self.now += PAUSES[-1]
        self.turn(one)
        self.assertEqual(self.socket.colours.known["foreground"], "0000/0000/0000")
        self.socket.colours.known["foreground"] = "ffff/ffff/ffff"
        rude = self.connect(f"here {B}\ncolour foreground 0000/0000/0000\n".encode())
        self.assertEqual((read_now(rude), self.socket.colours.known["foreground"]), (b"bad line\n", "ffff/ffff/ffff"))

    def test_none(self):
        """If nobody knows the socket, or reports anything, nothing is known, without a long wait; without a folder there is none."""
        folder = self.made_folder()
        one = self.link(folder=folder)
        self.assertEqual((one.has_others(), one.is_awaited(), one.peer, one.takes_texts()), (None, True, None, False))
        # A host that was launched just before is retried again and again.
        for _ in range(20):
            self.now += PAUSES[0]
            one.loop.turn()
            self.assertEqual((one.is_awaited(), one.loop.due["follow host"][0]), (True, self.now + PAUSES[0]))
        self.now += LAUNCHES
        one.loop.turn()
        for pause, is_awaited in zip(PAUSES, (True, False, False)):
            self.now += pause
            one.loop.turn()
            self.assertEqual((one.has_others(), one.is_awaited(), one.peer), (None, is_awaited, None), pause)
        listener = self.listening(folder / "host")
        self.now += PAUSES[3]
        one.loop.turn()
        self.assertTrue(one.is_awaited())
        self.now += KNOWS
        self.assertEqual((one.has_others(), one.is_awaited()), (None, False))
        self.assertTrue(listener)
        nowhere = LinkedClient(None, StillLoop(), lambda: (24, 80), False, list)
        self.assertEqual((nowhere.loop.due, nowhere.is_connecting(), nowhere.is_awaited()), ({}, False, False))

    def test_ended_at_once(self):
        """A socket that ends each connection at once, such as a relay's to a host that is gone, is tried ever more rarely.

        In the first seconds it is tried at short pauses, and texts are taken: the relay may reach the host soon.
        """
        folder = self.made_folder()
        listener = self.listening(folder / "host")
        one, waits = self.link(folder=folder), []
        for _ in range(4):
            self.taken(listener).close()
            one.loop.turn()
            self.assertEqual((one.peer, one.takes_texts(), one.loop.due["follow host"][0]), (None, True, self.now + PAUSES[0]))
            self.now += PAUSES[0]
            one.loop.turn()
        self.now += LAUNCHES
        for _ in range(8):
            self.taken(listener).close()
            one.loop.turn()
            waits.append(round(one.loop.due["follow host"][0] - self.now, 3))
            self.now += waits[-1]
            one.loop.turn()
        self.assertEqual(waits, [*PAUSES, PAUSES[-1], PAUSES[-1]])


class Lines(unittest.TestCase):
    """The lines."""

    def test_said(self):
        """The line that reports a terminal; its name is in printable ASCII, bounded, also without a terminal."""
        self.assertEqual(presence_said(f"here {A}"), Presence("here:/dev/pts/1", 24, 80, "read-write"))
        self.assertEqual(f"here {presence_said(f'here {B}')}", f"here {B}")
        for path in ("/dev/pts/7", "/dev/a b\x1b\u00e9" * 20):
            with mock.patch("os.ttyname", return_value=path):
                self.assertTrue(presence_said(f"here {terminal_name()} 24 80 read-write"), path)
        with mock.patch("os.ttyname", side_effect=OSError(25, "none")):
            self.assertTrue(terminal_name().endswith(":?"))

    def test_told(self):
        """Invalid reports do nothing, all is known once as many were reported as there are, and no more than the limit are stored."""
        told = OtherTerminals()
        for line in (f"there 0 {A}", f"there 1 {A} 1", "there 1 a 24 80 wants", "gone", "gone 0", "others", "others 100", "others -1",
                     "other 1", f"there \u00b2 {A}"):
            self.assertFalse(told.take(line), line)
        self.assertEqual((told.has_typing(), told.take("others 1"), told.has_typing()), (None, True, None))
        for number in range(1, 200):
            told.take(f"there {number} {A}")
        self.assertEqual(len(told.there), MOST_OTHERS)
        self.assertTrue(told.take("others 64") and told.has_typing() and told.take("gone 7"))
        self.assertEqual(presence.WHO, "who")

    def test_attended(self):
        """A terminal that returns within five seconds keeps its arrival; later it gets a new one."""
        clock = [5000.7]
        attended = Attended(lambda: clock[0])
        self.assertEqual(attended.comes("a", 100.0), 5000)
        clock[0] = 6000.0
        for left, again, since in ((110.0, 110.0 + STAYS, 5000), (120.0, 120.01 + STAYS, 6000), (130.0, 131.0, 6000)):
            attended.leaves("a", left)
            self.assertEqual(attended.comes("a", again), since, left)
        # A terminal that is still there, for example at another window, and an unknown one.
        clock[0] = 7000.0
        attended.leaves("other", 140.0)
        self.assertEqual((attended.comes("a", 900.0), attended.comes("other", 141.0)), (6000, 7000))

    def test_attended_bounded(self):
        """Above the limit the earliest one is forgotten."""
        clock = [1.0]
        attended = Attended(lambda: clock[0])
        for number in range(MOST_ATTENDED + 1):
            attended.comes(f"{number}", 0.0)
        clock[0] = 2.0
        self.assertEqual(len(attended.since), MOST_ATTENDED)
        self.assertEqual([attended.comes(name, 0.0) for name in ("1", f"{MOST_ATTENDED}", "0")], [1, 1, 2])


if __name__ == "__main__":
    unittest.main()
