"""The sockets of a near folder that replace those at the other machine: connections are forwarded, and panes are subscribed to once."""
import os
import socket
import unittest

from aids import Case, StillLoop, read_now
from roam_live.relay import near_sockets
from roam_live.relay.forwarding import PipeStreams
from roam_live.relay.near_sockets import MOST_SUBSCRIBERS, NearSockets, PanesPeer

LINES = b"1 1 1 23 39 1\n2 1 41 23 39 1\nfocus 1\nclients 1 of 64\nwatchers 0 of 16\n"


class Sockets(Case):
    """A near folder, and a far one with simulated sockets."""

    def setUp(self):
        self.stop_clock()
        self.loop = StillLoop()
        self.folder = self.made_folder()
        self.names, self.servers = [], {}
        self.is_refused = False
        self.make()
        self.carrying = self.near
        self.sockets = NearSockets(str(self.folder), self.loop, lambda: self.carrying)
        self.addCleanup(self.sockets.close)
        self.sockets.open()

    def make(self):
        """Return both ends of the forwarding transport."""
        self.going = [], []
        self.near = PipeStreams(self.loop, lambda text, _: self.going[0].append(text))
        self.far = PipeStreams(self.loop, lambda text, _: self.going[1].append(text), self.opens)

    def opens(self, name):
        """Return a connection to a socket of the far folder."""
        self.names.append(name)
        if self.is_refused:
            raise ConnectionRefusedError("nobody is there")
        ours, theirs = self.pair()
        self.servers.setdefault(name, []).append(theirs)
        return ours

    def turn(self, count=1):
        """Pass all data on, so many times."""
        for _ in range(count):
            self.sockets.wake()
            self.loop.turn()
            for end, other, texts in ((self.near, self.far, self.going[0]), (self.far, self.near, self.going[1])):
                end.fill(4097)
                while texts:
                    other.take(texts.pop(0))

    def connect(self, name="panes"):
        """Connect there."""
        one = socket.socket(socket.AF_UNIX, socket.SOCK_STREAM)
        self.addCleanup(one.close)
        one.connect(str(self.folder / name))
        one.setblocking(False)
        self.turn(3)
        return one

    def panes(self):
        """Return the other machine's end of the subscription."""
        return self.servers["panes"][-1]

    def tell(self, text):
        """Send lines about panes from the other machine's server."""
        self.panes().send(text)
        self.turn(4)


class Panes(Sockets):
    """The local subscribers to panes."""

    def test_once(self):
        """There is one subscription there, whose lines go to all subscribers here, whenever they come."""
        self.turn(3)
        first = self.connect()
        self.assertEqual((self.names, read_now(first)), (["panes"], b""))
        self.tell(LINES)
        self.assertEqual(read_now(first), LINES)
        second = self.connect()
        self.assertEqual(read_now(second), LINES)
        self.tell(b"focus 2\n2 gone\nfocus 1\n")
        self.assertEqual([read_now(one) for one in (first, second)], [b"focus 2\n2 gone\nfocus 1\n"] * 2)
        third = self.connect()
        self.assertEqual(read_now(third), b"1 1 1 23 39 1\nfocus 1\nclients 1 of 64\nwatchers 0 of 16\n")
        self.assertEqual(self.names, ["panes"])

    def test_nonsense(self):
        """Invalid lines aren't passed on, in whatever chunks they come, and take no memory."""
        self.turn(3)
        one = self.connect()
        self.tell(b"\x1b[2Jfocus 9\nfocus 12\n1 1 1 23 80 1 \n" + b"x" * 30000)
        self.turn(10)
        for _ in range(20):
            self.tell(b"y" * 30000)
            self.turn(10)
        self.tell(b"\n" + LINES[:9])
        self.tell(LINES[9:] + b"bad line\n\xff\xfe\n")
        self.assertEqual(read_now(one), LINES)
        self.assertLess(len(self.sockets.panes.following.lines.kept), 1 << 16)

    def test_lost(self):
        """If the connection breaks the subscribers here are disconnected too; new ones wait, and get the state once it is back."""
        self.turn(3)
        self.tell(LINES)
        one = self.connect()
        self.near.close()
        self.carrying = None
        self.turn(3)
        self.assertEqual((read_now(one), one.recv(1)), (LINES, b""))
        waits = self.connect()
        self.turn(3)
        with self.assertRaises(BlockingIOError):
            waits.recv(1)
        self.make()
        self.carrying = self.near
        self.turn(4)
        self.tell(b"3 1 1 23 80 1\nfocus 3\n")
        self.assertEqual(read_now(waits), b"3 1 1 23 80 1\nfocus 3\n")

    def test_refused(self):
        """If the server there accepts nobody, subscribers here are disconnected, and it is retried after pauses."""
        self.is_refused = True
        self.turn(6)
        self.assertEqual(self.names, ["panes"])
        self.now += 0.1
        self.turn()
        one = self.connect()
        self.turn(3)
        self.assertEqual(self.names, ["panes"] * 2)
        self.now += 1
        self.is_refused = False
        self.turn(6)
        self.tell(LINES)
        self.assertEqual(read_now(one) or read_now(self.connect()), LINES)

    def test_asks(self):
        """A subscriber with another request gets a connection of its own there, with the whole state and its answers."""
        self.turn(3)
        self.tell(LINES)
        one, other = self.connect(), self.connect()
        self.assertEqual((read_now(one), read_now(other)), (LINES, LINES))
        one.send(b"close 2 1\n")
        self.turn(6)
        self.assertEqual((self.names, read_now(self.panes())), (["panes"] * 2, b"close 2 1\n"))
        self.tell(LINES + b"last pane\n")
        self.assertEqual((read_now(one), read_now(other)), (LINES + b"last pane\n", b""))
        one.close()
        self.turn(4)
        self.assertEqual(self.panes().recv(1), b"")
        other.close()
        self.turn(2)
        self.assertEqual(self.sockets.panes.peers, [])

    def asks(self, one, text=b"metadata\n"):
        """Let a peer send a request here."""
        one.send(text)
        self.turn(4)

    def test_beside(self):
        """Pane metadata has one subscription there, and goes to its subscribers here: the state, and then the changes."""
        self.turn(3)
        self.tell(LINES)
        first, other = self.connect(), self.connect()
        read_now(first), read_now(other)
        self.asks(first, b"meta")
        self.assertEqual(read_now(self.panes()), b"")
        self.asks(first, b"data\n")
        self.assertEqual((self.names, read_now(self.panes())), (["panes"], b"metadata\n"))
        self.tell(b"modes 1 1 paste\ntitle 2 1 41\nbell 2 1\nshape 2 1 4\n")
        self.assertEqual(read_now(first), b"modes 1 1 paste\ntitle 2 1 41\nbell 2 1\nshape 2 1 4\n")
        self.tell(b"title 2 1 42\n")
        second = self.connect()
        self.asks(second, b"metadata\nmetadata\n")
        self.assertEqual(read_now(second), LINES + b"modes 1 1 paste\ntitle 2 1 42\nshape 2 1 4\n")
        self.assertEqual((read_now(first), read_now(other), read_now(self.panes())), (b"title 2 1 42\n", b"", b""))
        self.tell(b"2 gone\nfocus 1\n")
        third = self.connect()
        self.asks(third)
        self.assertTrue(read_now(third).endswith(b"of 16\nmodes 1 1 paste\n"))

    def test_beside_again(self):
        """The subscription is repeated after a lost connection, and a subscriber with another request repeats it there too."""
        self.turn(3)
        self.tell(LINES)
        one = self.connect()
        self.asks(one)
        self.near.close()
        self.carrying = None
        self.turn(3)
        self.make()
        self.carrying = self.near
        self.turn(4)
        self.assertEqual((self.names, read_now(self.panes())), (["panes"] * 2, b"metadata\n"))
        one = self.connect()
        self.tell(LINES + b"modes 1 1 sgr\n")
        self.assertEqual(read_now(one), LINES)
        self.asks(one, b"metadata\nclo")
        self.asks(one, b"se 2 1\n")
        self.assertEqual((self.names, read_now(self.panes())), (["panes"] * 3, b"metadata\nclose 2 1\n"))

    def test_clips(self):
        """Texts for a clipboard go to their subscribers, the newest once they read, and to no later ones."""
        self.turn(3)
        self.tell(LINES)
        first, other, slow = self.connect(), self.connect(), self.connect()
        for one in (first, other):
            read_now(one)
        self.asks(other)
        self.asks(first, b"metadata\nclipboard\n")
        self.asks(slow, b"clipboard\n")
        self.assertEqual(read_now(self.panes()), b"metadata\nclipboard\n")
        self.tell(b"clip 1 1 YQ==\nmodes 1 1 paste\nclip 1 1 ?\n")
        self.assertEqual([read_now(one) for one in (first, other)], [b"clip 1 1 YQ==\nmodes 1 1 paste\n", b"modes 1 1 paste\n"])
        for number in range(12):
            self.sockets.panes.hear([f"clip {number % 2 + 1} 1 {number:04d}" + "A" * 131068])
            self.turn()
        self.sockets.panes.hear(["focus 2"])
        got = b""
        for _ in range(60):
            self.turn()
            got += read_now(slow)
        told = [line[:13] for line in got.split(b"\n") if line.startswith(b"clip")]
        self.assertEqual((told[0], told[-1], b"focus 2\n" in got), (b"clip 1 1 YQ==", b"clip 2 1 0011", True))
        self.assertLess(len(told), 12)
        late = self.connect()
        self.asks(late, b"metadata\nclipboard\n")
        self.assertEqual(read_now(late), LINES.replace(b"focus 1", b"focus 2") + b"modes 1 1 paste\n")

    def test_beside_slow(self):
        """Metadata disconnects nobody: a subscriber that reads nothing gets the newest once it does, after the pane positions."""
        self.turn(3)
        self.tell(LINES)
        slow = self.connect()
        self.asks(slow)
        for number in range(200):
            self.sockets.panes.hear([f"title 1 1 {number:06d}" + "41" * 700, f"modes 1 1 m{number}"])
            if number % 100 == 0:
                self.turn()
        self.sockets.panes.hear(["focus 2"])
        self.assertEqual(len(self.sockets.panes.peers), 1)
        got = b""
        for _ in range(60):
            self.turn()
            got += read_now(slow)
        self.assertTrue(got.endswith(b"title 1 1 000199" + b"41" * 700 + b"\nmodes 1 1 m199\n"), got[-200:])
        self.assertLess(got.index(b"focus 2\n"), got.index(b"title 1 1 000199"))

    def test_slow(self):
        """A subscriber that reads nothing is disconnected once 65,536 bytes wait, and the others still get their lines."""
        self.turn(3)
        self.tell(LINES)
        slow, other = self.connect(), self.connect()
        got = read_now(other)
        for number in range(60000):
            self.sockets.panes.hear([f"focus {number % 2 + 1}"])
            if number % 100 == 0:
                self.turn()
                got += read_now(other)
        self.turn(4)
        self.assertEqual(len(self.sockets.panes.peers), 1)
        self.assertLessEqual(max(len(peer.waiting) for peer in self.sockets.panes.peers), PanesPeer.most)
        self.assertGreater(len(got + read_now(other)), 60000 * 7)
        self.assertTrue(slow)

    def test_most(self):
        """64 subscribers are accepted here, and the 65th is disconnected."""
        self.turn(3)
        self.tell(LINES)
        held = [self.connect() for _ in range(MOST_SUBSCRIBERS)]
        self.assertEqual([read_now(one) for one in held], [LINES] * 64)
        self.assertEqual(self.connect().recv(1), b"")


class Others(Sockets):
    """The sockets with separately forwarded connections."""

    def test_carried(self):
        """Each connection goes to the socket of its name at the other machine; without a transport it waits."""
        self.turn(2)
        self.carrying = None
        one = self.connect("host")
        self.assertNotIn("host", self.names)
        self.carrying = self.near
        self.turn(4)
        self.servers["host"][0].send(b"others 0\n")
        self.turn(3)
        self.assertEqual((read_now(one), self.names[-1]), (b"others 0\n", "host"))

    def test_used(self):
        """A front end counts while it is connected, or waits for a transport; one at another socket doesn't."""
        self.turn(2)
        panes = self.connect("panes")
        self.assertFalse(self.sockets.is_used())
        one = self.connect("host")
        self.assertTrue(self.sockets.is_used())
        self.near.end_all()
        self.assertFalse(self.sockets.is_used())
        self.carrying = None
        again = self.connect("host")
        again.send(b"here\n")
        self.assertTrue(self.sockets.is_used())
        again.close()
        self.assertEqual((self.sockets.is_used(), self.sockets.host.waiting), (False, []))
        last = self.connect("host")
        self.sockets.close()
        self.assertEqual((panes.recv(1), one.recv(1), last.recv(1)), (b"",) * 3)

    def test_many_wait(self):
        """So many wait here at most, and others at the socket; all are forwarded once there is a transport."""
        self.turn(2)
        self.carrying = None
        held = [self.connect("host") for _ in range(near_sockets.MOST_SUBSCRIBERS + 3)]
        self.turn(len(held))
        self.assertEqual(len(self.sockets.host.waiting), near_sockets.MOST_SUBSCRIBERS)
        self.carrying = self.near
        self.turn(10)
        self.assertEqual((self.sockets.host.waiting, self.names.count("host")), ([], 63))

    def test_most(self):
        """A connection without room is closed."""
        held = []
        for _ in range(62):
            held.append(self.connect("host"))
        self.assertEqual(len(self.near.all), 63)
        held.append(self.connect("host"))
        self.assertEqual(self.connect("host").recv(1), b"")

    def test_close(self):
        """The sockets are removed, and created again."""
        self.turn(3)
        one = self.connect()
        self.sockets.close()
        self.assertEqual((os.listdir(self.folder), one.recv(1)), ([], b""))
        self.sockets.close()
        self.sockets.open()
        self.sockets.open()
        self.assertEqual(sorted(os.listdir(self.folder)), ["host", "panes"])

    def test_taken(self):
        """If another process listens there that is reported, and the rest continues."""
        said = self.heard()
        self.sockets.close()
        self.listening(self.folder / "host")
        self.sockets.open()
        self.assertIn("another process already listens at", said.getvalue())
        self.assertIsNone(self.sockets.host)


if __name__ == "__main__":
    unittest.main()
