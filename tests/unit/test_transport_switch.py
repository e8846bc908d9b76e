"""Both ends of a relay with an encrypted path beside the command: real sockets of loopback, a stopped clock, and commands made by hand."""
import argparse
import contextlib
import os
import unittest
from unittest import mock

from aids import Case, StillLoop, ended, read_now
from roam_live.common.errors import Fault
from roam_live.relay import common, far, near, path_setup
from roam_live.relay.aead_packets import AeadPackets, udp_end
from roam_live.relay.batches import MOST_BATCHES
from roam_live.relay.common import Ended
from roam_live.relay.forwarding import FORWARDS
from roam_live.relay.frames import ENDED, HAD, KILLED, LEAVES, WINDOWS, RelayStream, Waiting, greeting
from roam_live.relay.path_setup import AEAD_HEAD, wish
from roam_live.relay.udp_path import Path
from test_batches import shown, typed
from test_relay import FakeLink, Other, packed
from test_aead_packets import Foolish

KEY = b"k" * 32


def drained(path):
    """Return the data received over a path."""
    return list(path.received())


class Both(Case):
    """Common parts of tests of both ends."""

    def setUp(self):
        self.stop_clock()
        self.environment(ROAM_UDP=None, SSH_CONNECTION="127.0.0.1 1 127.0.0.1 22")
        self.patch_of(path_setup, "hide_memory")
        self.patch_of(path_setup, "cipher", return_value=Foolish)
        self.folder = self.made_folder()
        self.wakeup, self.wakes = self.pipe()
        self.said = self.heard()

    def asked(self, **more):
        """Return the options of a command line."""
        known = {"far": False, "greeted": False, "owner": None, "alone": None, "log": None, "host": "", "dir": str(self.folder),
                 "session": None, "server": None, "port": None, "command": ["ssh", "there"]}
        return argparse.Namespace(**{**known, **more})

    def place(self, port):
        """Return a port of this machine as an address for both families."""
        return path_setup.places_of("127.0.0.1", port, self.family)[0]

    @contextlib.contextmanager
    def ends(self):
        """End the relay, with status 0."""
        with self.assertRaises(Ended) as way:
            yield
        self.assertEqual(way.exception.status, 0)

    def end(self):
        """Return a UDP socket of this test's own."""
        one = udp_end()
        self.family = one.family
        self.addCleanup(one.close)
        return one


class Near(Both):
    """The near end, with a far end of the test's own."""

    def setUp(self):
        super().setUp()
        self.links = []
        self.patch_of(near, "RunningCommand", side_effect=self.new_link)
        self.printed()
        self.far = Path(AeadPackets(Foolish(KEY), False), self.end())
        self.port = self.far.end.getsockname()[1]
        self.patch_of(path_setup, "PORTS", range(1, 65536))
        self.patch_of(path_setup.Finder, "look", lambda _, path: setattr(path, "places", [self.place(path.port)]))
        self.near = near.Near(self.asked(), self.wakeup, StillLoop())
        self.is_closed = False
        self.addCleanup(self.close)
        self.waiting, self.is_open, self.came = Waiting(), True, []

    def close(self):
        """End it."""
        if not self.is_closed:
            self.is_closed = True
            self.patch_of(near, "finish")
            self.near.close()

    def new_link(self, command, session, may_ask):
        """Return a simulated command."""
        self.links.append(FakeLink(self, session))
        return self.links[-1]

    def run_for(self, seconds):
        """Let so many seconds pass at both ends, in small steps."""
        end = self.now + seconds
        while self.now < end:
            self.now += 0.05
            self.near.turn()
            if self.is_open:
                self.came += drained(self.far)
                self.far.fill(self.waiting)
            elif self.far.fileno() >= 0:
                read_now(self.far.end)
                read_now(self.near.ways.path) if self.near.ways.path else None
            self.near.turn()

    def answer(self, tells=True):
        """Let the newest command's other end answer, and offer the path."""
        self.near.turn()
        self.links[-1].say(greeting("abc"))
        self.near.turn()
        if tells:
            self.links[-1].tell((0, FORWARDS), (0, AEAD_HEAD.pack(b"s", 1, self.port, KEY) + b"127.0.0.1"))
        self.near.turn()

    def validate(self):
        """Validate the path."""
        self.answer()
        self.run_for(2)
        self.assertTrue(self.near.ways.is_validated() and self.far.is_validated())

    def frames(self, number=-1):
        """Return the frames to a command, without the acknowledgements."""
        return [frame for frame in self.links[number].other.frames() if frame[1][:1] != HAD or frame[0]]

    def test_asks(self):
        """After the other end's answer it requests a path, with the name stored in its folder; and none if UDP is off."""
        self.answer(False)
        name = bytes.fromhex((self.folder / "name").read_text(encoding="ascii"))
        self.assertEqual(self.frames(), [(0, wish(name))])
        self.near.ways.drop_path()
        with mock.patch.dict(os.environ, ROAM_UDP="never"):
            self.near.ask_for_path()
            self.near.take(0, AEAD_HEAD.pack(b"s", 1, self.port, KEY))
        self.near.turn()
        self.assertEqual((len(self.frames()), self.near.ways.path), (1, None))

    def test_forwards(self):
        """Before the path is validated the command carries everything, and then the path; both ways."""
        self.answer()
        self.near.waiting.add(3, typed(1)[0])
        self.near.turn()
        self.assertEqual(self.frames()[-1], (3, typed(1)[0]))
        self.assertIs(self.near.ways.chosen(self.near.has_live_link()), self.links[0].stream)
        self.run_for(2)
        self.assertIs(self.near.ways.chosen(self.near.has_live_link()), self.near.ways.path)
        self.near.waiting.add(3, typed(2)[0])
        self.run_for(0.1)
        came = [frame for frame in self.came if frame != (0, WINDOWS)]
        self.assertEqual(([frame for frame in self.frames() if frame[0]][-1], came), ((3, typed(1)[0]), [(3, typed(2)[0])]))
        delivered = self.patch_of(self.near, "deliver")
        self.waiting.add(3, shown(1)[0])
        self.run_for(0.1)
        delivered.assert_called_once_with(3, shown(1)[0])

    def test_told(self):
        """An end reported by the far end over the path ends this one, which acknowledges it."""
        self.validate()
        self.far.tell(0, KILLED)
        with self.ends():
            self.run_for(1)
        self.close()
        drained(self.far)
        self.assertTrue(self.far.is_said())
        self.assertEqual((self.folder / "ended").read_text(encoding="utf-8"), "killed")

    def test_rests(self):
        """Once the path has been validated for 5 s the command is silent and stays, and nothing else is started."""
        self.validate()
        self.run_for(6)
        count = len(self.links[0].other.text)
        self.frames()
        count = len(self.links[0].other.text)
        self.run_for(60)
        self.frames()
        self.assertEqual((len(self.links[0].other.text), len(self.links), self.links[0].has_ended), (count, 1, False))
        self.assertTrue(self.near.ways.rests)
        self.assertEqual(self.said.getvalue(), "")

    def test_rests_and_acknowledges(self):
        """Data over an idle command is acknowledged all the same."""
        self.validate()
        self.run_for(6)
        self.frames()
        count = len(self.links[0].other.text)
        self.links[0].tell((3, shown(1)[0]))
        self.run_for(4)
        self.frames()
        self.assertGreater(len(self.links[0].other.text), count)

    def test_command_ends(self):
        """A command that ends while the path is validated isn't started again."""
        self.validate()
        self.links[0].hang_up()
        self.run_for(60)
        self.assertEqual((len(self.links), self.near.link, self.near.is_silent()), (1, None, False))
        self.assertEqual(self.said.getvalue(), "")

    def test_falls_silent_beside_a_command(self):
        """If the path becomes silent the existing command carries the queue at once; a silent one is replaced."""
        self.validate()
        self.run_for(60)
        self.is_open = False
        self.near.waiting.add(3, typed(1)[0])
        self.run_for(3)
        self.assertNotIn((3, typed(2)[0]), self.frames())
        self.run_for(2)
        self.assertFalse(self.near.ways.is_validated() or self.near.ways.rests)
        self.near.waiting.add(3, typed(2)[0])
        self.near.turn()
        self.assertEqual((self.frames()[-1], len(self.links)), ((3, typed(2)[0]), 1))
        self.run_for(6)
        self.assertEqual(len(self.links), 1)
        self.run_for(3)
        self.assertGreater(len(self.links), 1)
        self.assertIn("the other end is silent\n", self.said.getvalue())

    def test_comes_back(self):
        """A path that is heard again carries everything, and the command started meanwhile is ended."""
        self.validate()
        self.links[0].hang_up()
        self.run_for(20)
        self.is_open = False
        self.near.waiting.add(3, typed(1)[0])
        self.run_for(6)
        self.assertGreater(len(self.links), 2)
        self.is_open = True
        self.run_for(2)
        self.assertTrue(self.near.ways.is_validated())
        self.assertEqual((self.near.tries, [link.has_ended for link in self.links[1:]]), ([], [True] * (len(self.links) - 1)))
        self.assertEqual(self.came[-1], (3, typed(1)[0]))
        self.assertIn("the other end answers again\n", self.said.getvalue())

    def test_another_command(self):
        """Another command that answers gets a request for another path, and the old one is dropped."""
        self.validate()
        self.links[0].hang_up()
        self.is_open = False
        self.near.waiting.add(3, typed(1)[0])
        self.run_for(6)
        path = self.near.ways.path
        self.answer(False)
        self.assertEqual((self.near.ways.path, path.fileno(), self.frames()[0][1][:1]), (None, -1, b"w"))

    def test_spent(self):
        """A path without counters is dropped, and another requested over the existing command; else one is started."""
        self.validate()
        self.near.ways.path.batches.last = MOST_BATCHES
        self.near.turn()
        self.assertEqual((self.near.ways.path, [text[:1] for _, text in self.frames()].count(b"w")), (None, 2))
        self.near.turn()
        self.assertEqual([text[:1] for _, text in self.frames()].count(b"w"), 2)

    def test_leaves(self):
        """At its end it informs the far end, as long as that hears, and for a second at most."""
        self.validate()
        begun = self.now
        self.is_closed = True
        self.patch_of(common, "comes", lambda end, seconds: self.pass_time(seconds) or self.came.extend(drained(self.far))
                      or self.far.fill(self.waiting))
        self.near.close()
        self.assertIn((0, LEAVES), self.came)
        self.assertLess(self.now - begun, 0.5)

    def test_leaves_nobody(self):
        """If nobody hears it ends after a second; without an answer over the path at once."""
        self.validate()
        self.is_closed, begun = True, self.now
        self.patch_of(common, "comes", lambda end, seconds: self.pass_time(seconds))
        self.near.close()
        self.assertAlmostEqual(self.now - begun, near.END_WAIT, delta=0.1)

    def test_hostile(self):
        """Whatever the far end offers, one path is stored at most, and no descriptors leak."""
        self.answer()
        self.near.turn()
        before = len(os.listdir("/proc/self/fd"))
        for number in range(50):
            self.near.take(0, AEAD_HEAD.pack(b"s", 1, self.port, bytes([number]) * 32) + b"evil.example")
            self.near.take(0, b"s" + bytes(number))
        self.assertEqual(len(os.listdir("/proc/self/fd")), before)
        with mock.patch.object(path_setup, "udp_end", return_value=None):
            self.near.take(0, AEAD_HEAD.pack(b"s", 1, self.port, KEY))
        self.assertEqual(self.near.ways.path.aead.cipher.key, bytes([49]) * 32)

    def test_other_port(self):
        """A path that moves to another port is heard there."""
        self.validate()
        self.near.ways.path.hop(self.now)
        self.waiting.add(3, shown(1)[0])
        delivered = self.patch_of(self.near, "deliver")
        self.near.waiting.add(3, typed(1)[0])
        self.run_for(1)
        self.waiting.add(3, shown(2)[0])
        self.run_for(0.2)
        self.assertEqual(delivered.call_args[0], (3, shown(2)[0]))


class Far(Both):
    """The far end, with a near end of the test's own."""

    def setUp(self):
        super().setUp()
        (self.source, self.said_end), (heard, self.target) = self.pipe(), self.pipe()
        self.other = Other(heard)
        self.patch_of(far, "RelayStream", side_effect=lambda _, __, session: RelayStream(self.source, self.target, session))
        self.patch_of(far.os, "set_blocking")
        self.closes = self.patch_of(far, "close_standard")
        self.parts = self.patch_of(far, "part_from_command", side_effect=self.part)
        self.letting_go = None
        self.near = Path(AeadPackets(Foolish(KEY), True), self.end())
        self.patch_of(path_setup, "random_key", return_value=KEY)
        self.waiting, self.came, self.is_open = Waiting(), [], True
        self.far = far.Far(self.asked(far=True, command=[]), self.wakeup, StillLoop())
        self.addCleanup(self.far.close)
        for number, end in ((0, self.source), (1, self.target)):
            known = self.far.loop.sources[number]
            self.far.loop.remove(number)
            self.far.loop.add(end, known.reads, known.writes, hears=known.hears, has_more=known.has_more)

    def part(self, signals):
        """Return the descriptor that would release the command, in this same process."""
        self.letting_go, held = os.pipe()
        self.addCleanup(os.close, self.letting_go)
        return held

    def run_for(self, seconds):
        """Let so many seconds pass at both ends, in small steps."""
        end = self.now + seconds
        while self.now < end:
            self.now += 0.05
            self.far.turn()
            if self.is_open:
                self.came += drained(self.near)
                self.near.fill(self.waiting)
            else:
                read_now(self.near.end)
            self.far.turn()

    def ask(self, *more):
        """Let the other end greet, and request a path."""
        os.write(self.said_end, greeting("-") + packed((0, wish(b"12345678")), *more))
        for _ in range(3):
            self.far.turn()

    def validate(self, asks=True):
        """Validate the path."""
        if asks:
            self.ask()
        told = next(text for peer, text in self.other.frames() if text[:1] == b"s")
        self.near.places = [self.place(AEAD_HEAD.unpack_from(told)[2])]
        self.run_for(2)
        self.assertTrue(self.near.is_validated() and self.far.ways.is_validated())

    def frames(self):
        """Return the frames to the other end over the command, without the acknowledgements."""
        return [frame for frame in self.other.frames() if frame[1][:1] != HAD or frame[0]]

    def test_makes(self):
        """It continues in another process, records itself for the next one, and reports port, key and address."""
        self.ask()
        kind, version, port, key = AEAD_HEAD.unpack_from(self.frames()[0][1])
        self.assertEqual((kind, version, key, self.frames()[0][1][AEAD_HEAD.size :]), (b"s", 1, KEY, b"127.0.0.1"))
        self.assertIn(port, range(60000, 61001))
        self.assertEqual(self.parts.call_count, 1)
        self.assertTrue((self.folder / "relays" / b"12345678".hex()).exists())
        self.far.close()
        self.assertFalse(list((self.folder / "relays").iterdir()))

    def test_makes_none(self):
        """Without a request, the library, a port, a process, or a known version, there is none, and only the command remains."""
        self.ask()
        self.far.ways.drop_path()
        for patch in (mock.patch.dict(os.environ, ROAM_UDP="never"), mock.patch.object(path_setup, "cipher", return_value=None),
                      mock.patch.object(far, "udp_end", return_value=None), mock.patch.object(far, "part_from_command", return_value=None)):
            with patch:
                self.far.held = None
                self.far.make_path("ab")
                self.assertIsNone(self.far.ways.path)
        self.far.make_path("")
        self.assertIsNone(self.far.ways.path)

    def test_asked_again(self):
        """A repeated request gets another key and port in the same process, and the old ones are dropped."""
        self.ask((0, wish(b"12345678")))
        told = [text for _, text in self.frames() if text[:1] == b"s"]
        self.assertEqual((len(told), self.parts.call_count), (2, 1))
        self.assertEqual(self.far.ways.path.end.getsockname()[1], AEAD_HEAD.unpack_from(told[1])[2])

    def test_forwards(self):
        """A validated path carries everything, both ways."""
        self.validate()
        self.assertEqual(self.came, [])
        sent = self.patch_of(self.far, "send")
        self.waiting.add(3, typed(1)[0])
        self.run_for(0.1)
        sent.assert_called_once_with(3, typed(1)[0])
        self.far.waiting.add(3, shown(1)[0])
        self.run_for(0.1)
        self.assertEqual(self.came[-1], (3, shown(1)[0]))
        self.assertNotIn((3, shown(1)[0]), self.frames())

    def test_command_ends(self):
        """After the command's end it continues, and releases the process that kept it open; its terminals stay."""
        self.validate()
        ends = self.patch_of(self.far.ways.path.streams, "end_named")
        ended(self.said_end)
        self.run_for(1)
        self.assertEqual((os.read(self.letting_go, 1), self.closes.call_count, self.far.has_command()), (b"", 1, False))
        self.run_for(30)
        self.assertTrue(self.near.is_validated())
        self.assertEqual((self.far.is_called, ends.call_count), (True, 0))

    def test_command_ends_without_a_path(self):
        """Without a path the command's end is its own; the same if the command can't be released."""
        self.far.turn()
        ended(self.said_end)
        with self.ends():
            self.run_for(1)
        self.ask_by_hand()
        self.closes.side_effect = OSError(24, "no")
        with self.ends():
            self.far.let_go()

    def ask_by_hand(self):
        """Make a path without the other end's request."""
        self.far.stream.session = "-"
        self.far.make_path("ab")

    def test_never_called(self):
        """A path that was never called is dropped 30 s after the command."""
        self.ask()
        self.run_for(20)
        ended(self.said_end)
        self.run_for(29.9)
        with self.ends():
            self.run_for(0.5)

    def test_silent_command(self):
        """A command that is silent for 30 s is released if the path was used, and otherwise is the end."""
        self.validate()
        self.is_open = False
        self.run_for(30)
        self.assertTrue(self.far.has_command())
        self.run_for(10)
        self.assertFalse(self.far.has_command())

    def test_silent_command_alone(self):
        """The same without a call."""
        self.ask()
        with self.assertRaisesRegex(Fault, "the other end has been silent for 30 s"):
            self.run_for(32)

    def test_rests(self):
        """While the path is validated the command's silence is no error, and nothing is sent over it."""
        self.validate()
        self.run_for(6)
        self.frames()
        count = len(self.other.text)
        self.run_for(120)
        self.frames()
        self.assertEqual((len(self.other.text), self.far.has_command()), (count, True))

    def test_asleep(self):
        """After a minute without a call it ends the connections to the host, and has no timer but its end, after 7 days."""
        self.validate()
        ends = self.patch_of(self.far.ways.path.streams, "end_named")
        ended(self.said_end)
        self.run_for(1)
        heard, self.is_open = self.far.ways.path.heard_at, False
        self.run_for(70)
        ends.assert_called_once_with("host")
        self.assertEqual((self.far.is_called, self.far.prepare()), (False, heard + far.FAR_WAIT))
        self.now = heard + far.FAR_WAIT - 60
        self.is_open = True
        self.run_for(6)
        self.assertEqual((self.far.is_called, self.near.is_validated(), ends.call_count), (True, True, 1))
        self.now += far.FAR_WAIT + 1
        with self.ends():
            self.far.turn()

    def test_asleep_leaves(self):
        """A sleeping near end isn't at the session: its connections to the pty host end there, and no others."""
        self.validate()
        ended(self.said_end)
        self.run_for(1)
        streams, ends = self.far.ways.path.streams, {}
        for number, name in ((5, "host"), (6, "panes")):
            ours, ends[name] = self.pair()
            with mock.patch.object(streams, "opens", return_value=ours):
                streams.opened(streams.all.setdefault(number, streams.made(number)), name)
        self.is_open = False
        self.run_for(50)
        with self.assertRaises(BlockingIOError):
            ends["host"].recv(1)
        self.run_for(20)
        self.assertEqual(ends["host"].recv(1), b"")
        with self.assertRaises(BlockingIOError):
            ends["panes"].recv(1)

    def test_session_ends(self):
        """The session's end is reported by the path alone, until it is acknowledged, for 30 s at most."""
        self.validate()
        self.patch_of(common, "comes", lambda end, seconds: self.pass_time(seconds) or self.came.extend(drained(self.near))
                      or self.near.fill(self.waiting))
        begun = self.now
        with self.ends():
            self.far.tell_end()
        self.assertIn((0, ENDED), self.came)
        self.assertNotIn((0, ENDED), self.frames())
        self.assertLess(self.now - begun, 1)

    def test_session_ends_unheard_by_the_path(self):
        """If nobody hears by the path, the command reports it."""
        self.validate()
        self.patch_of(common, "comes", lambda end, seconds: self.pass_time(seconds))
        self.patch_of(far, "is_taken", return_value=True)
        with self.ends():
            self.far.tell_end()
        self.assertIn((0, ENDED), self.frames())

    def test_session_ends_unheard(self):
        """The same if nobody hears."""
        self.validate()
        ended(self.said_end)
        self.run_for(1)
        self.patch_of(common, "comes", lambda end, seconds: self.pass_time(seconds))
        begun = self.now
        with self.ends():
            self.far.tell_end()
        self.assertAlmostEqual(self.now - begun, far.ALONE, delta=1)

    def test_left(self):
        """It ends if the near end leaves."""
        self.validate()
        self.near.tell(0, LEAVES)
        with self.ends():
            self.run_for(1)

    def test_spent(self):
        """A path without counters is replaced, with a report over the command; without a command it ends."""
        self.validate()
        self.far.ways.path.batches.last = MOST_BATCHES
        self.run_for(0.1)
        told = [text for _, text in self.frames() if text[:1] == b"s"]
        self.assertEqual((len(told), self.far.ways.path.is_spent()), (2, False))
        self.far.ways.stream = None
        self.far.ways.path.batches.last = MOST_BATCHES
        with self.ends():
            self.far.turn()

    def test_blocked_later(self):
        """If the path becomes silent everything goes by the existing command, with a heartbeat at once."""
        self.validate()
        self.run_for(20)
        self.frames()
        self.is_open = False
        self.run_for(8)
        count = len([text for _, text in self.other.frames() if text[:1] == HAD])
        self.assertFalse(self.far.ways.rests)
        self.assertGreater(count, 1)
        self.far.waiting.add(3, shown(1)[0])
        self.far.turn()
        self.far.turn()
        self.assertEqual(self.frames()[-1], (3, shown(1)[0]))


class Choice(Both):
    """The transport that carries the queue."""

    def test_chosen(self):
        """A validated path, else the stream if it is there, else the path."""
        both = common.Ways(StillLoop())
        self.assertIsNone(both.chosen(False))
        both.stream = mock.Mock(resume=mock.Mock())
        self.assertIs(both.chosen(True), both.stream)
        both.path = mock.Mock(is_validated=mock.Mock(return_value=False), validated_since=self.now)
        self.assertEqual((both.chosen(True), both.chosen(False)), (both.stream, both.path))
        both.path.is_validated.return_value = True
        self.assertIs(both.chosen(True), both.path)
        both.rest()
        self.assertFalse(both.rests)
        self.now += common.SOUND
        both.rest()
        self.assertTrue(both.rests)
        both.path.is_validated.return_value = False
        both.rest()
        self.assertEqual((both.rests, both.stream.resume.call_count), (False, 1))


if __name__ == "__main__":
    unittest.main()
