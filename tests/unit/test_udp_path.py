"""Paths between two ends made by hand, over a network and a clock of their own."""
import errno
import random
import unittest
from unittest import mock

from aids import Case
from roam_live.relay import path_state, udp_path
from roam_live.relay.aead_packets import LONGEST_PACKET, LONGEST_TEXT, MOST_PACKETS, AeadPackets
from roam_live.relay.batches import CHUNK, MOST_BATCHES
from roam_live.relay.frames import ENDED, KILLED, LEAVES, Waiting
from roam_live.relay.path_state import (ASKS, ASKS_LARGE, FIRST, HEAD, HELD, LEAST, Best, HeardPackets, PathPace, SentPacket, States,
                                        Trips, frames_in)
from roam_live.relay.udp_path import MOMENT, Path
from test_batches import datagrams, noise, shown, typed
from test_aead_packets import Foolish

NEAR, FAR = ("::1", 1, 0, 0), ("::2", 2, 0, 0)


class Wire:
    """A socket that records its packets, from an address."""

    def __init__(self, place):
        self.place, self.out, self.coming = place, [], []

    def fileno(self):
        """Return no descriptor."""
        return -1

    def close(self):
        """Do nothing: nothing is open."""

    def sendmsg(self, packets, told, flags, place):
        """Record a packet."""
        self.out.append((packets[0], place))

    def recvmsg(self, size, more):
        """Return the received packet."""
        if not self.coming:
            raise BlockingIOError
        packet, place = self.coming.pop(0)
        if isinstance(packet, OSError):
            raise packet
        return packet[:size], [], 0, place


class Net(Case):
    """Two ends, and a network between them with a one-way delay."""

    DELAY = 0.05

    def setUp(self):
        self.stop_clock()
        self.near, self.far = Path(AeadPackets(Foolish(b""), True), Wire(NEAR), [FAR]), Path(AeadPackets(Foolish(b""), False), Wire(FAR))
        self.waiting = {self.near: Waiting(), self.far: Waiting()}
        self.flying, self.got, self.count = [], {self.near: [], self.far: []}, {self.near: 0, self.far: 0}
        self.bytes, self.last = {self.near: 0, self.far: 0}, {}
        self.loses = lambda path, packet: False
        self.is_open = True
        self.patch("roam_live.relay.udp_path.udp_end", return_value=None)

    def other(self, path):
        """Return the other end."""
        return self.far if path is self.near else self.near

    def run_for(self, seconds, also=lambda: None):
        """Let so many seconds pass, each thing done when it is due."""
        end = self.now + seconds
        while True:
            also()
            for path in (self.near, self.far):
                path.fill(self.waiting[path])
                self.carry(path)
            moments = [moment for moment, *_ in self.flying] + [path.due_at() for path in (self.near, self.far)]
            moment = max(self.now + 0.0005, min(moments))
            if moment > end:
                self.now = max(self.now, end)
                return
            self.now = moment
            for flying in sorted((one for one in self.flying if one[0] <= self.now), key=lambda one: one[0]):
                self.flying.remove(flying)
                _, path, packet, place = flying
                path.end.coming.append((packet, place))
                self.got[path] += path.received()

    def carry(self, path):
        """Put an end's packets in flight."""
        for packet, _ in path.end.out:
            self.count[path] += 1
            self.bytes[path] += len(packet)
            self.last[path] = self.now
            if self.is_open and not self.loses(path, packet):
                self.flying.append((self.now + self.DELAY, self.other(path), packet, path.end.place))
        path.end.out.clear()

    def begin(self, seconds=3.0):
        """Let the two find each other."""
        self.run_for(seconds)
        self.assertTrue(self.near.is_validated() and self.far.is_validated())

    def send(self, path, peer, texts):
        """Queue an instruction."""
        for text in texts:
            self.waiting[path].add(peer, text)


class Generations(Net):
    """The start, the silence and the return of a path."""

    def test_begins(self):
        """The near end calls, requests the largest size, and both are validated once a packet of it came each way."""
        self.assertFalse(self.near.is_validated() or self.far.is_validated())
        self.assertEqual(self.far.due_at(), float("inf"))
        self.run_for(0.19)
        self.assertEqual(self.count[self.near], 0)
        self.run_for(0.5)
        self.assertTrue(self.near.is_validated() and self.far.is_validated())
        self.assertEqual((self.near.place, self.far.place), (FAR, NEAR))
        self.assertLess(self.near.validated_since, 100.45)

    def test_small_alone(self):
        """If only small packets pass it is never validated, and little is sent."""
        self.loses = lambda path, packet: len(packet) > 500
        self.run_for(60)
        self.assertFalse(self.near.is_validated() or self.far.is_validated())
        self.assertLess(self.count[self.near] + self.count[self.far], 120)

    def test_small_alone_one_way(self):
        """The same if only the answers are lost."""
        self.loses = lambda path, packet: path is self.far and len(packet) > 500
        self.run_for(60)
        self.assertFalse(self.near.is_validated())
        self.assertLess(self.count[self.near] + self.count[self.far], 160)

    def test_blocked(self):
        """If nothing passes it is called after 0.2, 0.4 .. 5 s beside another transport: below a kB a minute, and every second without one.
        """
        self.is_open = False
        self.run_for(60)
        calls = self.count[self.near]
        self.assertEqual(calls, 15)
        self.run_for(60)
        self.assertLessEqual((self.count[self.near] - calls) * 72, 900)
        self.near.is_alone, calls = True, self.count[self.near]
        self.run_for(60)
        self.assertIn(self.count[self.near] - calls, (59, 60, 61))

    def test_idle(self):
        """Each end sends something every 3.5 s, and requests an answer after 4 s without an acknowledgement, so that it stays validated."""
        self.begin()
        count = sum(self.count.values())
        for _ in range(60):
            self.run_for(10)
            self.assertTrue(self.near.is_validated() and self.far.is_validated())
        self.assertLess(sum(self.count.values()) - count, 800)

    def test_idle_session(self):
        """An idle session costs the packets of its cores, every 3 s both ways, and no more: each acknowledges the other."""
        self.send(self.near, 1, typed(1))
        self.send(self.far, 1, shown(1))
        self.begin()
        count, size = sum(self.count.values()), sum(self.bytes.values())
        said = {self.near: self.now, self.far: self.now + 1}
        texts = {self.near: typed(2, count=0), self.far: shown(1)}

        def speak():
            for path, text in texts.items():
                if self.now >= said[path] + 3.005:
                    said[path] = self.now
                    self.send(path, 1, text)

        for _ in range(6000):
            self.run_for(0.1, speak)
            self.assertTrue(self.near.is_validated() and self.far.is_validated())
        self.assertLess(sum(self.count.values()) - count, 410)
        self.assertLess((sum(self.bytes.values()) - size) / 10 + 41 * 28, 4300)

    def test_silent(self):
        """It is silent 4 s after an unanswered packet, and 7 s after the last answer at most, and validated again with the first packet
        that passes.
        """
        self.begin()
        self.is_open = False
        self.send(self.near, 1, typed(1))
        self.run_for(3.9)
        self.assertTrue(self.near.is_validated())
        self.run_for(0.2)
        self.assertFalse(self.near.is_validated())
        self.run_for(3.1)
        self.assertFalse(self.far.is_validated())
        self.is_open = True
        self.run_for(5.2)
        self.assertTrue(self.near.is_validated() and self.far.is_validated())
        self.assertEqual(self.got[self.far], [(1, typed(1)[0])])

    def test_silent_at(self):
        """The moment of silence is 7 s after the last answer, and 4 s after an unanswered packet; one never heard is silent."""
        self.assertEqual(self.near.silent_at(), float("-inf"))
        self.near.answered_at = self.now
        self.assertEqual(self.near.silent_at(), self.now + 7)
        self.near.asked_at = self.now + 2
        self.assertEqual(self.near.silent_at(), self.now + 6)
        self.near.asked_at = self.now + 5
        self.assertEqual(self.near.silent_at(), self.now + 7)

    def test_one_at_a_time(self):
        """Over a silent path one packet at a time is sent, as a probe."""
        self.begin()
        self.is_open = False
        self.send(self.near, 1, typed(1))
        self.run_for(8)
        self.near.give_up(list(self.near.sent))
        for peer in range(1, 9):
            self.send(self.near, peer, datagrams(2, noise(1000, peer)))
        for _ in range(3):
            self.near.fill(self.waiting[self.near])
        self.assertEqual(len(self.near.end.out), 1)
        self.near.end.out.clear()
        self.is_open = True
        self.run_for(8)
        self.assertEqual({peer for peer, _ in self.got[self.far]}, set(range(1, 9)))

    def test_lost_answers(self):
        """With 20 of 100 lost it stays validated for ten minutes."""
        chance = random.Random(20)
        self.loses = lambda path, packet: chance.random() < 0.2
        self.begin(10)
        for _ in range(600):
            self.run_for(1)
            self.assertTrue(self.near.is_validated() and self.far.is_validated(), self.now)

    def test_asleep(self):
        """A far end without a call for a minute sends nothing and has no timer; the first packet wakes it, and the queue arrives."""
        self.begin()
        self.is_open = False
        self.run_for(70)
        self.assertTrue(self.far.is_asleep())
        self.assertEqual(self.far.due_at(), float("inf"))
        count = self.count[self.far]
        self.send(self.far, 1, shown(1))
        self.run_for(86400, lambda: setattr(self, "now", self.now + 600))
        self.assertEqual(self.count[self.far], count)
        self.assertFalse(self.near.is_asleep())
        self.is_open = True
        self.run_for(11)
        self.assertEqual(self.got[self.near], [(1, shown(1)[0])])
        self.assertTrue(self.near.is_validated() and self.far.is_validated())

    def test_moves(self):
        """Another near address is used from its first packet on; a late packet from the old one changes nothing."""
        self.begin()
        old = self.near.aead.encrypted(HEAD.pack(0, 0, 0) + ASKS)
        self.near.end.place = ("::9", 9, 0, 0)
        self.send(self.near, 1, typed(1))
        self.run_for(0.1)
        self.assertEqual(self.far.place, ("::9", 9, 0, 0))
        self.far.end.coming.append((old, NEAR))
        self.assertEqual(list(self.far.received()), [])
        self.assertEqual(self.far.place, ("::9", 9, 0, 0))

    def test_next_port(self):
        """A near end without packets for 10 s uses another port, every 10 s, if there is one."""
        ends = []

        def another():
            ends.append(self.now)
            return Wire(("::1", len(ends), 0, 0)) if len(ends) > 1 else None

        self.begin()
        self.is_open = False
        self.near.is_alone = True
        with mock.patch("roam_live.relay.udp_path.udp_end", side_effect=another):
            self.run_for(32)
        self.assertEqual(len(ends), 3)
        self.assertEqual(self.near.end.place, ("::1", 3, 0, 0))

    def test_all_places(self):
        """A silent near end calls all candidate addresses, and the last one; a validated one sends to the current one."""
        self.near.places = [FAR, ("::3", 1, 0, 0), FAR]
        self.near.place = ("::4", 1, 0, 0)
        self.near.call(self.now)
        self.assertEqual([place for _, place in self.near.end.out], [("::4", 1, 0, 0), FAR, ("::3", 1, 0, 0)])
        self.assertEqual(len({packet for packet, _ in self.near.end.out}), 1)
        self.carry(self.near)
        self.begin()
        self.near.call(self.now)
        self.assertEqual([place for _, place in self.near.end.out], [FAR])

    def test_refused(self):
        """A packet that the system refuses is lost, and nothing more."""
        self.near.end.coming += [(OSError(errno.ECONNREFUSED, "no"), None), (b"", NEAR)]
        self.assertEqual(list(self.near.received()), [])
        self.near.end.sendmsg = mock.Mock(side_effect=OSError(errno.ENETUNREACH, "no"))
        self.run_for(5)
        self.assertGreater(self.near.end.sendmsg.call_count, 3)


class Ends(Net):
    """The last counters and batch numbers."""

    def test_counter(self):
        """The last counter is used, and then nothing is sent; the path is spent, and waits for nothing."""
        self.begin()
        self.near.aead.counter = MOST_PACKETS - 3
        for number in range(1, 9):
            self.send(self.near, 1, typed(number))
            self.run_for(0.2)
        self.assertTrue(self.near.is_spent())
        self.assertEqual((self.near.aead.counter, self.near.due_at()), (MOST_PACKETS - 1, float("inf")))
        self.near.call(self.now)
        self.near.send_packet(self.now)
        self.assertEqual(self.near.end.out, [])
        self.assertEqual([peer for peer, _ in self.got[self.far]], [1, 1])
        self.assertTrue(self.waiting[self.near].datagrams)

    def test_batches(self):
        """The last batch arrives, and none follows it."""
        self.begin()
        self.near.batches.last = MOST_BATCHES - 3
        for number in range(1, 9):
            self.send(self.near, 1, typed(number))
            self.run_for(0.2)
        self.assertTrue(self.near.is_spent())
        self.assertEqual(self.got[self.far], [(1, typed(1)[0]), (1, typed(2)[0])])
        self.near.tell(0, LEAVES)
        self.run_for(1)
        self.assertFalse(self.near.is_said())

    def test_counters_low_bits(self):
        """An acknowledgement by its lowest 32 bits means the newest possible counter."""
        self.begin()
        self.near.aead.counter += 1 << 32
        self.send(self.near, 1, typed(1))
        self.run_for(1)
        self.assertGreater(self.near.arrived, 1 << 32)
        self.assertTrue(self.near.batches.is_said(1))


class Carries(Net):
    """Sent data, repeated data, and data sent twice."""

    def setUp(self):
        super().setUp()
        self.begin()

    def test_key(self):
        """A key's act is sent at once, and only once without losses; its acknowledgement waits for other data."""
        count = dict(self.count)
        self.send(self.near, 1, typed(1))
        self.run_for(0.051)
        self.assertEqual(self.got[self.far], [(1, typed(1)[0])])
        self.run_for(HELD - 0.01)
        self.assertEqual(self.count[self.far], count[self.far])
        self.run_for(0.5)
        self.assertEqual((self.count[self.near], self.count[self.far]), (count[self.near] + 1, count[self.far] + 1))
        self.assertEqual((self.near.sent, self.near.size), ({}, 0))

    def test_lost_key(self):
        """A lost one is sent again after a round trip and its variation, until it has arrived."""
        lost = []

        def loses(path, packet):
            is_lost = path is self.near and len(lost) < 3
            lost.extend([self.now] if is_lost else [])
            return is_lost

        self.loses = loses
        begun = self.now
        self.send(self.near, 1, typed(1))
        self.run_for(3)
        self.assertEqual(self.got[self.far], [(1, typed(1)[0])])
        self.assertLess(lost[-1] - begun, 1.0)

    def test_large(self):
        """A large instruction arrives whole, whatever is lost of it, and only its lost chunks are sent again."""
        chance = random.Random(6)
        texts = datagrams(1, noise(300_000), 1)
        self.loses = lambda path, packet: chance.random() < 0.1
        before = self.bytes[self.far]
        self.send(self.far, 1, texts)
        self.run_for(20)
        self.assertEqual(self.got[self.near], [(1, text) for text in texts])
        self.assertLess(self.bytes[self.far] - before, 300_000 * 1.3)
        self.assertEqual((self.far.sent, self.far.size), ({}, 0))

    def test_small_before_large(self):
        """Small data begins at once, whatever waits, and replaces the data in flight to that peer."""
        self.send(self.far, 1, datagrams(1, noise(600_000), 1))
        self.run_for(0.2)
        self.assertTrue(self.far.fresh)
        self.send(self.far, 1, shown(2))
        self.send(self.far, 2, shown(1))
        self.run_for(0.3)
        self.assertEqual(self.got[self.near], [(1, shown(2)[0]), (2, shown(1)[0])])

    def test_twice(self):
        """With more than 1 of 100 packets lost a small chunk is sent twice, 20 ms apart; a large one isn't, nor one of the once kind."""
        self.far.trips.lost = 0.5
        count = self.count[self.far]
        self.send(self.far, 1, shown(1))
        self.run_for(0.0205)
        self.assertEqual(self.count[self.far], count + 2)
        self.send(self.far, 2, datagrams(1, noise(900), 1))
        self.run_for(0.03)
        self.assertEqual(self.count[self.far], count + 3)
        self.send(self.far, 1, shown(1))
        self.run_for(1)
        self.assertEqual(self.got[self.near][:2], [(1, shown(1)[0]), (2, datagrams(1, noise(900), 1)[0])])
        self.assertFalse(self.far.twice)

    def test_moment(self):
        """An instruction without visible news waits 40 ms, and then is sent once; one with news replaces it."""
        self.send(self.far, 1, shown(1))
        self.run_for(1)
        count = self.count[self.far]
        self.send(self.far, 1, shown(2, 1))
        self.run_for(MOMENT - 0.002)
        self.assertEqual(self.count[self.far], count)
        self.run_for(0.01)
        self.assertEqual(self.count[self.far], count + 1)
        self.assertFalse(self.far.sent)
        self.send(self.far, 1, shown(3, 2))
        self.run_for(0.01)
        cell = shown(4, 3, b"\0\0\1" + bytes(9) + b"\0\0\0\1" + bytes(20))
        self.send(self.far, 1, cell)
        self.run_for(1)
        self.assertEqual([text for _, text in self.got[self.near]][-2:], [shown(2, 1)[0], cell[0]])

    def test_repeat_on_its_way(self):
        """A repeat of data in flight isn't sent, and is sent again at once if an acknowledgement is overdue."""
        self.send(self.near, 1, typed(1))
        self.run_for(1)
        self.is_open = False
        self.send(self.near, 1, typed(2))
        self.run_for(0.001)
        count = self.count[self.near]
        self.send(self.near, 1, [typed(2)[0][:20] + bytes(15) + b"\7" + typed(2)[0][36:]])
        self.run_for(0.01)
        self.assertEqual(self.count[self.near], count)
        self.now += self.near.trips.round()
        self.send(self.near, 1, [typed(2)[0][:20] + bytes(15) + b"\7" + typed(2)[0][36:]])
        self.near.fill(self.waiting[self.near])
        self.assertEqual(len(self.near.end.out), 1)

    def test_lacks_base(self):
        """A missing base is reported, and the next data arrives."""
        for number in (1, 2):
            self.send(self.near, 1, typed(number))
            self.run_for(1)
        self.assertGreater(self.near.batches.going[1].base, 0)
        self.far.batches.coming[1].texts.clear()
        self.send(self.near, 1, typed(3))
        self.run_for(1)
        self.assertEqual(self.near.batches.going[1].base, 0)
        self.send(self.near, 1, typed(4))
        self.run_for(1)
        self.assertEqual(self.got[self.far][-1], (1, typed(4)[0]))
        self.assertGreater(self.near.batches.going[1].base, 0)

    def test_many_peers(self):
        """256 simultaneous peers all get through, no packet is too long, and several packets acknowledge their batches."""
        for peer in range(1, 257):
            self.send(self.near, peer, typed(1))
            self.send(self.far, peer, datagrams(1, noise(1100, peer), 1))
        self.run_for(4)
        self.assertEqual(sorted(self.got[self.far]), sorted((peer, typed(1)[0]) for peer in range(1, 257)))
        self.assertEqual(len(self.got[self.near]), 256)
        self.assertTrue(all(path.batches.going[peer].base for path in (self.near, self.far) for peer in range(1, 257)))

    def test_sizes(self):
        """No packet is longer than the limit, whatever its contents."""
        sizes = []
        self.loses = lambda path, packet: sizes.append(len(packet))
        for peer in range(1, 50):
            self.send(self.near, peer, datagrams(1, noise(5000, peer)))
            self.send(self.far, peer, datagrams(1, noise(5000, peer), 1))
        self.run_for(20)
        self.assertEqual((len(self.got[self.far]), len(self.got[self.near])), (49 * 5, 49 * 5))
        self.assertLessEqual(max(sizes), LONGEST_PACKET)

    def test_repeated_and_turned_round(self):
        """Packets that arrive three times and in any order bring each instruction once, in increasing order."""
        chance, packets = random.Random(5), []
        # Without bases, since those of the other end below are others.
        self.patch_of(self.near.batches, "note_whole", return_value=False)
        self.loses = lambda path, packet: packets.append(packet) if path is self.near else False
        for number in range(1, 200):
            self.send(self.near, 1, typed(number))
            self.run_for(0.02)
        self.got[self.far].clear()
        other = Path(AeadPackets(Foolish(b""), False), Wire(FAR))
        for place in sorted(range(len(packets) * 3), key=lambda place: place // 3 + chance.randrange(40)):
            other.end.coming.append((packets[place // 3], NEAR))
            self.got[self.far] += other.received()
        numbers = [int.from_bytes(text[28:36], "big") for _, text in self.got[self.far]]
        self.assertEqual(numbers, sorted(set(numbers)))
        self.assertEqual(numbers[-1], 199)

    def test_forged(self):
        """A packet that is forged, cut, repeated, or in the wrong direction changes nothing and gets no answer."""
        packets = []
        self.loses = lambda path, packet: packets.append((path, packet))
        self.send(self.near, 1, typed(1))
        self.send(self.far, 1, shown(1))
        self.run_for(1)
        chance = random.Random(2)
        for path in (self.near, self.far):
            before = repr([path.arrivals.window.newest, path.heard_at, path.place, path.arrived, path.arrivals.told_at, path.due_at()])
            for source, packet in packets:
                wrong = [packet, packet[:-1], packet + b"x", chance.randbytes(len(packet)), b"", packet[8:]]
                path.end.coming += [(one, ("::6", 6, 0, 0)) for one in wrong]
            self.assertEqual((list(path.received()), path.end.out), ([], []))
            after = [path.arrivals.window.newest, path.heard_at, path.place, path.arrived, path.arrivals.told_at, path.due_at()]
            self.assertEqual(repr(after), before)

    def test_texts_of_chance(self):
        """Authentic random texts raise nothing."""
        mate, chance = AeadPackets(Foolish(b""), True), random.Random(9)
        mate.counter = 1 << 20
        for _ in range(1500):
            head = HEAD.pack(chance.choice((0, 3, 1 << 31)), 0, chance.choice((0, 1, 255))) if chance.random() < 0.7 else b""
            kind, numbers = chance.choice((b"p", b"o", b"w", b"a", b"l", b"z")), chance.choice((0, 1, 2, 900)).to_bytes(2, "big")
            self.far.end.coming.append((mate.encrypted((head + kind + numbers + chance.randbytes(chance.randrange(60)))[:LONGEST_TEXT]),
                                        NEAR))
            list(self.far.received())
            self.far.fill(Waiting())
            self.far.end.out.clear()
            self.assertGreaterEqual(self.far.due_at(), float("-inf"))

    def test_takes_turns(self):
        """Data that takes long to unpack is handled in several turns."""
        self.send(self.near, 1, typed(1))
        self.near.fill(self.waiting[self.near])
        packet = self.near.end.out[-1][0]
        self.far.end.coming = [(packet, NEAR)] * 9
        for _ in self.far.received():
            self.now += 1
        self.assertEqual(len(self.far.end.coming), 8)


class Told(Net):
    """The messages of the ends about themselves."""

    def test_states(self):
        """The newest of each arrives, and nothing twice; unknown ones are ignored."""
        self.begin()
        for text in (b"p1 1 1 23 80\n", b"b\3\0\0\0\1", b"k\1\1", ENDED, KILLED):
            self.far.tell(0, text)
        self.assertFalse(self.far.is_said())
        self.run_for(1)
        self.assertTrue(self.far.is_said())
        self.assertEqual(self.got[self.near], [(0, KILLED)])
        self.got[self.near].clear()
        self.far.tell(0, KILLED)
        self.run_for(1)
        self.assertEqual(self.got[self.near], [])

    def test_lost(self):
        """Messages lost with their base are sent again."""
        self.begin()
        self.far.tell(0, ENDED)
        self.run_for(1)
        self.near.batches.coming[0].texts.clear()
        self.far.tell(0, KILLED)
        self.run_for(2)
        self.assertEqual(self.got[self.near][-1], (0, KILLED))
        self.assertTrue(self.far.is_said())

    def test_end_over_bad_network(self):
        """An end is reported although half of all packets are lost."""
        self.begin()
        chance = random.Random(4)
        self.loses = lambda path, packet: chance.random() < 0.5
        self.far.tell(0, ENDED)
        self.run_for(10)
        self.assertIn((0, ENDED), self.got[self.near])

    def test_wrong(self):
        """Invalid messages do nothing."""
        states = States()
        for text in (b"", b"b", b"b\1\0\0\0\1", b"k\1", ENDED + b"x", b"z", b"s" + bytes(50), b"h" + bytes(8), b"p" + bytes(5000)):
            self.assertIsNone(states.news(text), text)
        self.assertEqual(states.came, {})
        self.assertEqual(states.news(LEAVES), LEAVES)


class Parts(Case):
    """The parts of a path."""

    def setUp(self):
        self.stop_clock()

    def test_best(self):
        """It is the largest of the last 5 to 10 seconds."""
        best = Best()
        self.assertEqual(best.value(), 0)
        best.note(5)
        best.note(3)
        self.now += 4
        self.assertEqual(best.value(), 5)
        best.note(4)
        self.now += 2
        best.note(1)
        self.assertEqual(best.value(), 5)
        self.now += 5
        self.assertEqual(best.value(), 1)
        self.now += 1000
        self.assertEqual(best.value(), 0)

    def test_pace(self):
        """Twelve packets go without measurements, and then one at a time; without a queue nothing is measured."""
        pace = PathPace()
        went = 0
        while pace.lets(1200, self.now):
            pace.went(1200)
            went += 1
        self.assertEqual((went, pace.window()), (12, FIRST))
        self.assertAlmostEqual(pace.wait_time(1200), 1200 / (LEAST / path_state.ROUND))
        self.now += pace.wait_time(1200)
        self.assertTrue(pace.lets(1200, self.now))
        pace.note(SentPacket(self.now - 0.1, 1200, (), 0, 0.0), self.now, False)
        self.assertEqual((pace.arrived, pace.rate.value()), (1200, 0))

    def test_pace_rises_and_stays(self):
        """The rate is the bytes that passed while a packet was in flight; after three rounds without growth it sends a quarter above."""
        pace = PathPace()
        pace.note_round(0.1)
        for _ in range(12):
            sent = SentPacket(self.now, 1200, (), pace.arrived, 0.0)
            pace.arrived += 10_800
            self.now += 0.13
            pace.note(sent, self.now, True)
        self.assertAlmostEqual(pace.rate.value(), 12_000 / 0.13, delta=1)
        self.assertFalse(pace.rises)
        self.assertAlmostEqual(pace.window(), 2 * pace.rate.value() * 0.125, delta=1)
        pace.lets(1, self.now)
        pace.tokens = 0.0
        self.now += 0.01
        pace.lets(1, self.now)
        self.assertAlmostEqual(pace.tokens, pace.rate.value() * 1.25 * 0.01, delta=1)
        self.now += 11
        pace.lets(1, self.now)
        self.assertEqual((pace.rises, pace.window()), (True, FIRST))

    def test_pace_rise(self):
        """A rate that has grown by more than a quarter in a round is rising; one that has grown by less isn't."""
        for growth, flat in ((1.2, 1), (1.3, 0)):
            pace = PathPace()
            pace.compared = 100_000.0
            pace.arrived = int(100_000 * growth / 2) - 1200
            pace.note(SentPacket(self.now - 0.5, 1200, (), 0, 0.0), self.now, True)
            self.assertEqual((pace.flat, pace.rises), (flat, True), growth)

    def test_pace_at_least(self):
        """Four packets may always be in flight."""
        pace = PathPace()
        pace.rises = False
        self.assertEqual(pace.window(), LEAST)

    def test_trips(self):
        """Round-trip time and variation are smoothed; a packet counts as lost sooner after a later arrival, and later after timeouts."""
        trips = Trips()
        self.assertEqual((trips.patience(HELD, False), trips.round()), (path_state.LATEST, path_state.ROUND))
        trips.note(0.1)
        self.assertAlmostEqual(trips.patience(0.12, True), 0.2)
        self.assertAlmostEqual(trips.patience(0.12, False), 0.42)
        for _ in range(60):
            trips.note(0.1)
        self.assertAlmostEqual(trips.patience(0.025, False), 0.125, places=3)
        trips.tries = 1
        self.assertAlmostEqual(trips.patience(0.025, False), 0.25, places=3)
        trips.tries = 5
        self.assertAlmostEqual(trips.patience(0.025, False), path_state.LATEST, places=3)

    def test_loss(self):
        """The loss rate is known within some fifty packets; a late arrival wasn't lost."""
        trips = Trips()
        for number in range(400):
            if number % 10:
                trips.note_arrived(False)
            else:
                trips.note_lost()
        self.assertTrue(0.05 < trips.lost < 0.15)
        before = trips.lost
        trips.note_arrived(True)
        self.assertAlmostEqual(trips.lost, before - 1 / 50)

    def test_frames(self):
        """The frames of a text end at an unknown or cut one."""
        chunk = CHUNK.pack(b"p", 1, 2, 3, 4, 2) + b"xy"
        whole = b"w\0\1\0\0\0\7"
        self.assertEqual(list(frames_in(b"head" + ASKS + whole + chunk + ASKS_LARGE + bytes(9), 4)),
                         [(b"a", (), b""), (b"w", (1, 7), b""), (b"p", (1, 2, 3, 4, 2), b"xy"), (b"l", (), b"")])
        self.assertEqual(list(frames_in(chunk + chunk[:-1], 0)), [(b"p", (1, 2, 3, 4, 2), b"xy")])
        self.assertEqual(list(frames_in(chunk[:9], 0)), [])
        self.assertEqual(list(frames_in(b"q" + chunk, 0)), [(b"q", (), b"")])

    def test_arrivals(self):
        """Arrivals of the last second are acknowledged in a mask; those of many peers in turn."""
        arrivals = HeardPackets()
        for counter in (1, 2, 40):
            arrivals.window.note(counter)
            arrivals.want(counter, self.now, HELD)
        self.assertEqual((arrivals.told_at, arrivals.untold), (self.now + HELD, 3))
        head = arrivals.head(self.now + 0.25)
        self.assertEqual(HEAD.unpack_from(head), (40, 250, 5))
        self.assertEqual(int.from_bytes(head[HEAD.size :], "little"), 1 << 37 | 1 << 38 | 1 << 39)
        self.assertEqual(HEAD.unpack_from(arrivals.head(self.now + 500)), (40, 65535, 0))
        for peer in range(1, 6):
            arrivals.note_peer(peer, self.now, peer < 4)
        self.assertEqual(arrivals.peers(self.now, 2), [1, 2])
        arrivals.were_told(self.now)
        self.assertEqual(arrivals.told_at, self.now)
        self.assertEqual(arrivals.peers(self.now, 4), [3, 4, 5, 1])
        arrivals.were_told(self.now)
        self.assertEqual((arrivals.told_at, arrivals.peers(self.now + 2, 9)), (None, []))
        for peer in range(20_000):
            arrivals.note_peer(peer, self.now, True)
        self.assertEqual((len(arrivals.whole_until), len(arrivals.news)), (path_state.MOST_TOLD, path_state.MOST_TOLD))

    def test_mask(self):
        """A mask has 32 bytes at most."""
        arrivals = HeardPackets()
        for counter in range(1, 400):
            arrivals.window.note(counter)
            arrivals.want(counter, self.now, HELD)
        self.assertEqual(arrivals.head(self.now)[HEAD.size :], b"\xff" * 32)

    def test_many_untold(self):
        """After 32 packets the acknowledgement is sent at once."""
        arrivals = HeardPackets()
        for counter in range(1, 33):
            self.assertNotEqual(arrivals.told_at, self.now)
            arrivals.want(counter, self.now, HELD)
        self.assertEqual(arrivals.told_at, self.now)


class LateAnswers(Net):
    """Late acknowledgements: a full queue is no loss."""

    def test_late(self):
        """If a queue delays answers, a late acknowledgement still counts: round trips are measured, and no loss is invented."""
        self.begin()
        self.DELAY = 0.6
        for number in range(1, 12):
            self.send(self.far, 1, datagrams(number, noise(1000, number), 1))
            self.run_for(0.3)
        self.assertGreater(self.far.trips.mean, 0.3)
        self.run_for(4)
        self.assertLess(self.far.trips.lost, 0.12)
        self.assertLessEqual(len(self.far.gone), udp_path.MOST_GONE)

    def test_narrow(self):
        """Over 100 kB a second with a long queue a stream of large screens takes the whole rate, and a key is shown soon after."""
        free = {}
        begin = self.begin

        def carry(path):
            for packet, _ in path.end.out:
                late = max(0.0, free.get(path, 0.0) - self.now)
                if late < 2.0:
                    free[path] = self.now + late + len(packet) / 100_000
                    self.flying.append((free[path] + self.DELAY, self.other(path), packet, path.end.place))
            path.end.out.clear()

        self.carry = carry
        begin()
        for number in range(1, 160):
            self.send(self.far, 1, datagrams(number, noise(60_000, number), 1))
            self.run_for(0.05)
        came = sum(len(text) for _, text in self.got[self.near])
        self.assertGreater(came, 8 * 100_000 * 0.5)
        queue = free[self.far] - self.now
        self.assertLess(queue, 1.0)
        self.send(self.far, 1, shown(999))
        self.run_for(queue + 0.5)
        self.assertEqual(self.got[self.near][-1], (1, shown(999)[0]))


if __name__ == "__main__":
    unittest.main()
