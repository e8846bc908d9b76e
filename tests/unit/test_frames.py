"""The messages of a relay's two ends, and the handling of invalid ones."""
import os
import random
import unittest
import zlib
from unittest import mock

from aids import Case
from roam_live.protocol.datagram_stream import LONGEST, SHORTEST
from roam_live.relay.batches import LONGEST_TEXT, joined, pack_large
from roam_live.relay.forwarding import BYTES, END, FORWARDS, NUMBER, OPEN, TAKEN, TAKEN_COUNT
from roam_live.relay.frames import (COUNT, ENDED, HAD, HEADER, MOST_TOLD, PACKED, PACKED_HEAD, UNPACKS, BadWords, RelayStream, Waiting,
                                    greeting)


def frame(peer, text):
    """Return a frame before compression."""
    return HEADER.pack(len(text), peer) + text


def packed(frames):
    """Return frames in their form on a stream."""
    packer = zlib.compressobj()
    return packer.compress(frames) + packer.flush(zlib.Z_SYNC_FLUSH)


def packed_frame(text, is_last=1):
    """Return a frame of LZMA data, before compression."""
    return frame(0, PACKED_HEAD.pack(PACKED, 1, is_last) + text)


def datagram(length):
    """Return a possible datagram of so many bytes."""
    return b"RM" + bytes(length - 2)


# Invalid messages of a far end, after its greeting, and the errors.
HOSTILE = {
    "an empty frame": (packed(frame(0, b"")), "an empty frame"),
    "an empty frame for a peer": (packed(frame(7, b"")), "an empty frame"),
    "4 MB of empty frames": (packed(frame(7, b"") * (1 << 20)), "an empty frame"),
    "a connection that the far end opens": (packed(frame(0, NUMBER.pack(OPEN, 1) + b"panes")), "the far end opened a connection"),
    "bytes of no connection": (packed(frame(0, BYTES + b"\1")), "is truncated"),
    "no bytes of one": (packed(frame(0, NUMBER.pack(BYTES, 1))), "an invalid length"),
    "an end of one and more": (packed(frame(0, NUMBER.pack(END, 1) + b"x")), "an invalid length"),
    "half of what was taken of one": (packed(frame(0, TAKEN_COUNT.pack(TAKEN, 1, 1)[:-1])), "an invalid length"),
    "an end and more": (packed(frame(0, ENDED + b"x")), "sent invalid data"),
    "a short count": (packed(frame(0, HAD + b"1")), "sent invalid data"),
    "more had than was sent": (packed(frame(0, COUNT.pack(HAD, 2**64 - 1))), "the other end acknowledged"),
    "too much at once": (packed(frame(0, b"z" + bytes(MOST_TOLD))), f"{MOST_TOLD + 1} bytes"),
    "a datagram that is too short": (packed(frame(1, datagram(SHORTEST - 1))), f"{SHORTEST - 1} bytes"),
    "a datagram that is too long": (packed(frame(1, datagram(LONGEST + 1))), f"{LONGEST + 1} bytes"),
    "no zlib": (b"\xff" * 100, "sent invalid data"),
    "a packed frame without bytes": (packed(packed_frame(b"")), "sent invalid data"),
    "what LZMA doesn't know": (packed(packed_frame(b"\xff" * 99)), "invalid compressed data"),
    "packed texts that are no datagrams": (packed(packed_frame(pack_large(joined([bytes(50)])))), "invalid compressed data"),
    "packed bytes that aren't texts": (packed(packed_frame(pack_large(b"\xff\xff"))), "invalid compressed data"),
    "more than an instruction, packed": (packed(packed_frame(pack_large(bytes(LONGEST_TEXT + 1)))), "invalid compressed data"),
    "packed frames without an end": (packed(packed_frame(bytes(4093), 0) * 1400), "of one instruction"),
    "a dictionary": (b"\x78\xbb" + b"\x55" * 100, "sent invalid data"),
    "the end of what is compressed": (zlib.compress(frame(0, b"z")) + bytes(100), "ended, but the other end did not"),
}

# Odd messages that are no errors.
ODD = {
    "bytes and ends of connections that aren't there": packed(b"".join(
        frame(0, NUMBER.pack(BYTES, number) + b"x") + frame(0, NUMBER.pack(END, number)) + frame(0, TAKEN_COUNT.pack(TAKEN, number, 9))
        for number in range(1, 10000))),
    "that it carries, again and again": packed(frame(0, FORWARDS) * 1000),
    "a frame for each peer": packed(b"".join(frame(peer, datagram(62)) for peer in range(1, 65536))),
    "8 MB of datagrams": packed(frame(9, datagram(1242)) * (1 << 13)),
    "what no end knows": packed(frame(0, b"p" + bytes(range(256)) * 15) + frame(0, b"b") + frame(0, b"k\0")),
    "what isn't known": packed(frame(0, b"z" * MOST_TOLD)),
}


class Frames(unittest.TestCase):
    """Frames of a stream, taken one by one."""

    def stream(self, said):
        """Return a stream with this input."""
        reader, writer = os.pipe()
        self.addCleanup(os.close, reader)
        os.write(writer, greeting("abc") + said)
        os.close(writer)
        return RelayStream(reader, 1, "-")

    def test_before_a_fault(self):
        """Frames before an invalid one are taken."""
        frames = self.stream(packed(frame(3, datagram(50)) + frame(4, datagram(LONGEST)) + frame(0, b""))).received()
        self.assertEqual([next(frames), next(frames)], [(3, datagram(50)), (4, datagram(LONGEST))])
        with self.assertRaises(BadWords):
            next(frames)

    def test_one_by_one(self):
        """A frame is made on demand."""
        stream = self.stream(packed(frame(3, datagram(1242)) * 10000))
        frames = stream.received()
        for _ in range(3):
            next(frames)
        self.assertLess(len(stream.coming), 100_000)


def instruction(number, text, says=0):
    """Return the datagrams of an instruction; other bytes for its numbers mean the same contents."""
    parts = [text[k : k + 1200] for k in range(0, len(text), 1200)]
    return [b"RM\2\1" + bytes(16) + (says + k).to_bytes(8, "big") + number.to_bytes(8, "big") + k.to_bytes(2, "big")
            + len(parts).to_bytes(2, "big") + len(part).to_bytes(2, "big") + part for k, part in enumerate(parts)]


class Goes(Case):
    """The data sent over a stream: packed if both ends can, and without repeats of data in flight."""

    def setUp(self):
        self.stop_clock()
        (source, self.said), (heard, target), (_, nowhere) = self.pipe(), self.pipe(), self.pipe()
        self.other = zlib.compressobj()
        self.near, self.far = RelayStream(source, target, "abc"), RelayStream(heard, nowhere, "abc")
        self.near.session = self.far.session = "abc"
        self.near.going.clear()
        self.waiting = Waiting()

    def add(self, peer, texts):
        """Queue an instruction."""
        for text in texts:
            self.waiting.add(peer, text)

    def carried(self):
        """Return the received contents of the queue, and the bytes sent."""
        self.near.fill(self.waiting)
        count = len(self.near.going)
        found = []
        while self.near.going:
            self.near.flush()
            found += self.far.received()
        return found, count

    def test_says_so(self):
        """An end that can unpack LZMA announces it once, and packs for an end that announced it."""
        self.assertFalse(self.far.packs)
        self.carried()
        self.assertTrue(self.far.packs)
        self.assertLess(self.carried()[1], 10)
        with mock.patch("roam_live.relay.frames.has_lzma", return_value=False):
            one = RelayStream(0, 1, "abc")
            one.session = "abc"
            one.fill(Waiting())
            self.assertEqual(bytes(one.going), greeting("abc"))
            os.write(self.said, packed(frame(0, UNPACKS)))
            self.assertEqual((list(self.near.received()), self.near.packs), ([], False))

    def test_packed(self):
        """A large instruction is packed for an end that can unpack it, in order, and its size is counted."""
        large, small = instruction(1, bytes(range(256)) * 800), instruction(1, b"small")
        self.add(7, large)
        self.add(9, small)
        without = RelayStream(0, 1, "abc")
        for text in large:
            without.tell(7, text)
        self.near.packs = True
        found, count = self.carried()
        self.assertEqual(found, [*((7, text) for text in large), (9, small[0])])
        self.assertLess(count, len(without.going))
        self.assertEqual(self.near.sent, self.far.had)
        self.assertLess(self.near.sent, sum(map(len, large)) // 10)

    def test_packed_larger_than_a_frame(self):
        """Data larger than a frame arrives whole."""
        large = instruction(1, random.Random(1).randbytes(40_000))
        self.add(7, large)
        self.near.packs = True
        self.assertEqual(self.carried()[0], [(7, text) for text in large])
        self.assertEqual((self.near.sent, self.far.packed), (self.far.had, b""))

    def test_waits_for_the_rest(self):
        """A large instruction that arrives in parts is packed once complete; after 0.1 s it no longer waits for the rest."""
        large = instruction(1, bytes(range(256)) * 800)
        self.near.packs = True
        self.carried()
        self.add(7, large[:50])
        self.assertEqual((self.carried()[0], self.near.due_at()), ([], self.now + 0.1))
        self.now += 0.09
        self.add(7, large[50:])
        self.assertEqual(self.carried()[0], [(7, text) for text in large])
        self.assertLess(self.near.sent, sum(map(len, large)) // 10)
        self.add(7, instruction(2, bytes(9000))[:-1])
        self.assertEqual(self.carried()[0], [])
        self.now += 0.1
        self.assertEqual(self.carried()[0], [(7, text) for text in instruction(2, bytes(9000))[:-1]])
        self.add(7, instruction(3, bytes(9000))[:2])
        self.add(7, instruction(4, b"newer"))
        self.assertEqual(self.carried()[0], [(7, text) for text in instruction(4, b"newer")])

    def test_unpacked(self):
        """For an end without the announcement it is sent unpacked, like an incomplete one."""
        large = instruction(1, bytes(9000))
        self.add(7, large[:-1])
        self.assertEqual(self.carried()[0], [(7, text) for text in large[:-1]])
        self.add(7, large[-1:])
        self.near.packs = True
        self.assertEqual(self.carried()[0], [(7, large[-1])])
        self.assertEqual(self.near.sent, sum(map(len, large)))

    def test_repeats(self):
        """A word-for-word repeat of data in flight to that peer is dropped; after its arrival it is sent again."""
        for text in (b"small", bytes(9000)):
            self.near.packs = len(text) > 100
            self.add(1, instruction(1, text))
            first = self.carried()[0]
            self.add(1, instruction(2, text, 99))
            self.assertEqual((self.carried()[0], len(self.waiting.datagrams)), ([], 0))
            self.add(2, instruction(1, text))
            self.assertEqual(len(self.carried()[0]), len(first))
            os.write(self.said, self.other.compress(frame(0, COUNT.pack(HAD, self.near.sent))) + self.other.flush(zlib.Z_SYNC_FLUSH))
            self.assertEqual((list(self.near.received()), self.near.said), ([], {}))
            self.add(1, instruction(3, text, 199))
            self.assertEqual(len(self.carried()[0]), len(first))

    def test_resumes(self):
        """After a pause it sends a heartbeat at once, and doesn't count as silent."""
        self.carried()
        self.now += 600
        self.assertTrue(self.near.is_silent(7))
        self.near.resume()
        self.assertFalse(self.near.is_silent(7))
        self.assertLessEqual(self.near.due_at(), self.now)
        self.carried()
        self.assertEqual(self.near.due_at(), self.now + 3)


class Whole(unittest.TestCase):
    """Instructions that wait whole."""

    def setUp(self):
        self.waiting = Waiting()

    def add(self, peer, texts):
        """Queue datagrams."""
        for text in texts:
            self.waiting.add(peer, text)

    def test_take_whole(self):
        """It returns the oldest complete one of each peer, if permitted; an incomplete one waits until it is complete, or a newer one
        comes.
        """
        self.assertEqual(self.waiting.take_whole(lambda peer, size: True), (0, []))
        part, small, other = instruction(1, bytes(5000)), instruction(1, b"small"), instruction(1, b"other")
        self.add(1, part[:-1])
        self.add(2, small)
        self.add(3, other)
        self.assertEqual(self.waiting.take_whole(lambda peer, size: peer != 2), (3, other))
        self.assertEqual(self.waiting.take_whole(lambda peer, size: size > 4096), (0, []))
        self.add(1, part[-1:])
        self.assertEqual(self.waiting.take_whole(lambda peer, size: size > 4096), (1, part))
        self.assertEqual(self.waiting.take_whole(lambda peer, size: True), (2, small))
        self.assertEqual((self.waiting.size, list(self.waiting.datagrams)), (0, []))

    def test_rest(self):
        """The rest of a partly sent one is taken once nothing more of it will come."""
        large, newer = instruction(1, bytes(5000)), instruction(2, b"newer")
        self.add(1, large[:3])
        self.assertEqual(self.waiting.take(), (1, large[0]))
        self.assertEqual(self.waiting.take_whole(lambda peer, size: True), (0, []))
        self.add(1, newer)
        self.assertEqual(self.waiting.take_whole(lambda peer, size: True), (1, large[1:3]))
        self.assertEqual(self.waiting.take_whole(lambda peer, size: True), (1, newer))

    def test_first_whole(self):
        """It returns the oldest datagram's instruction, if it is complete from its beginning."""
        self.assertEqual(self.waiting.first_whole(), (0, []))
        large, small = instruction(1, bytes(5000)), instruction(1, b"small")
        self.add(1, large)
        self.add(2, small)
        self.assertEqual(self.waiting.first_whole(), (1, large))
        self.waiting.take()
        self.assertEqual(self.waiting.first_whole(), (0, []))
        self.waiting.drop_first()
        self.assertEqual(self.waiting.first_whole(), (2, small))
        self.waiting.drop_first()
        self.assertEqual((self.waiting.size, list(self.waiting.datagrams)), (0, []))
        self.waiting.add(1, b"no datagram of roam")
        self.assertEqual(self.waiting.first_whole(), (0, []))


if __name__ == "__main__":
    unittest.main()
