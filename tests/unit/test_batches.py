"""Batches of instructions: cut, lost, repeated and reordered, with bases and without, and invalid ones."""
import itertools
import random
import unittest
import zlib

from roam_live.relay import batches
from roam_live.relay.batches import (BASE, CHUNK, CHUNK_KIND, CHUNK_LENGTH, KEPT_GOING, KEPT_PARTS, LARGE, LARGE_BASE, LONGEST_STATE,
                                     LONGEST_TEXT, MOST_BATCHES, MOST_LARGE, MOST_PEERS, NOW, ONCE, ONCE_KIND, SOON, WHOLE, Batches, Chunk,
                                     joined, packed_batch, parted, unpacked_batch)


def datagrams(number, text, kind=2):
    """Return the datagrams of an instruction."""
    parts = [text[k : k + 1200] for k in range(0, len(text), 1200)]
    return [b"RM\2" + bytes([kind]) + bytes(16) + (number * 99 + k).to_bytes(8, "big") + number.to_bytes(8, "big") + k.to_bytes(2, "big")
            + len(parts).to_bytes(2, "big") + len(part).to_bytes(2, "big") + part for k, part in enumerate(parts)]


def typed(number, letter=b"a", count=1):
    """Return an instruction of a client with so many acts."""
    return datagrams(number, bytes(8) + number.to_bytes(8, "big") + count.to_bytes(2, "big") + (b"\1\0\0\0" + letter) * count)


def shown(number, acts=0, change=b"", size=b"\0\x18\0\x50\0\1\0\1\1"):
    """Return an instruction of a server: version 2 without a change, or with one."""
    return datagrams(number, (number - 1).to_bytes(8, "big") + number.to_bytes(8, "big") + bytes(8) + acts.to_bytes(8, "big") + size
                     + (change or bytes(7)), 1)


def noise(length, seed=1):
    """Return incompressible bytes."""
    return random.Random(seed).randbytes(length)


def taken(target, frame):
    """Return the contents of a chunk's frame."""
    kind, peer, number, index, count, length = CHUNK.unpack_from(frame)
    assert kind in (CHUNK_KIND, ONCE_KIND) and length == len(frame) - CHUNK.size
    return target.take(peer, number, index, count, frame[CHUNK.size :])


class Two(unittest.TestCase):
    """Two ends, one of which sends."""

    def setUp(self):
        self.near, self.far = Batches(), Batches()

    def frames(self, peer, texts, is_once=False):
        """Return the outgoing chunks of an instruction, as frames in packets."""
        chunks, _ = self.near.begin(peer, texts, is_once)
        found = [self.near.frame(chunk) for chunk in chunks]
        for chunk in chunks:
            self.near.went(chunk)
        return found

    def tell(self, peer):
        """Acknowledge the complete batches to the sender, and return True if something is lost."""
        return self.near.note_whole(*WHOLE.unpack(self.far.whole(peer))[1:])

    def carried(self, peer, texts):
        """Return the received contents of an instruction, and the bytes sent."""
        frames = self.frames(peer, texts)
        return [one for frame in frames for one in taken(self.far, frame)], sum(map(len, frames))

    def test_carries(self):
        """Instructions arrive unchanged, whatever their length; similar ones cost little."""
        for length in (1, 17, 1200, 1201, LARGE - 50, LARGE, 30_000, 650_013):
            texts = datagrams(5, noise(length))
            self.assertEqual(self.carried(3, texts)[0], texts, length)
        first = self.carried(4, typed(1))[1]
        self.tell(4)
        self.assertLess(self.carried(4, typed(2))[1], first - 8)

    def test_numbers(self):
        """One counter numbers the batches of all peers, and a forgotten peer continues above the other end's number."""
        for number, peer in enumerate((1, 2, 1, 9), 1):
            chunks, is_new = self.near.begin(peer, typed(number))
            self.assertEqual((chunks, is_new), ([Chunk(peer, number, 0)], True))
        for peer in range(10, 10 + MOST_PEERS):
            self.near.begin(peer, typed(1))
        self.assertNotIn(1, self.near.going)
        self.assertEqual(len(self.near.going), MOST_PEERS)
        self.assertEqual(self.near.begin(1, typed(9))[0][0].number, 5 + MOST_PEERS)

    def test_end(self):
        """The last number is below 2^31, and no batch follows it."""
        self.near.last = MOST_BATCHES - 2
        self.assertTrue(self.near.may_begin(1))
        self.assertEqual(self.carried(1, typed(1))[0], typed(1))
        self.assertEqual((self.near.last, self.near.is_spent(), self.near.may_begin(1), self.near.may_begin(2)),
                         (MOST_BATCHES - 1, True, False, False))
        self.assertEqual(self.far.take(1, MOST_BATCHES, 0, 1, packed_batch(joined(typed(2)), 0, b"")), [])

    def test_any_order(self):
        """Chunks arrive in any order, repeatedly or never: each instruction comes at most once, and in order."""
        chance, frames = random.Random(3), []
        for number in range(1, 120):
            frames += self.frames(1, datagrams(number, noise(chance.choice((20, 900, 5000)), number)))
        order = sorted(range(len(frames) * 3), key=lambda place: place // 3 + chance.randrange(9))
        came = [one for place in order for one in taken(self.far, frames[place // 3])]
        numbers = [key for key, _ in itertools.groupby(int.from_bytes(one[28:36], "big") for one in came)]
        self.assertEqual(numbers, sorted(set(numbers)))
        self.assertEqual(numbers[-1], 119)

    def test_lacks_base(self):
        """If a base is missing the other end reports that once, and the next batch has none."""
        self.carried(1, typed(1))
        self.tell(1)
        self.far.coming[1].texts.clear()
        self.assertEqual(self.carried(1, typed(2))[0], [])
        self.assertEqual(self.far.coming[1].whole(), 0)
        self.assertTrue(self.tell(1))
        self.assertFalse(self.near.going[1].going)
        frames = self.frames(1, typed(3))
        self.assertFalse(self.tell(1))
        self.assertTrue(self.near.going[1].going)
        self.assertEqual(taken(self.far, frames[0]), typed(3))
        self.tell(1)
        self.assertEqual(self.near.going[1].base, 3)
        self.assertEqual(self.carried(1, typed(4))[0], typed(4))

    def test_base(self):
        """The base is the newest complete batch, at most 48 before, and always an acknowledged one."""
        self.carried(1, typed(1))
        self.tell(1)
        for number in range(2, 50):
            self.near.begin(1, typed(number))
            self.assertEqual(self.near.going[1].base, 1)
        self.near.begin(1, typed(50))
        self.assertEqual(self.near.going[1].base, 0)
        self.near.note_whole(1, 49)
        self.assertEqual((self.near.going[1].base, list(self.near.going[1].texts)), (49, [50]))
        self.near.note_whole(1, 7)
        self.assertEqual(self.near.going[1].base, 49)
        self.near.note_whole(1, 4000)
        self.assertEqual((self.near.going[1].base, self.near.going[1].going), (49, {}))
        self.assertFalse(self.near.note_whole(77, 1))

    def test_base_behind_many(self):
        """After many batches of other peers there is a base again with the second that arrives."""
        self.near.last = 1000
        for number in (1, 2, 3):
            self.near.begin(1, typed(number))
        self.near.note_whole(1, 1002)
        self.assertEqual(self.near.going[1].base, 1002)

    def test_drops(self):
        """A small batch replaces all earlier ones; a large one replaces small ones, and two large ones are finished before a third."""
        for length in (9000, 9, 9000, 9001):
            self.near.begin(1, datagrams(1, noise(length, length)))
        self.assertEqual(list(self.near.going[1].going), [3, 4])
        self.assertEqual((MOST_LARGE, self.near.may_begin(1, LARGE + 1), self.near.may_begin(1, LARGE), self.near.may_begin(2, LARGE + 1)),
                         (2, False, True, True))
        # Batches whose chunks have all arrived block nothing, even before the acknowledgement.
        for index in range(len(self.near.going[1].going[3].chunks)):
            self.near.arrived(Chunk(1, 3, index))
        self.assertTrue(self.near.may_begin(1, LARGE + 1))
        self.near.begin(1, typed(5))
        self.assertEqual(list(self.near.going[1].going), [5])

    def test_repeats(self):
        """Contents in flight are not sent again; contents that arrived, or whose base may be lost, are."""
        chunks, _ = self.near.begin(1, typed(1))
        self.assertEqual(self.near.begin(1, [one[:20] + bytes(16) + one[36:] for one in typed(1)]), (chunks, False))
        self.near.arrived(chunks[0])
        self.assertTrue(self.near.is_said(1))
        self.assertEqual(self.near.begin(1, typed(1)), ([Chunk(1, 2, 0)], True))

    def test_once(self):
        """A chunk of the once kind is current until it is sent."""
        chunk = self.near.begin(1, typed(1), True)[0][0]
        self.assertEqual(self.near.frame(chunk)[:1], ONCE_KIND)
        self.assertEqual(self.near.length(chunk), len(self.near.frame(chunk)))
        self.assertFalse(self.near.went(chunk))
        self.assertEqual((self.near.batch(chunk), self.near.length(chunk), self.near.is_said(1)), (None, 0, True))
        other = self.near.begin(1, typed(2))[0][0]
        self.assertTrue(self.near.went(other))
        self.assertTrue(self.near.batch(other))

    def test_hostile_chunks(self):
        """Invalid chunks change nothing, raise nothing, and take bounded memory."""
        chance = random.Random(8)
        for _ in range(3000):
            self.far.take(chance.randrange(400), chance.randrange(1 << 32), chance.randrange(1 << 16), chance.randrange(1 << 16),
                          chance.randbytes(chance.randrange(40)))
        self.assertLessEqual(len(self.far.coming), MOST_PEERS)
        for number in range(1, 40):
            for index in range(100):
                self.far.take(number % 20, number, index, batches.MOST_CHUNKS, bytes(CHUNK_LENGTH) * 9)
        self.assertTrue(all(len(way.parts) <= batches.MOST_PARTS for way in self.far.coming.values()))
        self.assertLess(sum(way.size() for way in self.far.coming.values()), KEPT_PARTS * 5 // 4)

    def test_empty_chunks(self):
        """Empty chunks count with their overhead."""
        for number in range(1, 5):
            for peer in range(1, 101):
                for index in range(0, 4000, 4):
                    self.far.take(peer, number, index, batches.MOST_CHUNKS, b"")
        kept = sum(len(parts) for way in self.far.coming.values() for parts in way.parts.values())
        self.assertLess(kept * batches.OVERHEAD, KEPT_PARTS * 5 // 4)
        self.assertGreater(kept, 4000)

    def test_contradicting_counts(self):
        """A batch with contradicting counts becomes complete for a fitting one, or never."""
        packed = packed_batch(joined(typed(1)), 0, b"")
        self.assertEqual(self.far.take(1, 1, 5, 9, b"x"), [])
        self.assertEqual(self.far.take(1, 1, 0, 1, packed), [])
        self.assertEqual(self.far.take(1, 2, 0, 1, packed), typed(1))


class Packing(unittest.TestCase):
    """Packing, unpacking, and refusals."""

    def test_bytes(self):
        """The base comes first; then deflate without a header, or LZMA2."""
        text = joined(typed(1))
        self.assertEqual(packed_batch(text, 7, b"")[:4], bytes(4))
        self.assertEqual(packed_batch(text, 7, text)[:4], b"\0\0\0\7")
        self.assertEqual(zlib.decompressobj(-15, text).decompress(packed_batch(text, 7, text)[4:]), text)
        self.assertEqual(packed_batch(bytes(LARGE + 1), 7, text)[:4], b"\xff" * 4)

    def test_unpacked(self):
        """Invalid, incomplete and too long input gives nothing."""
        small, large = packed_batch(b"text", 0, b""), packed_batch(bytes(9000), 0, b"")
        self.assertEqual(unpacked_batch(small, {}, 4), b"text")
        self.assertEqual(unpacked_batch(large, {}, 9000), bytes(9000))
        for packed, longest in ((small, 3), (large, 8999), (small[:-1], 4), (large[:-1], 9000), (b"", 9), (b"\0\0\0", 9), (bytes(4), 9),
                                (b"\xff" * 4, 9), (BASE.pack(5) + small[4:], 9), (b"\xff" * 30, 9), (bytes(4) + b"\xff" * 30, 9)):
            self.assertIsNone(unpacked_batch(packed, {}, longest), packed)
        self.assertIsNone(unpacked_batch(packed_batch(bytes(LONGEST_TEXT + 1), 0, b""), {}, LONGEST_TEXT))
        self.assertNotIn(LARGE_BASE, (0, MOST_BATCHES))

    def test_parted(self):
        """Texts follow their lengths; none is empty or cut."""
        self.assertEqual(parted(joined([b"a", b"bcd"])), [b"a", b"bcd"])
        self.assertEqual(parted(b""), [])
        for text in (b"\0", b"\0\0", b"\0\1", b"\0\1a\0", b"\0\1a\0\0", b"\xff\xffa"):
            self.assertIsNone(parted(text))

    def test_state(self):
        """The state of an end is short; an invalid datagram is dropped."""
        far = Batches()
        self.assertEqual(far.take(0, 1, 0, 1, packed_batch(joined([b"e", b"p1"]), 0, b"")), [b"e", b"p1"])
        self.assertEqual(far.take(0, 2, 0, 1, packed_batch(joined([b"p" * LONGEST_STATE]), 0, b"")), [])
        self.assertEqual(far.take(5, 3, 0, 1, packed_batch(joined([b"e", *typed(1), bytes(50)]), 0, b"")), typed(1))

    def test_kept(self):
        """The newest texts are stored, up to limits of number and size, and the newest whatever its length."""
        texts = {number: bytes(100) for number in range(1, 9)}
        self.assertEqual(sorted(batches.kept_texts(texts, 3, 10_000)), [6, 7, 8])
        self.assertEqual(sorted(batches.kept_texts(texts, 8, 250)), [7, 8])
        self.assertEqual(sorted(batches.kept_texts(texts, 8, 9)), [8])
        self.assertEqual(batches.kept_texts({}, 3, 9), {})
        near = Batches()
        for number in range(1, 30):
            near.begin(1, datagrams(number, noise(40_000, number)))
        self.assertLessEqual(sum(map(len, near.going[1].texts.values())), KEPT_GOING)


class Hastes(unittest.TestCase):
    """The instructions that have to arrive, and those that are repeated anyway."""

    def haste(self, texts, before=None):
        """Return the way to send an instruction after another."""
        near = Batches()
        if before:
            near.begin(1, before)
        return near.haste(1, texts)

    def test_client(self):
        """A client's instruction is sent until it has arrived if it has acts, and the first one always."""
        self.assertEqual(self.haste(typed(1, count=0)), NOW)
        self.assertEqual(self.haste(typed(2), typed(1)), NOW)
        self.assertEqual(self.haste(typed(2, count=0), typed(1)), ONCE)

    def test_server(self):
        """A server's repeat is sent once; one without visible news waits; all others are sent at once."""
        for change in (bytes(7), bytes(4)):
            self.assertEqual(self.haste(shown(3, 1, change), shown(2, 0, change)), SOON, "no cell")
        self.assertEqual(self.haste(shown(2), shown(2)), ONCE, "a repeat")
        self.assertEqual(self.haste(shown(3, 1, b"\0\0\1" + bytes(9) + b"\0\0\0\1" + bytes(20)), shown(2)), NOW, "a cell")
        self.assertEqual(self.haste(shown(3, size=b"\0\x18\0\x50\0\1\0\2\1"), shown(2)), NOW, "the cursor")
        self.assertEqual(self.haste(shown(3)), NOW, "the first")
        long = shown(3, 0, noise(2000))
        self.assertEqual((self.haste(long, long), self.haste(shown(4), long)), (NOW, SOON), "long ones")

    def test_state(self):
        """The state of an end is sent until it has arrived."""
        near = Batches()
        near.begin(0, [b"e"])
        self.assertEqual(near.haste(0, [b"e"]), NOW)

    def test_saying(self):
        """The contents are independent of datagram numbers; long texts are known by their hash."""
        self.assertEqual(batches.saying(typed(1)), typed(1)[0][42:])
        long = [datagrams(number, noise(4000)) for number in (1, 2)]
        self.assertEqual(*map(batches.saying, long))
        self.assertLess(len(batches.saying(long[0])), 1100)
        self.assertNotEqual(batches.saying(long[0]), batches.saying(datagrams(1, noise(4001))))


if __name__ == "__main__":
    unittest.main()
