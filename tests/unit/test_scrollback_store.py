"""Rows stored as chunks: the last of each pane, whole and in order, within limits, and searches in them."""
import random
import time
import unittest

from roam_live.host.scrollback_store import (BESIDE, HEADER, LOST_ROWS, LOST_SOME, MAGIC, Chunk, RowsRoom, ScrollbackRange, Search,
                                              characters, packed, unpacked)


def rows_of(*texts):
    """Return rows with these texts in the scrollback process's form; one that begins with `+` is soft-wrapped."""
    return "".join(f"{'' if text.startswith('+') else ' '}{text}\n" for text in texts).encode()


def kept(room, *chunks, pane=1):
    """Return a pane's rows, from chunks of texts."""
    rows = room.pane(pane, 1)
    for texts in chunks:
        rows.add(len(texts), rows_of(*texts))
    return rows


def all_rows(rows):
    """Return all scrollback rows."""
    first, found = rows.range().rows(0, 1 << 30, 1 << 30, 1 << 30)
    return first, [row.decode() for row in found]


class Kept(unittest.TestCase):
    """The stored rows."""

    def test_last(self):
        """The last rows up to the limit are stored, whole and in order, however they come."""
        numbers = [str(number) for number in range(1, 5001)]
        for size in (1, 7, 300, 5000):
            rows = kept(RowsRoom(1000), *(numbers[at : at + size] for at in range(0, 5000, size)))
            self.assertEqual((rows.first, rows.end), (4000, 5000))
            self.assertEqual(all_rows(rows), (4000, [f" {number}" for number in numbers[4000:]]))

    def test_joined(self):
        """Small chunks are joined to larger ones, except those of a snapshot."""
        room = RowsRoom(1000)
        rows = kept(room, *(["x" * 98] for _ in range(200)))
        self.assertEqual([len(chunk.data) // 100 for chunk in rows.chunks], [82, 82, 36])
        snapshot = room.snapshot(rows, 1, rows_of("s"))
        rows.add(1, rows_of("a"))
        rows.add(1, rows_of("b"))
        rows.lose(None)
        rows.add(1, rows_of("c"))
        self.assertEqual([chunk.count for chunk in rows.chunks], [82, 82, 36, 4])
        self.assertEqual((snapshot.end, len(snapshot.rows(0, 999)[1])), (201, 201))

    def test_newest(self):
        """The newest rows come from the last chunks alone, and are the same."""
        room = RowsRoom(5000)
        rows = kept(room, *([f"{number} {'x' * 9000}"] for number in range(40)))
        for first in (0, 1, 17, 38, 39, 40, 99):
            self.assertEqual(rows.newest(first).rows(first, 99), rows.range().rows(first, 99), first)
        self.assertEqual([len(rows.newest(first).chunks) for first in (0, 38, 39, 40)], [40, 2, 1, 1])

    def test_asked(self):
        """It returns the available rows, up to the limits of rows and bytes, but at least one."""
        rows = kept(RowsRoom(10), [str(number) for number in range(15)], ["x" * 100, "y" * 100])
        among = rows.range()
        self.assertEqual((among.first, among.end), (7, 17))
        for asked, told in (((0, 2), (7, [b" 7", b" 8"])), ((14, 9), (14, [b" 14", b" " + b"x" * 100, b" " + b"y" * 100])),
                            ((17, 1), (17, [])), ((99, 1), (17, [])), ((3, 0), (7, [])), ((7, 9, 2), (7, [b" 7", b" 8"])),
                            ((15, 9, 99, 10), (15, [b" " + b"x" * 100])), ((13, 9, 99, 10), (13, [b" 13", b" 14"])),
                            ((13, 9, 99, 8), (13, [b" 13", b" 14"])), ((13, 9, 99, 7), (13, [b" 13"]))):
            self.assertEqual(among.rows(*asked), told)

    def test_bytes(self):
        """The oldest chunks of all panes are dropped first above the limit of bytes; chunks read before are unchanged."""
        room = RowsRoom(1000, 20 * (BESIDE + 9002))
        one, other = room.pane(1, 1), room.pane(2, 1)
        for number in range(15):
            for rows in (one, other):
                rows.add(1, rows_of(f"{number}".ljust(9000, "x")))
        self.assertLessEqual(room.kept, room.most_bytes)
        self.assertEqual([(rows.first, rows.end, len(rows.chunks)) for rows in (one, other)], [(5, 15, 10), (5, 15, 10)])
        room.drop(other)
        self.assertEqual(room.kept, 10 * (BESIDE + 9002))
        room.drop(one)
        self.assertEqual((room.kept, room.held), (0, 0))

    def test_cleared(self):
        """Earlier rows are dropped; numbers continue."""
        rows = kept(RowsRoom(10), ["a", "b"])
        rows.clear()
        self.assertEqual((rows.first, rows.end, rows.room.kept), (2, 2, 0))
        rows.add(1, rows_of("c"))
        self.assertEqual(all_rows(rows), (2, [" c"]))

    def test_lost(self):
        """A row reports lost rows, with their number if known; one row for all that are lost together."""
        rows = kept(RowsRoom(10), ["a"])
        rows.lose(3)
        rows.lose(4)
        rows.add(1, rows_of("b"))
        rows.lose(1)
        rows.lose(None)
        rows.lose(2)
        self.assertEqual(all_rows(rows), (0, [" a", LOST_ROWS.format(7)[:-1], " b", LOST_SOME[:-1]]))
        rows.clear()
        rows.lose(5)
        self.assertEqual(all_rows(rows), (4, [LOST_ROWS.format(5)[:-1]]))
        rows.lose(6)
        rows.clear()
        self.assertEqual(all_rows(rows), (5, []))

    def test_lost_seen(self):
        """Rows that were read stay unchanged: later losses have a row of their own."""
        rows = kept(RowsRoom(10), ["a"])
        for looks in (rows.range, lambda: rows.newest(0), lambda: rows.room.snapshot(rows, 0, b"")):
            before = all_rows(rows)[1]
            rows.lose(3)
            first = looks()
            rows.lose(None)
            self.assertEqual([row.decode() for row in first.rows(0, 99)[1]], [*before, LOST_ROWS.format(3)[:-1]])
            self.assertEqual(all_rows(rows)[1], [*before, LOST_ROWS.format(3)[:-1], LOST_SOME[:-1]])

    def test_account(self):
        """The counts match the contents, after any operations."""
        random.seed(3)
        room = RowsRoom(50, 60_000, 20_000)
        panes = [room.pane(pane, 1) for pane in range(1, 4)]
        held = []
        for _ in range(3000):
            rows = random.choice(panes)
            does = random.randrange(10)
            if does < 6:
                texts = ["x" * random.choice((1, 10, 3000))] * random.randrange(1, 5)
                rows.add(len(texts), rows_of(*texts))
            elif does == 6:
                rows.lose(random.choice((None, 2)))
            elif does == 7:
                held.append(room.snapshot(rows, 1, rows_of("x" * random.randrange(2000))))
            elif does == 8 and held:
                room.release(held.pop(random.randrange(len(held))))
            elif random.random() < 0.05:
                rows.clear()
            chunks = {id(chunk): chunk for rows in panes for chunk in rows.chunks}
            alone = {id(chunk): chunk for one in room.snapshots for chunk in one.chunks if id(chunk) not in chunks}
            self.assertEqual(room.kept, sum(chunk.charge() for chunk in chunks.values()))
            self.assertEqual(room.held, sum(chunk.charge() for chunk in alone.values()))
            self.assertLessEqual(room.kept + room.held, 60_000)
            self.assertLessEqual(room.held, 20_000)
            for rows in panes:
                first, found = rows.range().rows(0, 99)
                self.assertEqual((first, first + len(found)), (rows.first, rows.end))



class Written(unittest.TestCase):
    """Chunks as bytes."""

    def setUp(self):
        self.room = RowsRoom(1000)
        self.panes = [kept(self.room, ["a", "+b"], ["x" * 9000], ["c"]), kept(self.room, ["\u4e2d"], pane=23)]
        self.panes[0].snapshot = self.room.snapshot(self.panes[0], 0, b"")
        self.panes[0].add(1, rows_of("d"))
        self.panes[0].lose(7)
        self.parts = [part for rows in self.panes for part in rows.written()]

    def test_read(self):
        """They are read back unchanged, in any mixture of panes."""
        one, two = [list(rows.written()) for rows in self.panes]
        for parts in (self.parts, [*two, *one], [one[0], *two, *one[1:]]):
            room = RowsRoom(1000)
            self.assertEqual(room.read(b"".join(parts)), sum(map(len, parts)))
            found = {rows.pane: rows for rows in room.panes}
            self.assertEqual([all_rows(found[pane]) for pane in (1, 23)], [all_rows(rows) for rows in self.panes])
            self.assertEqual([list(found[pane].written()) for pane in (1, 23)][1], two)
            self.assertEqual((room.kept, len(found)), (sum(chunk.charge() for rows in room.panes for chunk in rows.chunks), 2))
        self.assertIn(LOST_ROWS.format(7)[:-1].encode(), self.parts[2])

    def test_header(self):
        """A header contains the pane, the first number, the counts of rows and bytes, and a checksum."""
        part = packed(23, 2**64 - 1, Chunk(2**40, 2, b" a\n b\n"))
        self.assertEqual(part[:-6][:-4] + part[-6:], HEADER.pack(MAGIC, 23, 2**64 - 1, 2**40, 2, 6, 0)[:-4] + b" a\n b\n")
        pane, generation, chunk = unpacked(b"...." + part, 4)
        self.assertEqual((pane, generation, chunk.first, chunk.count, chunk.data), (23, 2**64 - 1, 2**40, 2, b" a\n b\n"))
        for place in range(len(part)):
            self.assertIsNone(unpacked(part[:place] + bytes([part[place] ^ 4]) + part[place + 1 :], 0), place)
        for count, data in ((1, b" a\n b\n"), (3, b" a\n b\n"), (1, b" a\n b"), (1, b" a")):
            self.assertIsNone(unpacked(packed(1, 1, Chunk(0, count, data)), 0), data)

    def test_torn(self):
        """The last chunk may be torn anywhere: the earlier ones are read, and their end is returned."""
        whole, last = b"".join(self.parts[:-1]), self.parts[-1]
        for cut in range(len(last)):
            room = RowsRoom(1000)
            self.assertEqual((room.read(whole + last[:cut]), [rows.pane for rows in room.panes]), (len(whole), [1]), cut)
            self.assertEqual(all_rows(room.panes[0]), all_rows(self.panes[0]))
        room.read(last)
        self.assertEqual(all_rows(room.panes[1]), all_rows(self.panes[1]))

    def test_others(self):
        """Existing rows are skipped, and a gap ends those before it; the limits apply."""
        room = RowsRoom(3)
        room.read(b"".join(packed(1, 1, Chunk(first, 2, rows_of(f"{first}", "x"))) for first in (0, 2, 0, 1)))
        self.assertEqual(all_rows(room.panes[0]), (1, [" x", " 2", " x"]))
        room.read(packed(1, 1, Chunk(9, 1, rows_of("9"))) + packed(1, 2, Chunk(5, 1, rows_of("5"))))
        self.assertEqual([all_rows(rows) for rows in room.panes], [(9, [" 9"]), (5, [" 5"])])
        self.assertEqual((room.read(b""), RowsRoom(3).read(b"x" * 99)), (0, 0))


class Snapshots(unittest.TestCase):
    """A pane's rows at one moment."""

    def test_stays(self):
        """The rows of that moment, and the screen's rows after them, stay until the release, whatever comes."""
        room = RowsRoom(3)
        rows = kept(room, ["a", "b", "c"])
        snapshot = room.snapshot(rows, 2, rows_of("s", "t"))
        rows.add(3, rows_of("d", "e", "f"))
        rows.lose(None)
        self.assertEqual(snapshot.rows(0, 9), (0, [b" a", b" b", b" c", b" s", b" t"]))
        self.assertEqual((snapshot.first, snapshot.scrollback_end, snapshot.end), (0, 3, 5))
        rows.clear()
        self.assertEqual(snapshot.rows(2, 9), (2, [b" c", b" s", b" t"]))
        self.assertGreater(room.held, 0)
        room.release(snapshot)
        room.release(snapshot)
        self.assertEqual((room.kept, room.held), (0, 0))

    def test_held(self):
        """Too large snapshots are dropped, the oldest first, and so is a single one above the limit."""
        room = RowsRoom(10, 1 << 20, 3000)
        rows = kept(room, ["a"])
        snapshots = [room.snapshot(rows, 1, rows_of("x" * 1000)) for _ in range(4)]
        self.assertEqual([one.is_lost for one in snapshots], [True, True, False, False])
        self.assertEqual(snapshots[0].rows(0, 9)[1], [])
        self.assertTrue(room.snapshot(rows, 1, rows_of("x" * 3000)).is_lost)
        self.assertEqual((room.held, room.snapshots), (0, []))


class Sought(unittest.TestCase):
    """Searches."""

    def found(self, among, start, is_back, text):
        """Return the row in which a text is found."""
        search = Search(among, start, is_back, text)
        while not search.step():
            pass
        return search.found

    def test_characters(self):
        """Styles are between characters, and no part of them."""
        self.assertEqual(characters(b" a\x1b[1;31mb\x1b[0m\n+\x1b[38:2::1:2:3mm\n"), " ab\n+m\n")
        self.assertEqual(characters("\u00e9\u4e00".encode() + b"\xff"), "\u00e9\u4e00\ufffd")

    def test_next_row(self):
        """It finds the next row after a number, or before it, by smart case."""
        among = kept(RowsRoom(99), ["Alpha", "beta"], ["\x1b[1mal\x1b[0mpha", "gamma"]).range()
        for start, is_back, text, row in ((0, False, "alpha", 2), (-1, False, "alpha", 0), (-1, False, "Alpha", 0),
                                          (0, False, "Alpha", None),
                                          (4, True, "alpha", 2), (2, True, "alpha", 0), (0, True, "alpha", None), (9, True, "a", 3),
                                          (1, False, "ET", None), (0, False, "1m", None), (3, False, "a", None)):
            self.assertEqual(self.found(among, start, is_back, text), row, (start, is_back, text))

    def test_joined(self):
        """Soft-wrapped rows are one text, over chunks too; the row is that of the start."""
        texts = ["+ab", "+cd", "+", "ef", "ab"]
        for cut in range(1, 5):
            among = ScrollbackRange(0, 5, [Chunk(0, cut, rows_of(*texts[:cut])), Chunk(cut, 5 - cut, rows_of(*texts[cut:]))])
            for start, is_back, text, row in ((-1, False, "bc", 0), (-1, False, "bcdef", 0), (0, False, "bc", None), (5, True, "de", 1),
                                              (5, True, "ab", 4), (4, True, "ab", 0), (-1, False, "fa", None), (2, True, "ef", None),
                                              (5, True, "ef", 3), (1, True, "abcdef", 0)):
                self.assertEqual(self.found(among, start, is_back, text), row, (cut, start, is_back, text))

    def test_first(self):
        """A dropped row isn't found, though its chunk is there."""
        room = RowsRoom(2)
        rows = room.pane(1, 1)
        rows.add(4, rows_of("x1", "x2", "y", "z"))
        self.assertEqual(self.found(rows.range(), 9, True, "x"), None)
        self.assertEqual(self.found(ScrollbackRange(1, 4, rows.chunks), 9, True, "x"), 1)

    def test_any(self):
        """The results equal those of a plain definition, on random rows."""
        random.seed(5)
        for _ in range(300):
            texts = ["+" * random.randrange(2) + "".join(random.choices("abB", k=random.randrange(4))) for _ in range(12)]
            cuts = sorted(random.sample(range(1, 12), 3))
            chunks = [Chunk(a, b - a, rows_of(*texts[a:b])) for a, b in zip([0, *cuts], [*cuts, 12])]
            text = "".join(random.choices("abB", k=random.randrange(1, 6)))
            start, is_back = random.randrange(-1, 13), bool(random.randrange(2))
            self.assertEqual(self.found(ScrollbackRange(0, 12, chunks), start, is_back, text), plain(texts, start, is_back, text),
                             (texts, text))

    def test_quick(self):
        """10,000 rows are searched in much less than 50 ms."""
        rows = kept(RowsRoom(10_000), *([f"{number} {'some text ' * 5}" for number in range(at, at + 300)] for at in range(0, 12000, 300)))
        best = 1.0
        for _ in range(5):
            begin = time.process_time()
            self.assertIsNone(self.found(rows.range(), rows.end, True, "none of these"))
            best = min(best, time.process_time() - begin)
        self.assertLess(best, 0.05)


def plain(texts, start, is_back, text):
    """Return the matches by the plain definition."""
    fold = str.lower if text == text.lower() else str
    found = []
    for row in range(len(texts)):
        # The text from this row on, as far as rows are soft-wrapped.
        joined, place = fold(texts[row].lstrip("+")), row
        own = len(joined)
        while texts[place].startswith("+") and place + 1 < len(texts):
            place += 1
            joined += fold(texts[place].lstrip("+"))
        at = joined.find(text)
        if 0 <= at < own:
            found.append(row)
    rows = [row for row in found if (row < start if is_back else row > start)]
    return (max(rows) if is_back else min(rows)) if rows else None
