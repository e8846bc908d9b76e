"""Rows scrolled off the screens of panes, as the scrollback process printed them. They are kept as chunks, which are split into rows only
on demand: the newest of each pane, within a limit for all.

Bytes are only appended to a chunk, and no row changes. Rows that are on the screen again, at another width, are removed at the end. As
bytes each chunk has a header with the pane of its rows.
"""
from __future__ import annotations

import binascii
import struct
from collections import deque

from roam_live.protocol.host_lines import MOST_ROW_BYTES, MOST_ROWS

TYPE_CHECKING = False
if TYPE_CHECKING:
    from collections.abc import Iterable, Iterator

# Limits of all chunks of a session, with an overhead for each, including snapshots; and of snapshots alone. The process grows by at most 64
# MB for them, because memory fragmentation exceeds the counted overhead.
MOST_KEPT = 56 << 20
MOST_HELD = 24 << 20
BESIDE = 256

# New rows join the last chunk while it is shorter than this.
JOINED = 8192

# The text in place of lost rows.
LOST_ROWS = " [{} rows were lost here]\n"
LOST_SOME = " [rows were lost here]\n"


# The header of a chunk as bytes: magic and version; the pane and its generation; the number of the first row; and the counts of rows and
# bytes. A CRC-32 of all that and of these bytes follows.
HEADER = struct.Struct(">4sHQQIII")
MAGIC = b"RSC1"


def packed(pane: int, generation: int, chunk: Chunk) -> bytes:
    """Return a chunk of a pane's rows as bytes."""
    words = MAGIC, pane, generation, chunk.first, chunk.count, len(chunk.data)
    return HEADER.pack(*words, binascii.crc32(chunk.data, binascii.crc32(HEADER.pack(*words, 0)))) + chunk.data


def unpacked(data: bytes, at: int) -> tuple[int, int, Chunk] | None:
    """Return the pane, the generation and the rows of the chunk at a position in these bytes; None if there is none, or a torn one."""
    if len(data) < at + HEADER.size:
        return None
    magic, pane, generation, first, count, length, check = HEADER.unpack_from(data, at)
    chunk = Chunk(first, count, data[at + HEADER.size : at + HEADER.size + length])
    is_whole = magic == MAGIC and len(chunk.data) == length and packed(pane, generation, chunk) == data[at : at + HEADER.size + length]
    return (pane, generation, chunk) if is_whole and chunk.data.count(b"\n") == count and chunk.data[-1:] in (b"", b"\n") else None


class Chunk:
    """Rows that were printed at once: the first number, the count, their bytes, and a position among all chunks of a session.

    It also has the number of snapshots that use it, and a flag for use outside them.
    """

    __slots__ = ("first", "count", "data", "place", "holders", "is_kept")

    def __init__(self, first: int, count: int, data: bytes, place: int = 0) -> None:
        self.first, self.count, self.data, self.place = first, count, bytearray(data), place
        self.holders, self.is_kept = 0, True

    def end(self) -> int:
        """Return the number after that of its last row."""
        return self.first + self.count

    def charge(self) -> int:
        """Return its size for the limits."""
        return len(self.data) + BESIDE


class ScrollbackRange:
    """A range of rows: the first number and the end, exclusive, and their chunks in order."""

    def __init__(self, first: int, end: int, chunks: Iterable[Chunk]) -> None:
        self.first, self.end, self.chunks = first, end, list(chunks)

    def rows(self, first: int, count: int, most_rows: int = MOST_ROWS, most_bytes: int = MOST_ROW_BYTES) -> tuple[int, list[bytes]]:
        """Return the number of the first available row from `first` on, and rows from there, each without its LF, up to the limits."""
        first = min(max(first, self.first), self.end)
        end, size = min(first + min(count, most_rows), self.end), 0
        found: list[bytes] = []
        for chunk in self.chunks:
            if chunk.first >= end:
                break
            if chunk.end() <= first:
                continue
            for row in chunk.data.split(b"\n")[max(0, first - chunk.first) : min(chunk.count, end - chunk.first)]:
                size += len(row) + 1
                if found and size > most_bytes:
                    return first, found
                found.append(row)
        return first, found


class Snapshot(ScrollbackRange):
    """A pane's rows at one moment: the scrollback rows, and those of its screen after them."""

    def __init__(self, pane_rows: PaneRows, screen: Chunk) -> None:
        super().__init__(pane_rows.first, pane_rows.end + screen.count, [*pane_rows.chunks, screen])
        self.pane, self.generation, self.scrollback_end, self.screen = pane_rows.pane, pane_rows.generation, pane_rows.end, screen
        # True if it was dropped because snapshots were too large.
        self.is_lost = False


class PaneRows:
    """The scrollback rows of one pane generation."""

    def __init__(self, pane: int, generation: int, room: RowsRoom) -> None:
        self.pane, self.generation, self.room = pane, generation, room
        self.first = self.end = 0
        self.chunks: deque[Chunk] = deque()
        # The number of lost rows after the last one that no row reports yet; None if unknown.
        self.lost: int | None = 0

    def add(self, count: int, data: bytes) -> None:
        """Store new rows."""
        self.settle()
        self.put(count, data)

    def put(self, count: int, data: bytes) -> None:
        """Append rows to the last chunk, or to a new one."""
        last = self.chunks[-1] if self.chunks else None
        if last and len(last.data) < JOINED and not last.holders:
            last.data += data
            last.count += count
            self.room.charge(len(data))
        else:
            self.chunks.append(Chunk(self.end, count, data, self.room.next_place()))
            self.room.charge(self.chunks[-1].charge())
        self.end += count
        self.keep_last()

    def withdraw(self, count: int) -> None:
        """Remove the newest rows, which are on the screen again. The chunk of a snapshot stays as it was."""
        end = max(self.first, self.end - count)
        while self.chunks and self.chunks[-1].end() > end:
            chunk = self.chunks.pop()
            self.room.let_go(chunk)
            if chunk.first < end:
                rest = b"".join(row + b"\n" for row in chunk.data.split(b"\n")[: end - chunk.first])
                self.chunks.append(Chunk(chunk.first, end - chunk.first, rest, chunk.place))
                self.room.charge(self.chunks[-1].charge())
        self.end = end

    def lose(self, count: int | None) -> None:
        """Record that rows are lost here, with their number if known."""
        self.lost = None if count is None or self.lost is None else self.lost + count

    def settle(self) -> None:
        """Append a row that reports the lost rows, if any: one for all of them, before others follow or somebody reads."""
        lost, self.lost = self.lost, 0
        if lost != 0:
            self.put(1, (LOST_SOME if lost is None else LOST_ROWS.format(lost)).encode())

    def written(self) -> Iterator[bytes]:
        """Yield the chunks as bytes."""
        self.settle()
        for chunk in self.chunks:
            yield packed(self.pane, self.generation, chunk)

    def keep_last(self) -> None:
        """Drop the oldest rows above the limits of rows and of bytes in all."""
        self.first = max(self.first, self.end - self.room.most_rows)
        while self.chunks and self.chunks[0].end() <= self.first:
            self.drop_chunk()
        self.room.keep_most()

    def drop_chunk(self) -> None:
        """Drop the oldest chunk."""
        chunk = self.chunks.popleft()
        self.first = max(self.first, chunk.end())
        self.room.let_go(chunk)

    def clear(self) -> None:
        """Drop all rows so far."""
        while self.chunks:
            self.drop_chunk()
        self.first, self.lost = self.end, 0

    def range(self) -> ScrollbackRange:
        """Return the range of stored rows."""
        self.settle()
        return ScrollbackRange(self.first, self.end, self.chunks)

    def newest(self, first: int) -> ScrollbackRange:
        """Return the scrollback rows from a number on, without a pass over all older chunks."""
        self.settle()
        found: deque[Chunk] = deque()
        for chunk in reversed(self.chunks):
            found.appendleft(chunk)
            if chunk.first <= first:
                break
        return ScrollbackRange(self.first, self.end, found)


class RowsRoom:
    """The total size of the scrollback rows of a session, and of their snapshots. The oldest chunks of any pane are dropped first."""

    def __init__(self, most_rows: int, most_bytes: int = MOST_KEPT, most_held: int = MOST_HELD) -> None:
        self.most_rows, self.most_bytes, self.most_held = most_rows, most_bytes, most_held
        self.panes: list[PaneRows] = []
        # Rows of the host before this one, by pane and generation, until their panes are reported.
        self.handed: dict[tuple[int, int], PaneRows] = {}
        self.snapshots: list[Snapshot] = []
        # The size of stored chunks, and of those that only snapshots use, with their screens.
        self.kept = self.held = 0
        self.place = 0

    def pane(self, pane: int, generation: int) -> PaneRows:
        """Return the rows of a pane generation, which a host before this one may have handed over."""
        rows = self.handed.pop((pane, generation), None)
        if rows is None:
            rows = PaneRows(pane, generation, self)
            self.panes.append(rows)
        return rows

    def written(self) -> bytes:
        """Return all chunks as bytes, for the next host."""
        return b"".join(data for rows in self.panes for data in rows.written())

    def take_handed(self, data: bytes) -> None:
        """Take the rows of the host before this one. Each pane claims its own."""
        self.read(data)
        self.handed = {(rows.pane, rows.generation): rows for rows in self.panes}

    def drop_handed(self) -> None:
        """Drop the rows that no pane has claimed."""
        for rows in self.handed.values():
            self.drop(rows)
        self.handed.clear()

    def read(self, data: bytes) -> int:
        """Store rows from a file, and return the end of its last complete chunk. The part after it may be torn.

        Rows that a pane already has are skipped. A gap drops the rows before it.
        """
        at = 0
        while found := unpacked(data, at):
            pane, generation, chunk = found
            known = next((one for one in self.panes if (one.pane, one.generation) == (pane, generation)), None)
            rows = known or self.pane(pane, generation)
            if chunk.first > rows.end:
                rows.clear()
                rows.first = rows.end = chunk.first
            if chunk.first == rows.end:
                rows.put(chunk.count, chunk.data)
            at += HEADER.size + len(chunk.data)
        return at

    def drop(self, rows: PaneRows) -> None:
        """Drop all rows of an ended pane."""
        rows.clear()
        self.panes.remove(rows)

    def next_place(self) -> int:
        """Return the position of a new chunk among all."""
        self.place += 1
        return self.place

    def charge(self, count: int) -> None:
        """Add so many bytes to the size of stored chunks."""
        self.kept += count

    def keep_most(self) -> None:
        """Drop the oldest chunks while there are too many bytes in all."""
        self.drop_oldest(self.most_bytes)

    def shed(self) -> None:
        """Drop the older half of all rows, and all snapshots, because memory is short."""
        while self.snapshots:
            self.snapshots[0].is_lost = True
            self.release(self.snapshots[0])
        self.drop_oldest(self.kept // 2)

    def drop_oldest(self, most: int) -> None:
        """Drop the oldest chunks until at most `most` bytes are left."""
        while self.kept + self.held > most:
            oldest = min((rows for rows in self.panes if rows.chunks), key=lambda rows: rows.chunks[0].place, default=None)
            if not oldest:
                return
            oldest.drop_chunk()

    def let_go(self, chunk: Chunk) -> None:
        """Remove a chunk from the stored ones. Snapshots may still use it."""
        chunk.is_kept = False
        self.kept -= chunk.charge()
        if chunk.holders:
            self.held += chunk.charge()
            self.hold_most()

    # ---- snapshots

    def snapshot(self, rows: PaneRows, count: int, screen: bytes) -> Snapshot:
        """Return a snapshot of a pane with the rows of its screen. If snapshots become too large, the oldest are dropped."""
        rows.settle()
        made = Snapshot(rows, Chunk(rows.end, count, screen))
        made.screen.is_kept = False
        self.held += made.screen.charge()
        for chunk in made.chunks:
            chunk.holders += 1
        self.snapshots.append(made)
        self.hold_most()
        self.keep_most()
        return made

    def hold_most(self) -> None:
        """Drop the oldest snapshots while they are too large."""
        while self.held > self.most_held and self.snapshots:
            self.snapshots[0].is_lost = True
            self.release(self.snapshots[0])

    def release(self, snapshot: Snapshot) -> None:
        """Release a snapshot."""
        if snapshot not in self.snapshots:
            return
        self.snapshots.remove(snapshot)
        for chunk in snapshot.chunks:
            chunk.holders -= 1
            if not chunk.holders and not chunk.is_kept:
                self.held -= chunk.charge()
        snapshot.chunks.clear()


# ---- searches

def characters(data: bytes) -> str:
    """Return the characters of rows, without the styles between them."""
    if b"\x1b" in data:
        first, *parts = data.split(b"\x1b[")
        data = first + b"".join(part[part.find(b"m") + 1 :] for part in parts)
    return data.decode("utf-8", "replace")


class Search:
    """Searches, chunk by chunk, for the next row after a number, or before it, in which a match begins.

    Soft-wrapped rows form one text. Case counts if the text has a capital.
    """

    def __init__(self, among: ScrollbackRange, start: int, is_back: bool, text: str) -> None:
        self.is_folded = text == text.lower()
        self.text, self.is_back = text, is_back
        self.first, self.end = (among.first, min(start, among.end)) if is_back else (max(among.first, start + 1), among.end)
        self.chunks = among.chunks
        self.found: int | None = None
        self.places = self.order()

    def order(self) -> Iterator[int]:
        """Yield the positions of the chunks to search, in order."""
        places = [place for place, chunk in enumerate(self.chunks) if chunk.end() > self.first and chunk.first < self.end]
        return reversed(places) if self.is_back else iter(places)

    def step(self) -> bool:
        """Search one more chunk, and return True if it was the last one needed."""
        place = next(self.places, None)
        if place is None:
            return True
        self.found = self.found_in(place)
        return self.found is not None

    def lines(self, place: int) -> list[str]:
        """Return the characters of a chunk's rows, each after its prefix."""
        text = characters(self.chunks[place].data)
        return (text.lower() if self.is_folded else text).split("\n")[:-1]

    def following(self, place: int) -> Iterator[str]:
        """Yield the rows after a chunk, as far as its last row may be soft-wrapped into them."""
        for behind in range(place + 1, len(self.chunks)):
            yield from self.lines(behind)

    def found_in(self, place: int) -> int | None:
        """Return the number of a chunk's row in which a match begins; None if the searched part has none."""
        chunk = self.chunks[place]
        lines = self.lines(place)
        begins, texts, length = [], [], 0
        for line in lines:
            begins.append(length)
            texts.append(line[1:] if line[:1] == "+" else f"{line[1:]}\n")
            length += len(texts[-1])
        goes_on, more = bool(lines) and lines[-1][:1] == "+", length + len(self.text)
        for line in self.following(place) if goes_on else ():
            texts.append(line[1:])
            more -= len(line) - 1
            if line[:1] != "+" or more <= length:
                break
        return row_of("".join(texts), self.text, [*begins, length], chunk.first, self.first, self.end, self.is_back)


def row_of(joined: str, text: str, begins: list[int], number: int, first: int, end: int, is_back: bool) -> int | None:
    """Return the first or last row from `first` to `end` in which a match begins; None if there is none.

    `begins` are the positions of the rows in `joined`, and `number` is that of the first.
    """
    from bisect import bisect_right

    low = begins[min(max(0, first - number), len(begins) - 1)]
    high = begins[min(max(0, end - number), len(begins) - 1)] + len(text) - 1
    place = joined.rfind(text, low, high) if is_back else joined.find(text, low, high)
    # An empty row has the same position as the next row, so the match is in the last one of that position.
    return None if place < 0 else number + bisect_right(begins, place) - 1
