"""The records that a client process sends to a terminal after the line `events`.

Each is a line, some with counted bytes after it (roam(1), RECORDS).
"""
from __future__ import annotations

from roam_live.common.io import LineReader, LongLine
from roam_live.common.named_fields import NamedFields
from roam_live.common.text import decimal_in

# Output before this line was painted, and the terminal may no longer show it.
BEGIN = b"\nevents\n"
FULL = b"full\n"
# A line is shorter, and so is the data after most lines. A screen of 200 by 500 in which each cell has its own style is some 7 MB.
LONGEST_LINE = 512
MOST_BYTES = 1 << 24
MOST_NUMBER = 10**20 - 1
# The count of numbers after each word. For these words the number is the length of the data that follows.
NUMBERS = {"events": 0, "size": 2, "part": 2, "paint": 1, "anew": 1, "screen": 1, "silent": 1, "heard": 0, "refused": 1, "taken": 1,
           "full": 0}
CARRYING = ("paint", "anew", "screen")


class NoRecord(Exception):
    """An invalid record: the peer is not a client of this version."""


class DisplayRecord(NamedFields):
    """A record: its word, its numbers, and the data after it or the words in its line."""

    word: str
    numbers: tuple[int, ...] = ()
    data: bytes = b""
    words: str = ""

    def __new__(cls, word: str, numbers: tuple[int, ...] = (), data: bytes = b"", words: str = "") -> DisplayRecord:
        # Each typed key makes several.
        return tuple.__new__(cls, (word, numbers, data, words))


def number_of(text: str) -> int:
    """Return a decimal number without a leading zero."""
    number = decimal_in(text, MOST_NUMBER)
    if number is None:
        raise NoRecord(f"{text[:20]!r} is no number")
    return number


def line_of(line: bytes) -> DisplayRecord:
    """Return the record of a line, without the data after it."""
    try:
        word, *rest = line.decode("utf-8").split(" ")
    except UnicodeDecodeError:
        raise NoRecord("a line that is not UTF-8") from None
    count = NUMBERS.get(word)
    if count is None:
        raise NoRecord(f"{word[:20]!r} begins no record")
    if len(rest) < count or (len(rest) > count and word != "refused"):
        raise NoRecord(f"{word} with {len(rest)} words")
    numbers = tuple(map(number_of, rest[:count]))
    if word in CARRYING and numbers[0] > MOST_BYTES:
        raise NoRecord(f"{word} of {numbers[0]} bytes")
    return DisplayRecord(word, numbers, b"", " ".join(rest[count:]))


class Records:
    """Splits a stream into its records, each once and in order, however it is cut into chunks."""

    def __init__(self) -> None:
        self.kept = LineReader(LONGEST_LINE)
        self.begun = False
        # The record whose data is incomplete.
        self.waiting: DisplayRecord | None = None

    def came(self, chunk: bytes) -> list[DisplayRecord]:
        """Return the records that these bytes complete. Output before the first one is dropped."""
        self.kept.kept += chunk
        found: list[DisplayRecord] = []
        if not self.begun and not self._begins(found):
            return found
        while (record := self._next()) is not None:
            found.append(record)
        return found

    def _begins(self, found: list[DisplayRecord]) -> bool:
        """Return True once records have begun. A client without room reports that and nothing else."""
        kept = self.kept.kept
        place = kept.find(BEGIN)
        if place >= 0:
            del kept[:place + 1]
            self.begun = True
            return True
        if kept == FULL:
            found.append(DisplayRecord("full"))
        if len(kept) > len(FULL):
            del kept[:-len(BEGIN)]
        return False

    def _next(self) -> DisplayRecord | None:
        """Return the next complete record."""
        record = self.waiting or self._line()
        if record is None or record.word not in CARRYING:
            return record
        data = self.kept.data(record.numbers[0])
        self.waiting = record if data is None else None
        return None if data is None else DisplayRecord(record.word, record.numbers, data, record.words)

    def _line(self) -> DisplayRecord | None:
        """Return the record of the first line; None while that line is incomplete."""
        try:
            line = self.kept.line()
        except LongLine:
            raise NoRecord("a line without an end") from None
        return None if line is None else line_of(line)


class Screen(NamedFields):
    """A screen, cell by cell, as a record contains it. The right half of a wide character is empty."""

    rows: int
    cols: int
    cursor: tuple[int, int]
    visible: bool
    cells: tuple[tuple[str, ...], ...]

    def text(self) -> list[str]:
        """Return its rows, without trailing blanks."""
        return ["".join(row).rstrip(" ") for row in self.cells]


def screen_of(data: bytes) -> Screen:
    """Return the screen of a record's data; NoRecord if it is invalid."""
    try:
        head, *lines = data.decode("utf-8").split("\n")
    except UnicodeDecodeError:
        raise NoRecord("a screen that is not UTF-8") from None
    words = head.split(" ")
    if len(words) != 5 or words[4] not in ("visible", "hidden"):
        raise NoRecord("a screen without its size")
    rows, cols, row, col = (number_of(word) for word in words[:4])
    cells = tuple(tuple(line.split("\x1f")) for line in lines[:-1])
    if len(cells) != rows or lines[-1:] != [""] or any(len(row_cells) != cols for row_cells in cells):
        raise NoRecord("a screen of another size")
    return Screen(rows, cols, (row, col), words[4] == "visible", cells)
