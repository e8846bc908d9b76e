"""The rows that copy mode shows: the scrollback process's output, parsed into cells, and laid out on lines of a pane's width."""
from __future__ import annotations

import unicodedata
from collections import OrderedDict, namedtuple
from collections.abc import Iterable

from roam_live.common.cell_widths import width_of
from roam_live.protocol.screen_cells import Style, styled

# A row by number and a column from 0; and a line: a row, and the index of one of its lines.
Position = tuple[int, int]
Line = tuple[int, int]

# The start of a soft-wrapped row.
GOES_ON = "+"

# The most characters of a cell. Further combining characters are dropped.
MOST_JOINED = 16

# Characters that neither a terminal nor a buffer gets: controls and writing directions. Joiners of other characters are exempt.
UNSEEN = {"Cf", "Cc", "Cs", "Zl", "Zp"}
JOINERS = "\u200c\u200d"

# The least columns of a line, so that a wide character fits.
LEAST_COLS = 2

# The most columns of a row, and rows of a screen; longer rows are cut.
MOST_COLS = 500
MOST_ROW_BYTES = 1 << 16
MOST_SCREEN_ROWS = 200

# Limits of the rows stored here: bytes, with an overhead for each, and rows as cells.
MOST_BYTES = 1 << 25
ROW_BYTES = 96
MOST_CELLED = 2048


class Missing(Exception):
    """A part of a snapshot is not here, and has to be requested."""


class MissingRows(Missing):
    """A row is missing."""

    def __init__(self, row: int) -> None:
        super().__init__(row)
        self.row = row


class ScrollbackRow(namedtuple("ScrollbackRow", "goes_on letters styles length")):
    """A row: a flag for soft wrapping, the text and style of each column, and its columns without trailing blanks.

    The right half of a wide character is empty.
    """

    goes_on: bool
    letters: list[str]
    styles: list[Style]
    length: int

    def at(self, col: int) -> str:
        """Return the text of a column: a blank after the last."""
        return self.letters[col] if col < len(self.letters) else " "

    def is_right_half(self, col: int) -> bool:
        """Return True if a column is the right half of a wide character."""
        return self.at(col) == ""

    def text(self, begin: int, end: int) -> str:
        """Return the characters of columns, including a wide one with a half among them."""
        if begin < end and self.is_right_half(begin):
            begin -= 1
        return "".join(self.letters[begin:end])


class RowReader:
    """Parses a row from the scrollback process: characters, and SGR sequences between them. Anything else is a `?`, or nothing."""

    def __init__(self) -> None:
        self.letters: list[str] = []
        self.styles: list[Style] = []
        self.style = Style()

    def read(self, text: str) -> None:
        """Parse a row's text."""
        before, *parts = text.split("\x1b")
        self.put(before)
        for part in parts:
            numbers, final, rest = part[1:].partition("m")
            words = numbers.split(";")
            if part[:1] == "[" and final and all(word.isascii() and word.isdigit() and len(word) < 5 for word in filter(None, words)):
                self.style = styled(self.style, [int(word or 0) for word in words])
                self.put(rest)
            else:
                self.put("?" + part)

    def put(self, text: str) -> None:
        """Put characters into cells."""
        if text.isascii() and text.isprintable():
            text = text[: MOST_COLS - len(self.letters)]
            self.letters += text
            self.styles += [self.style] * len(text)
            return
        for letter in text:
            if len(self.letters) >= MOST_COLS:
                return
            width = width_of(letter)
            if letter not in JOINERS and unicodedata.category(letter) in UNSEEN:
                letter = "?"
            if width:
                self.letters += [letter] + [""] * (width - 1)
                self.styles += [self.style] * width
            elif letter != "?":
                self.join(letter)

    def join(self, letter: str) -> None:
        """Add a combining character to the previous cell."""
        at = len(self.letters) - 1
        while at > 0 and not self.letters[at]:
            at -= 1
        if at >= 0 and len(self.letters[at]) < MOST_JOINED:
            self.letters[at] += letter


def row_of(line: bytes) -> ScrollbackRow:
    """Return the row in a line from the scrollback process."""
    text = line[:MOST_ROW_BYTES].decode("utf-8", "replace")
    reader = RowReader()
    reader.read(text[1:])
    letters, styles, goes_on = reader.letters, reader.styles, text[:1] == GOES_ON
    length = len(letters)
    while length and letters[length - 1] == " ":
        length -= 1
    return ScrollbackRow(goes_on, letters, styles, length)


class Rows:
    """The rows of a snapshot by number, from the first stored one to the last of the screen. An absent row raises MissingRows."""

    def __init__(self, first: int, end: int, cols: int) -> None:
        self.first, self.end, self.cols = first, end, max(LEAST_COLS, cols)
        self.lines: dict[int, bytes] = {}
        self.size = 0
        # Rows from this one on are never forgotten: those of the screen, which determine the lowest view.
        self.stays = end
        self.celled: OrderedDict[int, ScrollbackRow] = OrderedDict()

    def put(self, row: int, lines: Iterable[bytes]) -> None:
        """Store rows from one on."""
        for line in lines:
            if self.first <= row < self.end and row not in self.lines:
                self.lines[row] = line[:MOST_ROW_BYTES]
                self.size += len(self.lines[row]) + ROW_BYTES
            row += 1

    def forget_far(self, row: int) -> None:
        """Keep the stored rows within their limit: the farthest from one go first."""
        if self.size <= MOST_BYTES:
            return
        for far in sorted((far for far in self.lines if far < self.stays), key=lambda other: abs(other - row), reverse=True):
            self.size -= len(self.lines.pop(far)) + ROW_BYTES
            self.celled.pop(far, None)
            if self.size <= MOST_BYTES // 2:
                return

    def has(self, row: int) -> bool:
        """Return True if a row is here, or if no row has this number."""
        return row in self.lines or not self.first <= row < self.end

    def last(self) -> int:
        """Return the last row."""
        return self.end - 1

    def row(self, row: int) -> ScrollbackRow:
        """Return a row's cells."""
        found = self.celled.get(row)
        if found is not None:
            self.celled.move_to_end(row)
            return found
        if row not in self.lines:
            raise MissingRows(row)
        found = self.celled[row] = row_of(self.lines[row])
        if len(self.celled) > MOST_CELLED:
            self.celled.popitem(last=False)
        return found

    def goes_on(self, row: int) -> bool:
        """Return True if a row is soft-wrapped."""
        return row < self.last() and self.row(row).goes_on

    def length(self, row: int) -> int:
        """Return the columns of a row without trailing blanks."""
        return self.row(row).length

    def begin_of(self, row: int) -> int:
        """Return the first of this row's soft-wrapped predecessors."""
        while row > self.first and self.goes_on(row - 1):
            row -= 1
        return row

    def end_of(self, row: int) -> int:
        """Return the last of this row's soft-wrapped successors."""
        while self.goes_on(row):
            row += 1
        return row

    # ---- lines of the pane's width

    def begins(self, row: int) -> list[int]:
        """Return the first columns of a row's lines. No wide character is cut."""
        found, begin, content = [0], self.cols, self.row(row)
        while begin < content.length:
            begin -= content.is_right_half(begin)
            found.append(begin)
            begin += self.cols
        return found

    def line_of(self, position: Position) -> Line:
        """Return the line with a position."""
        row, col = position
        return row, max(part for part, begin in enumerate(self.begins(row)) if begin <= col)

    def span_of(self, line: Line) -> tuple[int, int]:
        """Return the columns of a row in a line: the first, and the end, exclusive."""
        begins = self.begins(line[0])
        begin = begins[line[1]]
        return begin, begins[line[1] + 1] if line[1] + 1 < len(begins) else begin + self.cols

    def line_length(self, line: Line) -> int:
        """Return the columns of a line without trailing blanks. A line that continues has one less, since the position after its last is on
        the next.
        """
        begin, end = self.span_of(line)
        length = self.length(line[0]) - begin
        return length if length <= end - begin and line[1] + 1 == len(self.begins(line[0])) else end - begin - 1

    def down(self, line: Line, count: int) -> tuple[Line, int]:
        """Return the line so many below, at most the last, and the number moved."""
        row, part = line
        left = count
        while left > 0:
            more = len(self.begins(row)) - 1 - part
            if more >= left:
                return (row, part + left), count
            if row == self.last():
                return (row, part + more), count - left + more
            row, part, left = row + 1, 0, left - more - 1
        return (row, part), count

    def up(self, line: Line, count: int) -> tuple[Line, int]:
        """Return the line so many above, at most the first, and the number moved."""
        row, part = line
        left = count
        while left > part:
            if row == self.first:
                return (row, 0), count - left + part
            left -= part + 1
            row -= 1
            part = len(self.begins(row)) - 1
        return (row, part - left), count

    def below(self, line: Line, count: int = 1) -> Line:
        """Return the line so many below, at most the last."""
        return self.down(line, count)[0]

    def above(self, line: Line, count: int = 1) -> Line:
        """Return the line so many above, at most the first."""
        return self.up(line, count)[0]

    def first_line(self) -> Line:
        """Return the first line."""
        return self.first, 0

    def lines_from(self, top: Line, count: int) -> list[Line]:
        """Return so many lines from one on, as far as there are."""
        lines = [top]
        while len(lines) < count:
            line = self.below(lines[-1])
            if line == lines[-1]:
                break
            lines.append(line)
        return lines
