"""The selection in copy mode: from a position to the cursor, by characters, words, lines or as a block, and its text."""
from __future__ import annotations

import copy

from roam_live.frontend.copymode.motions import BLANK, SEPARATORS, is_in, last_of_word, line_begin, line_end, previous_word, right, word_end
from roam_live.frontend.copymode.rows import Position, Rows

# The units of a selection: characters, or whole words or lines around its start.
CHARACTERS, WORDS, LINES = "characters", "words", "lines"

# A copied text has fewer bytes.
MOST_COPIED = 1 << 20


class Selection:
    """A selection: its start, and the end that follows the cursor. `o` swaps these two."""

    def __init__(self, position: Position, kind: str = CHARACTERS, is_vi: bool = False) -> None:
        self.begin, self.end, self.kind, self.is_vi = position, position, kind, is_vi
        # True if the cursor is at the end, False at the beginning.
        self.is_at_end = True
        # The word or lines at the start of the selection, and the cursor's position then.
        self.core = position, position
        self.origin = position
        # For words and lines: the end of the line that the cursor sticks to in vertical moves, or its beginning.
        self.keeps = ""

    def copied(self) -> Selection:
        """Return a copy."""
        return copy.copy(self)

    def fixed(self) -> Position:
        """Return the end that does not follow the cursor."""
        return self.begin if self.is_at_end else self.end

    def follow(self, rows: Rows, position: Position) -> None:
        """Follow the cursor."""
        is_begin = not self.is_at_end
        if self.kind == WORDS:
            is_begin = position < self.origin
            if is_begin:
                position, self.end = previous_word(rows, position, SEPARATORS, False), self.core[1]
            else:
                if position[1] >= rows.length(position[0]) or not is_in(rows, (position[0], position[1] + 1), BLANK):
                    position = end_of_word(rows, position, self.is_vi)
                self.begin = self.core[0]
        elif self.kind == LINES:
            is_begin = position[0] < self.origin[0]
            if is_begin:
                position, self.end = (position[0], 0), self.core[1]
            else:
                row = max(position[0], self.core[1][0])
                position, self.begin = (row, rows.length(row)), self.core[0]
        if is_begin:
            self.begin = position
        else:
            self.end = position

    def turn(self) -> Position:
        """Move the cursor to the other end, and return it."""
        self.keeps = {"end": "begin", "begin": "end"}.get(self.keeps, "")
        self.is_at_end = not self.is_at_end
        return self.end if self.is_at_end else self.begin


def end_of_word(rows: Rows, position: Position, is_vi: bool) -> Position:
    """Return the end of the word here: with vi keys its last character, else the position after it."""
    return last_of_word(rows, position, SEPARATORS) if is_vi else word_end(rows, position, SEPARATORS)


def lines_at(rows: Rows, position: Position) -> tuple[Selection, Position]:
    """Return the selection of the row here with its soft-wrapped neighbours, and the cursor's new position."""
    selection = Selection(line_begin(rows, position), LINES)
    selection.origin, selection.keeps = position, "end"
    cursor = line_end(rows, position)
    selection.core, selection.end = (selection.begin, cursor), cursor
    return selection, cursor


def word_at(rows: Rows, position: Position, is_vi: bool) -> tuple[Selection, Position]:
    """Return the selection of the word here, and the cursor's new position."""
    begin = previous_word(rows, position, SEPARATORS, False)
    selection = Selection(begin, WORDS, is_vi)
    row, col = begin
    after = (row + 1, 0) if rows.goes_on(row) and col + 1 >= len(rows.row(row).letters) else (row, col + 1)
    # With emacs keys the selection ends before the cursor, so tmux selects no word of one character.
    cursor = begin if is_vi or col >= rows.length(row) else right(rows, begin, False)
    if col >= rows.length(row) or not is_in(rows, after, BLANK):
        cursor = end_of_word(rows, begin, is_vi)
    selection.core, selection.end = (begin, cursor), cursor
    selection.origin, selection.keeps = min(position, cursor), "end"
    return selection, cursor


class Columns:
    """The selected columns of each row: of the first, the last and those between. Their display needs no missing row."""

    def __init__(self, rows: Rows, selection: Selection, cursor: Position, is_block: bool, is_vi: bool, is_shown: bool = False) -> None:
        self.rows, self.is_block = rows, is_block
        self.first, self.last = min(selection.begin, selection.end), max(selection.begin, selection.end)
        is_far = is_shown and not rows.has(self.last[0])
        last_length = self.last[1] if is_far else rows.length(self.last[0])
        end = min(self.last[1], last_length)
        if is_block:
            fixed, here = selection.fixed()[1], cursor[1]
            low, high = (fixed, here + is_vi) if fixed < here else (here, fixed + 1)
            self.ends: tuple[int, int | None, int] = low, high, high
            self.begin = low
        else:
            self.begin = 0
            self.ends = self.first[1], None, end + is_vi
        # The end of the last row's text: nothing if it is soft-wrapped, and a line end only if that is selected too.
        is_cut = is_vi and self.ends[2] > last_length
        is_joined = not is_far and rows.goes_on(self.last[0]) and self.ends[2] == last_length
        self.drops_end = (not is_cut) and not is_joined

    def of(self, row: int) -> tuple[int, int] | None:
        """Return the first selected column of a row and the end, exclusive, which may exceed the row; None if there is none."""
        if not self.first[0] <= row <= self.last[0]:
            return None
        begin = self.ends[0] if row == self.first[0] else self.begin
        end = self.ends[2] if row == self.last[0] else self.ends[1]
        content = self.rows.row(row)
        whole = max(len(content.letters), self.rows.cols)
        return begin, whole if end is None else end

    def text(self, row: int) -> str:
        """Return the copied part of a row, with a line end unless it is soft-wrapped or the selection ends before."""
        columns, content = self.of(row), self.rows.row(row)
        if not columns or columns[0] > columns[1]:
            return ""
        is_joined = self.rows.goes_on(row)
        most = len(content.letters) if is_joined else content.length
        begin, end = min(columns[0], most), min(columns[1], most)
        return content.text(begin, end) + ("" if is_joined and end == most else "\n")


class CopiedText:
    """The text of a selection, collected row by row. The part so far stays while rows are requested."""

    def __init__(self, columns: Columns) -> None:
        self.columns = columns
        self.row = columns.first[0]
        self.parts: list[str] = []
        self.size = 0

    def gather(self) -> bytes | None:
        """Return the whole text; None if it exceeds the limit. MissingRows if rows have to be requested first."""
        last = self.columns.last[0]
        while self.row <= last:
            part = self.columns.text(self.row)
            self.size += len(part.encode("utf-8", "replace"))
            if self.size > MOST_COPIED + 1:
                return None
            self.parts.append(part)
            self.row += 1
        text = "".join(self.parts)
        if self.columns.drops_end:
            text = text[:-1] if text.endswith("\n") else text
        data = text.encode("utf-8", "replace")
        return data if len(data) <= MOST_COPIED else None
