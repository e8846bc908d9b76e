"""Moves of a position over rows: by characters, words, paragraphs, brackets and to a character, as in tmux's copy mode.

A position is a row and a column, which may be the one after the row's last character.
"""
from __future__ import annotations
from collections.abc import Callable

from roam_live.frontend.copymode.rows import Position, Rows

# Characters that separate words, besides a blank.
SEPARATORS = "!\"#$%&'()*+,-./:;<=>?@[\\]^`{|}~"
BLANK = " "

# The matching brackets.
OPENING, CLOSING = "{[(", "}])"


def letter_at(rows: Rows, position: Position) -> str:
    """Return the character at a position; for a right half the wide character."""
    row, col = position
    content = rows.row(row)
    return content.at(col) or content.at(col - 1)


def is_in(rows: Rows, position: Position, letters: str) -> bool:
    """Return True if the character at a position is one of these."""
    return letter_at(rows, position) in letters


# ---- characters


def right(rows: Rows, position: Position, is_wrapped: bool = True, width: int | None = None) -> Position:
    """Return the character to the right, at the end in the next row; with a width at most its last column."""
    row, col = position
    most = rows.length(row) if width is None else width
    if is_wrapped and col >= most and row < rows.last():
        return row + 1, 0
    if col >= most:
        return position
    col += 1
    while col < most and rows.row(row).is_right_half(col):
        col += 1
    return row, col


def left(rows: Rows, position: Position, is_wrapped: bool = True) -> Position:
    """Return the character to the left, at the beginning the end of the previous row."""
    row, col = position
    while col and rows.row(row).is_right_half(col):
        col -= 1
    if col:
        return row, col - 1
    if row > rows.first and (is_wrapped or rows.goes_on(row - 1)):
        return row - 1, rows.length(row - 1)
    return row, col


def line_begin(rows: Rows, position: Position) -> Position:
    """Return the beginning of the row with its soft-wrapped predecessors."""
    return rows.begin_of(position[0]), 0


def line_end(rows: Rows, position: Position, width: int | None = None) -> Position:
    """Return the end of the row or its last soft-wrapped one; with a width, its last column."""
    row = rows.end_of(position[0])
    return row, rows.length(row) if width is None else width


def indentation(rows: Rows, position: Position) -> Position:
    """Return the first position that is not blank in the row with its soft-wrapped neighbours."""
    row = rows.begin_of(position[0])
    while True:
        for col in range(rows.length(row)):
            if rows.row(row).at(col) != BLANK:
                return row, col
        if not rows.goes_on(row):
            return position
        row += 1


# ---- words


class WordReader:
    """A position that moves over rows to the right. A row's end is a blank, unless it is soft-wrapped."""

    def __init__(self, rows: Rows, position: Position) -> None:
        self.rows, self.position = rows, position
        self.most = self.most_of(position[0])

    def most_of(self, row: int) -> int:
        """Return the last column of a row."""
        return len(self.rows.row(row).letters) - 1 if self.rows.goes_on(row) else self.rows.length(row)

    def stands(self) -> bool:
        """Move to the next row at the end of one, and return True if there is a character."""
        while self.position[1] > self.most:
            if self.position[0] == self.rows.last():
                return False
            self.position = self.position[0] + 1, 0
            self.most = self.most_of(self.position[0])
        return True

    def is_in(self, letters: str) -> bool:
        """Return True if the character here is one of these."""
        return is_in(self.rows, self.position, letters)

    def step(self) -> None:
        """Move a column to the right."""
        self.position = self.position[0], self.position[1] + 1

    def skip(self, passes: Callable[[], bool]) -> None:
        """Skip this column, and those after it that pass."""
        self.step()
        while self.stands() and passes():
            self.step()

    def skip_word(self, separators: str) -> None:
        """Skip the word that begins here: separators, or other characters."""
        if self.is_in(separators):
            self.skip(lambda: self.is_in(separators) and not self.is_in(BLANK))
        else:
            self.skip(lambda: not self.is_in(separators) and not self.is_in(BLANK))


def next_word(rows: Rows, position: Position, separators: str) -> Position:
    """Return the beginning of the next word."""
    reader = WordReader(rows, position)
    if not reader.stands():
        return reader.position
    if not reader.is_in(BLANK):
        reader.skip_word(separators)
    while reader.stands() and reader.is_in(BLANK):
        reader.step()
    return reader.position


def word_end(rows: Rows, position: Position, separators: str) -> Position:
    """Return the position after the end of the word here, or of the next."""
    reader = WordReader(rows, position)
    while reader.stands():
        if not reader.is_in(BLANK):
            reader.skip_word(separators)
            break
        reader.step()
    return reader.position


def last_of_word(rows: Rows, position: Position, separators: str) -> Position:
    """Return the last character of the word here; of the next one if the position is already there."""
    if not is_in(rows, position, BLANK):
        position = right(rows, position, False)
    return left(rows, word_end(rows, position, separators))


def filled_before(rows: Rows, position: Position) -> Position | None:
    """Return the nearest earlier position that is not blank; None if there is none."""
    row, col = position
    while col or row != rows.first:
        if not col:
            row, col = row - 1, rows.length(row - 1)
        elif not is_in(rows, (row, col - 1), BLANK):
            return row, col - 1
        else:
            col -= 1
    return None


def previous_word(rows: Rows, position: Position, separators: str, is_already: bool = True) -> Position:
    """Return the beginning of the previous word, or that of the current one if `is_already` is False."""
    before = filled_before(rows, position) if is_already or is_in(rows, position, BLANK) else position
    if not before:
        return rows.first, 0
    row, col = before
    is_separated = is_in(rows, (row, col), separators)
    found = row, col
    while True:
        if not col:
            if row == rows.first or not rows.goes_on(row - 1):
                return found
            row, col = row - 1, rows.length(row - 1)
        col -= col > 0
        if is_in(rows, (row, col), BLANK) or is_in(rows, (row, col), separators) != is_separated:
            return found
        found = row, col


# ---- paragraphs


def paragraph_above(rows: Rows, position: Position) -> Position:
    """Return the blank row above the text here, or above."""
    row = position[0]
    for is_blank in (True, False):
        while row > rows.first and (rows.length(row) == 0) == is_blank:
            row -= 1
    return row, 0


def paragraph_below(rows: Rows, position: Position) -> Position:
    """Return the blank row below the text here, or below."""
    row = position[0]
    for is_blank in (True, False):
        while row < rows.last() and (rows.length(row) == 0) == is_blank:
            row += 1
    return row, rows.length(row)


# ---- jumps to a character


def jump(rows: Rows, position: Position, letter: str) -> Position | None:
    """Return the next position of a character in this row and its soft-wrapped successors; None if there is none."""
    row, col = position
    while True:
        content = rows.row(row)
        for place in range(col, content.length):
            if content.at(place) == letter:
                return row, place
        if not rows.goes_on(row):
            return None
        row, col = row + 1, 0


def jump_back(rows: Rows, position: Position, letter: str) -> Position | None:
    """Return the previous position of a character in this row and its soft-wrapped predecessors; None if there is none."""
    row, col = position
    while True:
        for place in range(col, -1, -1):
            if rows.row(row).at(place) == letter:
                return row, place
        if row == rows.first or not rows.goes_on(row - 1):
            return None
        row, col = row - 1, rows.length(row - 1) - 1


# The jump keys, with flags to jump back, and to stop before the character.
JUMPS = {"f": (False, False), "F": (True, False), "t": (False, True), "T": (True, True)}
REVERSED = {"f": "F", "F": "f", "t": "T", "T": "t"}


def jumped(rows: Rows, position: Position, kind: str, letter: str) -> Position:
    """Return the target of a jump to a character; the same position if it fails."""
    is_back, is_before = JUMPS[kind]
    row, col = position
    if is_back:
        begin = left(rows, position, False)
        found = jump_back(rows, left(rows, begin, False) if is_before else begin, letter)
        return position if found is None else right(rows, found) if is_before else found
    found = jump(rows, (row, col + 1 + is_before), letter)
    return position if found is None else left(rows, found) if is_before else found


# ---- brackets


def bracket_at(rows: Rows, position: Position, brackets: str) -> Position | None:
    """Return the first of these brackets from a position on, in its row and soft-wrapped successors; None if there is none."""
    found = [place for place in (jump(rows, position, letter) for letter in brackets) if place]
    return min(found) if found else None


# The most rows that are searched for the other bracket.
MOST_BRACKET_ROWS = 2000


def other_bracket(rows: Rows, position: Position, letter: str) -> Position | None:
    """Return the bracket that matches the one at a position; None if there is none."""
    is_back = letter in CLOSING
    other = OPENING[CLOSING.index(letter)] if is_back else CLOSING[OPENING.index(letter)]
    row, col = position
    depth, left_rows = 0, MOST_BRACKET_ROWS
    while left_rows:
        content = rows.row(row)
        for place in range(col, -1, -1) if is_back else range(col, content.length):
            depth += (content.at(place) == letter) - (content.at(place) == other)
            if not depth:
                return row, place
        if row == (rows.first if is_back else rows.last()):
            return None
        row += -1 if is_back else 1
        col = rows.length(row) - 1 if is_back else 0
        left_rows -= 1
    return None


def matched_forward(rows: Rows, position: Position, is_vi: bool) -> Position:
    """Return the bracket that matches the one here or the next one.

    With emacs keys, if no bracket opens here, return the end of the word, with brackets and blanks as separators.
    """
    here = letter_at(rows, position)
    if not rows.length(position[0]):
        return position
    if is_vi:
        begin = position if here in OPENING + CLOSING else bracket_at(rows, position, OPENING + CLOSING)
    else:
        begin = position if here in OPENING else None
        if begin is None:
            return word_end(rows, position, OPENING)
    found = other_bracket(rows, begin, letter_at(rows, begin)) if begin else None
    return found or position


def matched_back(rows: Rows, position: Position) -> Position:
    """Return the bracket that opens the one here or before it; without one the previous word, with brackets and blanks as separators."""
    begin: Position | None = position
    if not rows.length(position[0]):
        return position
    if not is_in(rows, position, CLOSING):
        begin = left(rows, position) if position[1] else None
        if begin is None or not is_in(rows, begin, CLOSING):
            return previous_word(rows, position, CLOSING)
    found = other_bracket(rows, begin, letter_at(rows, begin)) if begin else None
    return found or position
