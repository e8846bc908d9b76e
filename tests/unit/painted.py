"""The cells of a painted text, from a painter or from the rows that tmux captures.

It supports CUP, SGR, ED 2, EL, DECTCEM, a reset and characters, LF and RI at margins, and DECSC and DECRC around a front end's own line.
Its table of widths is independent, so it serves tests and is no part of the tools.
"""
from __future__ import annotations

import re
import unicodedata
from collections.abc import Iterable

from roam_live.protocol.screen_cells import Style, styled

MARKS = re.compile(r"\x1b\[(\d+)(?:;(\d+))?H|\x1b\[([\d;]*)m|(\x1b\[2J|\x1bc)|\x1b\[\?25([hl])|\x1b\[(?:(\d+);(\d+))?r|(\x1b\[K|\x1bM|\n)"
                   r"|\x1b([78])|\x1b\[[0-?]*[@-~]|\x1b[=>]|([^\x1b])")
# The sequences that erase the rest of a row, and that scroll up at the bottom margin and down at the top one.
EL, LF, RI = "\x1b[K", "\n", "\x1bM"

# The line-drawing characters of a tmux row are between these.
SHIFT_OUT, SHIFT_IN = "\x0e", "\x0f"
BOXES = dict(zip("jklmnqtuvwxa", "\u2518\u2510\u250c\u2514\u253c\u2500\u251c\u2524\u2534\u252c\u2502\u2592"))


class PaintedCells:
    """The result of a painter's text: cells by row and column from 1, each a character and a style, and the cursor."""

    def __init__(self) -> None:
        self.cells: dict[tuple[int, int], tuple[str, Style]] = {}
        self.style = Style()
        self.row = self.col = 1
        # The rows between the margins, if set.
        self.band: tuple[int, int] | None = None
        self.has_cursor = True
        self.has_boxes = False
        # The position and style saved by DECSC.
        self.saved = 1, 1, self.style

    def fed(self, text: str) -> None:
        """Take a painter's text."""
        for mark in MARKS.finditer(text):
            row, col, style, erased, cursor, top, bottom, other, saves, letter = mark.groups()
            if row:
                self.row, self.col = int(row), int(col or 1)
            elif style is not None:
                self.style = styled(self.style, [int(word or 0) for word in style.split(";")])
            elif erased:
                self.cells.clear()
            elif cursor:
                self.has_cursor = cursor == "h"
            elif mark[0].endswith("r") and not letter:
                self.row, self.col, self.band = 1, 1, (int(top), int(bottom)) if top else None
            elif other:
                self.acts(other)
            elif saves == "7":
                self.saved = self.row, self.col, self.style
            elif saves:
                self.row, self.col, self.style = self.saved
            elif letter in (SHIFT_OUT, SHIFT_IN):
                self.has_boxes = letter == SHIFT_OUT
            elif letter:
                self.write(BOXES.get(letter, letter) if self.has_boxes else letter)

    def acts(self, other: str) -> None:
        """Erase the rest of the row, or move a row up or down. At the margins, the rows between them scroll."""
        if other == EL:
            self.cells = {(row, col): cell for (row, col), cell in self.cells.items() if row != self.row or col < self.col}
            return
        top, bottom = self.band or (0, 0)
        by = 1 if other == LF else -1
        if self.row != (bottom if by == 1 else top):
            self.row = max(1, self.row + by)
            return
        gone = top if by == 1 else bottom
        self.cells = {(row - by if top <= row <= bottom else row, col): cell for (row, col), cell in self.cells.items() if row != gone}

    def write(self, letter: str) -> None:
        """Write a character; a zero-width one joins the one before."""
        width = width_of(letter)
        if width == 0:
            place = (self.row, self.col - 1 if (self.row, self.col - 1) in self.cells else self.col - 2)
            before, style = self.cells.get(place, (" ", self.style))
            self.cells[place] = (before + letter, style)
            return
        if width == 2:
            self.cells.pop((self.row, self.col + 1), None)
        self.cells[(self.row, self.col)] = (letter, self.style)
        self.col += width


def cells_of_rows(rows: Iterable[str]) -> PaintedCells:
    """Return the cells of rows that tmux captured, in which a style continues into the next row."""
    shown = PaintedCells()
    for row, text in enumerate(rows, 1):
        shown.row, shown.col = row, 1
        shown.fed(text)
    return shown


def width_of(letter: str) -> int:
    """Return the columns of a character."""
    if unicodedata.category(letter) in ("Mn", "Me", "Cf"):
        return 0
    return 2 if unicodedata.east_asian_width(letter) in "WF" else 1
