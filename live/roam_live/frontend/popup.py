"""A popup that the front end draws over part of a painting, with its own cursor. A mask keeps paintings out of it."""
from __future__ import annotations

from roam_live.protocol.panes import Rect

TYPE_CHECKING = False
if TYPE_CHECKING:
    from collections.abc import Callable, Iterable

# The cursor and its style after a painting are saved, and restored before the next one (DECSC, DECRC).
KEPT, BACK = b"\x1b7", b"\x1b8"


def put_at(row: int, col: int) -> bytes:
    """Return the sequence that moves the cursor to a row and a column of the terminal, from 1, and shows it."""
    return b"\x1b[%d;%dH\x1b[?25h" % (row, col)


class Popup:
    """Lines in a rectangle of the terminal that no painting reaches. Calls return the text of each row, and the cursor's position from 1.
    """

    def __init__(self, rect: Rect, lines: Callable[[], Iterable[bytes]], cursor: Callable[[], tuple[int, int]]) -> None:
        self.rect, self.lines, self.cursor = rect, lines, cursor
        # The texts now in its rows, as far as known; and True if the cursor is its own.
        self.shown: list[bytes] = []
        self.is_placed = False

    def lifted(self) -> bytes:
        """Return the sequence before a painting: it puts the cursor back to the painting's position."""
        was_placed, self.is_placed = self.is_placed, False
        return BACK if was_placed else b""

    def laid(self, is_anew: bool = False) -> bytes:
        """Return the output after a painting or a change: the changed lines, and the cursor. After a full repaint, all lines."""
        parts = [] if self.is_placed else [KEPT]
        before, self.shown = [] if is_anew else self.shown, list(self.lines())
        for number, line in enumerate(self.shown):
            if number >= len(before) or before[number] != line:
                parts.append(b"\x1b[%d;%dH%b" % (self.rect.row + number, self.rect.col, line))
        self.is_placed = True
        return b"".join(parts) + self.placed()

    def placed(self) -> bytes:
        """Return the sequence that moves the cursor to its place in the popup."""
        return put_at(*self.cursor())

    def forget(self) -> None:
        """Forget the contents of the terminal."""
        self.shown, self.is_placed = [], False
