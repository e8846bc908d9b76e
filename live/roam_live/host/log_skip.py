"""Rows that a log reader has got, and that were withdrawn from the scrollback: they leave once more, wrapped at another width."""
from __future__ import annotations

from roam_live.common.cell_widths import width_of

# A row that the next one continues begins so.
GOES_ON = b"+"

# More columns than a row has.
MANY = 1 << 20


def without(row: bytes, columns: int) -> tuple[bytes, int]:
    """Return a row without so many of its first columns, and the number of columns that it lacks. Styles stay."""
    text, kept = row[1:].decode("utf-8", "replace"), []
    for place, part in enumerate(text.split("\x1b[")):
        style, mark, letters = part.partition("m") if place else ("", "", part)
        kept.append(f"\x1b[{style}{mark}" if place else "")
        for at, letter in enumerate(letters):
            if columns <= 0:
                kept.append(letters[at:])
                break
            columns -= width_of(letter)
    return row[:1] + "".join(kept).encode(), max(columns, 0)


class LogSkip:
    """The part of the coming rows that a log reader has got already: whole lines, and the first columns of the line after them."""

    def __init__(self) -> None:
        self.lines = self.columns = 0

    def add(self, rows: list[bytes]) -> None:
        """Take rows that are withdrawn, and that the reader has got. They come before the part so far."""
        lines = columns = 0
        for row in rows:
            if row[:1] == GOES_ON:
                columns += MANY - without(row, MANY)[1]
            else:
                lines, columns = lines + 1, 0
        if not self.lines:
            self.columns += columns
        self.lines += lines

    def rest(self, rows: list[bytes]) -> list[bytes]:
        """Return the rows, from the first one on that the reader lacks."""
        for place, row in enumerate(rows):
            if not self.lines and not self.columns:
                return rows[place:]
            if self.lines:
                self.lines -= row[:1] != GOES_ON
                continue
            row, self.columns = without(row, self.columns)
            if not self.columns:
                return ([row] if len(row) > 1 else []) + rows[place + 1 :]
            if row[:1] != GOES_ON:
                self.columns = 0
        return []
