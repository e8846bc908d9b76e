"""The view of a snapshot's rows in copy mode: its lines, the cursor among them, and their moves."""
from __future__ import annotations

import copy

from roam_live.frontend.copymode.motions import line_end
from roam_live.frontend.copymode.rows import Line, Position, Rows
from roam_live.frontend.copymode.selection import Selection


class CopyView:
    """The lines in view from a top one on, the cursor's position, and the selection. Its calls are those of tmux's copy mode."""

    def __init__(self, rows: Rows, height: int) -> None:
        self.rows, self.height = rows, height
        self.top: Line = (rows.first, 0)
        self.position: Position = (rows.first, 0)
        # The column that vertical moves return to in long enough lines. Then the line's length when it was set.
        self.wanted, self.wanted_of = 0, 0
        self.selection: Selection | None = None
        self.is_block = False

    def copied(self) -> CopyView:
        """Return an independent copy."""
        other = copy.copy(self)
        other.selection = self.selection.copied() if self.selection else None
        return other

    # ---- position

    def lowest_top(self) -> Line:
        """Return the top line at which the last line is at the bottom."""
        return self.rows.above((self.rows.last(), len(self.rows.begins(self.rows.last())) - 1), self.height - 1)

    def line(self) -> Line:
        """Return the cursor's line."""
        return self.rows.line_of(self.position)

    def lines(self) -> list[Line]:
        """Return the visible lines."""
        return self.rows.lines_from(self.top, self.height)

    def cursor(self) -> tuple[int, int]:
        """Return the cursor's position in the view: a line and a column, from 0."""
        line = self.line()
        return self.depth(), min(self.position[1] - self.rows.span_of(line)[0], self.rows.cols - 1)

    def depth(self) -> int:
        """Return the distance of the cursor below the top, in lines."""
        line, lines = self.line(), self.lines()
        return lines.index(line) if line in lines else 0

    def back(self) -> tuple[int, int]:
        """Return the number of rows below the view, and its highest value."""
        lowest = self.lowest_top()[0]
        return max(0, lowest - self.top[0]), lowest - self.rows.first

    def is_lowest(self) -> bool:
        """Return True if the last line is in view."""
        return self.top >= self.lowest_top()

    # ---- moves

    def go(self, position: Position) -> None:
        """Move the cursor to a position, and scroll as little as necessary."""
        self.position = position
        line = self.line()
        if line < self.top:
            self.top = line
        elif line > self.rows.below(self.top, self.height - 1):
            self.top = self.rows.above(line, self.height - 1)

    def jump(self, position: Position) -> None:
        """Move the cursor to a position. If that was out of view, it is shown a quarter above the bottom."""
        self.position = position
        line = self.line()
        if line not in self.lines():
            _, above = self.rows.up(line, self.height)
            over = min(self.height - self.height // 4, self.height - 1)
            self.top = self.rows.first_line() if above < self.height else self.rows.above(line, over)
            self.top = min(self.top, self.lowest_top())

    def want_column(self) -> None:
        """Remember the column for vertical moves, unless the cursor is at the end of its line."""
        line = self.line()
        col, length = self.position[1] - self.rows.span_of(line)[0], self.rows.line_length(line)
        if col != length:
            self.wanted, self.wanted_of = col, length

    def is_free(self) -> bool:
        """Return True if the cursor stays within the characters of its line. In a block selection it may leave them."""
        return self.selection is None or not self.is_block

    def put_on(self, line: Line, col: int, is_clamped: bool = True) -> None:
        """Move the cursor to a line and a column within its characters, or to the end if it was there."""
        begin, length = self.rows.span_of(line)[0], self.rows.line_length(line)
        if is_clamped and (col >= self.wanted_of and col != length or col > length):
            col = length
        self.position = line[0], begin + col

    def step(self, by: int, scrolls: bool = False) -> None:
        """Move a line up or down; or scroll by one, with the cursor at its place in the view."""
        is_free, rows = self.is_free(), self.rows
        if is_free:
            self.want_column()
        selection, line = self.selection, self.line()
        if selection and selection.keeps == ("end" if by < 0 else "begin") and line[0] == selection.fixed()[0]:
            self.other_end()
            line = self.line()
        # The cursor's column on its line, or the remembered one.
        col, depth = self.wanted if self.is_free() else self.position[1] - rows.span_of(line)[0], self.depth()
        if by < 0 and (scrolls or depth == 0):
            self.top = rows.above(self.top)
            line = rows.below(self.top, depth)
        elif by > 0 and (scrolls or depth == self.height - 1):
            self.top = max(self.top, min(rows.below(self.top), self.lowest_top()))
            line = rows.below(self.top, depth)
        else:
            line = rows.below(line) if by > 0 else rows.above(line)
        self.put_on(line, col, is_free)
        if selection and selection.keeps:
            length = rows.cols if self.is_block else rows.line_length(line)
            self.position = line[0], rows.span_of(line)[0] + (length if selection.keeps == "end" else 0)

    def page(self, by: int, is_half: bool = False) -> None:
        """Move a page up or down, less two lines, or half of one."""
        self.want_column()
        rows, depth, wanted = self.rows, self.depth(), self.wanted
        count = 1 if self.height <= 2 else self.height // 2 if is_half else self.height - 2
        if by < 0:
            top, moved = rows.up(self.top, count)
            if moved < count:
                depth = max(0, depth - count)
        else:
            lowest = self.lowest_top()
            top, moved = rows.down(self.top, count)
            if moved < count or top > lowest:
                top = max(lowest, self.top)
                depth = min(self.height - 1, depth + count)
        self.top = top
        line = rows.below(top, depth)
        self.put_on(line, wanted, False)
        length = rows.line_length(line)
        if self.is_free() and (wanted >= self.wanted_of and wanted != length or wanted > length):
            self.go(line_end(rows, self.position))

    def put_at(self, depth: int, col: int = 0) -> None:
        """Move the cursor to a visible line, at a column within its characters."""
        lines = self.lines()
        line = lines[max(0, min(depth, len(lines) - 1))]
        begin, _ = self.rows.span_of(line)
        col = max(0, col) if self.is_block and self.selection else max(0, min(col, self.rows.line_length(line)))
        self.position = line[0], begin + col

    def go_top(self) -> None:
        """Go to the first row."""
        turn_where(self, "end")
        self.top = self.rows.first_line()
        self.position = self.top[0], 0

    def go_bottom(self) -> None:
        """Go to the end of the last row."""
        turn_where(self, "begin")
        self.top = self.lowest_top()
        self.position = self.rows.last(), self.rows.length(self.rows.last())

    def go_back(self, count: int) -> None:
        """Show the lines so many rows above the last, with the cursor at its place in the view."""
        depth, col = self.depth(), self.position[1] - self.rows.span_of(self.line())[0]
        self.top = self.rows.above(self.lowest_top(), count)
        self.put_at(depth, col)

    # ---- the selection

    def other_end(self) -> None:
        """Move the cursor to the other end of the selection."""
        if self.selection:
            self.go(self.selection.turn())

    def follow(self) -> None:
        """Extend the selection to the cursor."""
        if self.selection:
            self.selection.follow(self.rows, self.position)

    def clamp(self) -> None:
        """Keep the cursor at most after the last character of its row."""
        self.position = self.position[0], min(self.position[1], self.rows.length(self.position[0]))

    def clear_selection(self) -> None:
        """Clear the selection."""
        self.selection = None
        self.clamp()


def turn_where(view: CopyView, keeps: str) -> None:
    """Move the cursor to the other end of selected lines, if it sticks to this end and is on the row of their fixed end."""
    selection = view.selection
    if selection and selection.keeps == keeps and view.position[0] == selection.fixed()[0]:
        view.other_end()
