"""The display of copy mode: its painted lines, its cursor, and its line in the last row.

Lines are built from cells and styles, so that no output of the scrollback process reaches the terminal unchanged.
"""
from __future__ import annotations

import functools
import itertools

from roam_live.common.cell_widths import width_of
from roam_live.frontend.copymode.mode import CopyMode
from roam_live.frontend.copymode.rows import LEAST_COLS, Line, Missing, ScrollbackRow
from roam_live.frontend.copymode.search import Match, matches
from roam_live.frontend.copymode.state import CopyState
from roam_live.frontend.popup import Popup
from roam_live.protocol.panes import Rect
from roam_live.protocol.screen_cells import FLAGS, Colour, Style

NUMBERS = {name: number for number, name in FLAGS.items()}

# The style of matches, and of the one at the cursor.
MATCH, CURRENT = Style(frozenset(), 0, 6), Style(frozenset(), 0, 5)

REVERSE = "reverse"

# The rest of a line is blank in the default style.
PLAIN = Style()


def colour_numbers(colour: Colour, short: int, bright: int, long: str) -> list[str]:
    """Return the SGR numbers that set a colour."""
    if colour is None:
        return []
    if isinstance(colour, int):
        return [str(short + colour)] if colour < 8 else [str(bright + colour - 8)] if colour < 16 else [long, "5", str(min(colour, 255))]
    return [long, "2", *(str(min(part, 255)) for part in colour)]


@functools.lru_cache(maxsize=1024)
def sgr_of(style: Style) -> str:
    """Return the SGR sequence that sets a style after any other."""
    numbers = ["0", *(str(NUMBERS[flag]) for flag in sorted(style.flags, key=lambda flag: NUMBERS[flag]))]
    numbers += colour_numbers(style.foreground, 30, 90, "38") + colour_numbers(style.background, 40, 100, "48")
    return f"\x1b[{';'.join(numbers)}m"


@functools.lru_cache(maxsize=1024)
def reversed_of(style: Style) -> Style:
    """Return the style of selected text: with reverse video toggled."""
    return style._replace(flags=style.flags ^ {REVERSE})


class LinePainter:
    """Paints lines of copy mode, from a column of the terminal on, from 1, each at a width."""

    def __init__(self, mode: CopyMode, first: int, cols: int) -> None:
        self.mode, self.first, self.cols = mode, first, cols
        self.selected = mode.selected()
        self.found: dict[int, list[Match]] = {}

    def styles(self, row: int, content: ScrollbackRow, begin: int, end: int) -> list[Style]:
        """Return the styles of columns, with matches and the selection highlighted."""
        styles = content.styles[begin:end]
        styles += [PLAIN] * (end - begin - len(styles))
        for match in self.found[row]:
            (first, low), (last, high) = match
            style = CURRENT if match == self.mode.match else MATCH
            for col in range(max(begin, low if first == row else 0), min(end, high if last == row else end)):
                styles[col - begin] = style
        selected = self.columns(row, content)
        for col in range(max(begin, selected[0]), min(end, selected[1])) if selected else ():
            styles[col - begin] = reversed_of(styles[col - begin])
        return styles

    def columns(self, row: int, content: ScrollbackRow) -> tuple[int, int] | None:
        """Return the selected columns of a row, with both halves of a cut wide character."""
        columns = self.selected.of(row) if self.selected else None
        if not columns or columns[0] >= columns[1]:
            return None
        begin, end = columns
        return begin - content.is_right_half(begin), end + content.is_right_half(end)

    def line(self, line: Line) -> bytes:
        """Return the text of a line."""
        row = line[0]
        content = self.mode.rows.row(row)
        if row not in self.found:
            # As far as the neighbouring rows are here.
            self.found[row] = matches(self.mode.rows, row, self.mode.sought, True) if self.mode.is_marked else []
        begin, end = self.mode.rows.span_of(line)
        end = min(end, begin + self.cols)
        letters = [content.at(col) for col in range(begin, end)]
        # A cut wide character has no room for both halves.
        for at, is_cut in ((0, letters[0] == ""), (-1, content.is_right_half(end))):
            letters[at] = " " if is_cut else letters[at]
        parts, at = [], 0
        for style, same in itertools.groupby(self.styles(row, content, begin, end)):
            behind = at + len(list(same))
            parts += [sgr_of(style), self.text(letters, at, behind)]
            at = behind
        return "".join([*parts, sgr_of(PLAIN), " " * (self.cols - (end - begin))]).encode("utf-8", "replace")

    def text(self, letters: list[str], begin: int, end: int) -> str:
        """Return the text of a line's columns.

        The terminal may use another width for non-ASCII characters, so text after one is positioned explicitly.
        """
        text = "".join(letters[begin:end])
        if text.isascii():
            return text
        behind = [next((other for other in range(col + 1, end) if letters[other]), end) for col in range(begin, end)]
        return "".join(letter if letter.isascii() else f"{letter}\x1b[{self.first + behind[at]}G"
                       for at, letter in enumerate(letters[begin:end]))

    def lines(self, height: int) -> list[bytes]:
        """Return the text of each of so many lines, blank if there is none."""
        found = [self.line(line) for line in self.mode.view.lines()]
        blank = sgr_of(PLAIN).encode() + b" " * self.cols
        return found + [blank] * (height - len(found))


class CopyScreen:
    """The display of one user's copy mode."""

    def __init__(self, state: CopyState) -> None:
        self.state, self.display = state, state.acts.display

    def visible(self, pane: int) -> Rect | None:
        """Return the visible rectangle of a pane on the terminal; None if no character of it is visible."""
        places = self.state.acts.panes.places
        rect = places.rects.get(pane) if places else None
        shown = self.display.part.visible(rect) if rect else None
        return shown if shown and shown.cols >= LEAST_COLS else None

    def lay(self) -> None:
        """Draw it over its rectangle."""
        self.display.lay(Popup(self.state.rect, self.lines, self.cursor))
        self.say()

    def lines(self) -> list[bytes]:
        """Return the text of each row of its rectangle."""
        mode, blank = self.state.mode, b"\x1b[0m" + b" " * self.state.rect.cols
        try:
            found = LinePainter(mode, self.state.rect.col, self.state.rect.cols).lines(self.state.rect.rows) if mode else []
        except Missing:
            # They come soon, and then everything is drawn.
            found = []
        return (found + [blank] * self.state.rect.rows)[: self.state.rect.rows]

    def cursor(self) -> tuple[int, int]:
        """Return the position of the terminal's cursor: in the last row while a line is typed there."""
        mode, (rows, cols) = self.state.mode, self.display.outer.size()
        if mode and mode.prompt:
            return rows, min(sum(map(width_of, mode.prompt.line())) + 1, cols)
        try:
            row, col = mode.view.cursor() if mode else (0, 0)
        except Missing:
            row, col = 0, 0
        return self.state.rect.row + min(row, self.state.rect.rows - 1), self.state.rect.col + min(col, self.state.rect.cols - 1)

    def line(self) -> str:
        """Return the line in the last row: the prompt, or the status.

        The status has the number of rows below the view, the total, the new rows, a count, and the message for the last key.
        """
        mode = self.state.mode
        if not mode or mode.prompt:
            return mode.prompt.line() if mode and mode.prompt else ""
        try:
            back, most = mode.view.back()
        except Missing:
            return self.display.row.popup_line
        came = f"{self.state.came} new row{'s' * (self.state.came != 1)}" if self.state.came else ""
        count = f"(repeat) {mode.count.digits}" if mode.count.digits else ""
        return "; ".join(filter(None, (f"[{back}/{most}] copy mode", came, count, mode.told)))

    def say(self) -> None:
        """Show that line, a prompt with precedence."""
        mode = self.state.mode
        self.display.row.say(self.line(), is_asking=mode is not None and mode.prompt is not None)

    def draw(self) -> None:
        """Draw the changes."""
        self.say()
        self.display.draw()
