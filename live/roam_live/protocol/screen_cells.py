"""The cells of a screen as a client process sends them: the text of each, and the SGR sequence before it."""
from __future__ import annotations

from typing import NamedTuple, Optional, Union

from roam_live.protocol.display_records import NoRecord, screen_of

TYPE_CHECKING = False
if TYPE_CHECKING:
    from collections.abc import Iterable

    from roam_live.protocol.panes import Rect

FLAGS = {1: "bold", 2: "faint", 3: "italic", 4: "underline", 5: "blink", 7: "reverse", 8: "conceal", 9: "strike"}


# The tens of the numbers that are colours, and the index of the first.
GROUNDS = {3: ("foreground", 0), 4: ("background", 0), 9: ("foreground", 8), 10: ("background", 8)}


# A colour: an index, red, green and blue, or None for the default.
Mixture = tuple[int, int, int]
Colour = Optional[Union[int, Mixture]]


class Style(NamedTuple):
    """A style: its flags, and its colours."""

    flags: frozenset[str] = frozenset()
    foreground: Colour = None
    background: Colour = None


class ShownCells:
    """A screen's cells by row and column from 1, each with its text and style, and the cursor.

    The right half of a wide character is empty.
    """

    def __init__(self, rows: int, cols: int) -> None:
        self.rows, self.cols = rows, cols
        self.cells: dict[tuple[int, int], tuple[str, Style]] = {}
        self.row = self.col = 1
        self.has_cursor = True


def cells_of(data: bytes) -> ShownCells:
    """Return the cells of a record's data; NoRecord if they form no screen."""
    screen = screen_of(data)
    shown = ShownCells(screen.rows, screen.cols)
    shown.row, shown.col = screen.cursor
    shown.has_cursor = screen.visible
    for row, texts in enumerate(screen.cells, 1):
        style = Style()
        for col, text in enumerate(texts, 1):
            letters, style = parted(text, style)
            shown.cells[row, col] = letters, style
    return shown


def parted(text: str, style: Style) -> tuple[str, Style]:
    """Return a cell's text and style: that of the cell before, changed by the SGR sequence at its start."""
    while text.startswith("\x1b["):
        numbers, final, text = text[2:].partition("m")
        words = numbers.split(";")
        if not final or not all(word.isascii() and word.isdigit() and len(word) < 5 for word in filter(None, words)):
            raise NoRecord("a style that is none")
        style = styled(style, [int(word or 0) for word in words])
    return text, style


def sgr_of(text: str) -> str:
    """Return the SGR sequence in front of a cell's text."""
    found = ""
    while text.startswith("\x1b["):
        numbers, final, text = text.partition("m")
        found += numbers + final
    return found


def part_of(data: bytes, rect: Rect) -> bytes:
    """Return a part of a screen in the form of a record. Its first cells repeat the style in effect before them."""
    screen = screen_of(data)
    row, col = screen.cursor[0] - rect.row + 1, screen.cursor[1] - rect.col + 1
    is_visible = screen.visible and 1 <= row <= rect.rows and 1 <= col <= rect.cols
    place = f"{row} {col} visible" if is_visible else "1 1 hidden"
    lines = [f"{rect.rows} {rect.cols} {place}"]
    for cells in screen.cells[rect.row - 1 : rect.row - 1 + rect.rows]:
        before = "".join(map(sgr_of, cells[: rect.col - 1]))
        lines.append(before + "\x1f".join(cells[rect.col - 1 : rect.col - 1 + rect.cols]))
    return "".join(f"{line}\n" for line in lines).encode()


def styled(style: Style, numbers: Iterable[int]) -> Style:
    """Return a style after the numbers of an SGR sequence."""
    left = list(numbers)
    while left:
        number = left.pop(0)
        if number == 0:
            style = Style()
        elif number in FLAGS:
            style = style._replace(flags=style.flags | {FLAGS[number]})
        elif number in (38, 48):
            style = with_colour(style, "foreground" if number == 38 else "background", colour_of(left))
        else:
            style = with_short(style, number)
    return style


def with_colour(style: Style, ground: str, colour: Colour) -> Style:
    """Return a style with another foreground or background colour."""
    return style._replace(foreground=colour) if ground == "foreground" else style._replace(background=colour)


def with_short(style: Style, number: int) -> Style:
    """Return a style after an SGR number that is a colour, the default one or another plain number."""
    tens, digit = divmod(number, 10)
    if tens in GROUNDS and digit in (*range(8), 9):
        ground, first = GROUNDS[tens]
        return with_colour(style, ground, None if digit == 9 else first + digit)
    if number == 22:
        return style._replace(flags=style.flags - {"bold", "faint"})
    return style._replace(flags=style.flags - {FLAGS[digit]}) if tens == 2 and digit in FLAGS else style


def colour_of(numbers: list[int]) -> Colour:
    """Remove and return the colour in the numbers after 38 or 48."""
    kind, *rest = numbers[:4] + [0] * 4
    del numbers[: 2 if kind == 5 else 4]
    return rest[0] if kind == 5 else (rest[0], rest[1], rest[2])
