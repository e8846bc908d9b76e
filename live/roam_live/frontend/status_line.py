"""The text of a terminal's last row, cut to its columns: the panes' labels, the windows, and the text at its end."""
from __future__ import annotations

from roam_live.common.cell_widths import width_of
from roam_live.common.text import printable
from roam_live.config.styled_text import Styled

# The marks before and after hidden windows, and the separator.
BEFORE, BEHIND, BETWEEN = "< ", " >", " "

# The mark of a focused pane that fills the terminal.
ZOOMED = "Z"

# The mark while keys go to all panes of the window.
SYNCHRONIZED = "S"
ALL_PANES = "keys go to all panes of this window"

# A text has at most so many characters for each column, since zero-width characters share one.
MOST_LETTERS = 4


def columns(text: str) -> int:
    """Return the columns of a printable text."""
    return len(text) if text.isascii() else sum(map(width_of, text))


def cut(text: str, width: int) -> str:
    """Return a text made printable and cut to a width. A wide character that does not fit is dropped."""
    text = printable(text[: MOST_LETTERS * max(width, 0)])
    if text.isascii():
        return text[: max(width, 0)]
    used = 0
    for place, letter in enumerate(text):
        used += width_of(letter)
        if used > width:
            return text[:place]
    return text


def fitted(text: str, width: int) -> str:
    """Return a text as a row of this width: cut, or padded with blanks."""
    shown = cut(text, width)
    return shown + " " * (width - columns(shown))


def tail(text: str, width: int) -> str:
    """Return the end of a text within a width, printable."""
    text = printable(text[-MOST_LETTERS * max(width, 1) :])
    while columns(text) > max(width, 0):
        text = text[1:]
    return text


def clipped(styled: list[Styled], width: int) -> list[Styled]:
    """Return styled texts cut to a width."""
    found: list[Styled] = []
    for style, text in styled:
        shown = cut(text, width)
        found += [Styled(style, shown)] if shown else []
        width -= columns(shown)
        if shown != text:
            break
    return found


def said(styled: list[Styled]) -> str:
    """Return the plain text of styled texts."""
    return "".join(text for _, text in styled)


def window_label(number: int, name: str, flags: str) -> str:
    """Return a window's label in the last row, such as `2:vim*`."""
    return f"{number}{':' if name else ''}{name}{flags}"


def windows_shown(labels: list[str], current: int, width: int) -> str:
    """Return the labels of the windows at a width: all, or those around one index, with marks for the hidden ones."""
    text = BETWEEN.join(labels)
    if columns(text) <= width or not labels:
        return cut(text, width)
    first, end = current, current + 1
    while True:
        wider = [(a, b) for a, b in ((first, end + 1), (first - 1, end)) if a >= 0 and b <= len(labels)]
        room = next((one for one in wider if columns(marked(labels, *one)) <= width), None)
        if room is None:
            break
        first, end = room
    shown = marked(labels, first, end)
    return shown if columns(shown) <= width else cut(labels[current], width)


def marked(labels: list[str], first: int, end: int) -> str:
    """Return some of the labels, with a mark on each side that has others."""
    return (BEFORE if first else "") + BETWEEN.join(labels[first:end]) + (BEHIND if end < len(labels) else "")


def label_at(text: str, labels: list[str], begin: int, col: int) -> int | None:
    """Return the index of the label at a column of a row, from 1; None if none is shown whole there. Labels begin at a character of the
    row.
    """
    for place, label in enumerate(labels):
        at = text.find(label, begin)
        while at > 0 and text[at - 1] != " " or at >= 0 and text[at + len(label) : at + len(label) + 1] not in ("", " "):
            at = text.find(label, at + 1)
        if at < 0:
            continue
        first = columns(text[:at]) + 1
        if first <= col < first + columns(label):
            return place
        begin = at + len(label)
    return None


def row_text(panes: str, labels: list[str], current: int, end: str, width: int) -> str:
    """Return the row: the labels of the panes, those of the windows, and the text at the end.

    The end has precedence, and the panes have precedence over the windows.
    """
    end = end if columns(end) <= width else ""
    left = width - columns(end) - bool(end)
    if columns(panes) > left:
        return (fitted(panes, width) if not end else " " * (left + 1) + end)
    room = left - columns(panes) - bool(panes)
    windows = windows_shown(labels, current, room) if labels and room > 0 else ""
    text = panes + (BETWEEN if panes and windows else "") + windows
    return fitted(text, width - columns(end)) + end
