"""The last row of a terminal: a prompt, a message, or else the panes and windows."""
from __future__ import annotations

from roam_live.common import tty
from roam_live.common.event_loop import Loop
from roam_live.config.styled_text import ROW_STYLE, Styled
from roam_live.frontend.outer_terminal import OuterTerminal
from roam_live.frontend.shown_part import ShownPart
from roam_live.frontend.sizes import NO_SIZE
from roam_live.frontend.status_line import (ALL_PANES, BETWEEN, SYNCHRONIZED, ZOOMED, clipped, columns, fitted, label_at, row_text, said,
                                            tail)

TYPE_CHECKING = False
if TYPE_CHECKING:
    from collections.abc import Callable

# Seconds for which a message is shown in the last row.
TOLD = 1.0


def row_parts(panes: str, windows: tuple[list[str], int], warning: str, fits: str, ends: tuple[list[Styled], list[Styled]],
              width: int) -> tuple[list[Styled], str, list[Styled]]:
    """Return the parts of a row without a message: the labels of panes and windows, between the status texts of a settings file.

    Those are cut to a third and to half of the row. The right one is empty beside the key that fits the session to the terminal.
    """
    left, right = clipped(ends[0], width // 3), clipped(ends[1], 0 if fits else width // 2)
    room = width - columns(said(left)) - columns(said(right))
    return left, row_text(panes, *windows, BETWEEN.join(text for text in (warning, fits) if text), room), right


def row_cells(parts: tuple[list[Styled], str, list[Styled]], text: str, is_typed: bool, width: int) -> list[Styled]:
    """Return the row's styled parts, padded to its width: the given parts, or one in reverse video.

    In a typed line the cursor's cell is not reversed.
    """
    left, middle, right = parts
    if (left or right) and text == said(left) + middle + said(right):
        return [*left, Styled(ROW_STYLE, middle), *right]
    if not is_typed:
        return [Styled(ROW_STYLE, fitted(text, width))]
    shown = tail(text, width - 1)
    return [Styled(ROW_STYLE, shown), Styled("27", " "), Styled("7", fitted("", width - 1 - columns(shown)))]


class LastRow:
    """The contents of one terminal's last row. A call returns True while a notice covers the session."""

    def __init__(self, outer: OuterTerminal, loop: Loop, part: ShownPart, is_covered: Callable[[], bool]) -> None:
        self.outer, self.loop, self.part, self.is_covered = outer, loop, part, is_covered
        # The message; the seconds since the server was last heard; and the labels of the panes.
        self.told = ""
        self.silent = 0
        self.labels = ""
        # The prompt, which has precedence over messages, and a flag for a typed line.
        self.prompt, self.is_typed = "", False
        # The labels of the windows, and the index of the current one.
        self.windows: tuple[list[str], int] = ([], 0)
        # The status texts of a settings file for both ends, if any, and their last values.
        self.status: Callable[[], tuple[list[Styled], list[Styled]]] | None = None
        self.parts: tuple[list[Styled], str, list[Styled]] = ([], "", [])
        # True if keys go to all panes of the window.
        self.is_synchronized = False
        # The line for an open popup, and a flag for a prompt.
        self.popup_line, self.is_popup_asking = "", False
        # The hints about the keys that fit the session to this terminal and that leave; and the warning for the user.
        self.fits_line = self.leaves_line = self.warning = ""
        # The current line, and its position.
        self.line_put: tuple[str, int, int] | None = None

    def name_keys(self, prefix: str, is_read_only: bool) -> None:
        """Set the prefix for hints about the keys that fit the session to the terminal and that leave."""
        self.fits_line = "" if is_read_only else f"{prefix} r fits"
        self.leaves_line = f"{prefix} d leaves"

    # ---- contents

    def line(self) -> str:
        """Return the line: the first of the prompt, the message, the server's silence, the popup's line, and the panes and windows.

        Return "" while the session's own status row is there.
        """
        part = self.part
        if self.prompt or self.is_popup_asking:
            return self.prompt or self.popup_line
        if self.told:
            return self.told
        if self.silent:
            return "; ".join(filter(None, (f"roam: no answer for {self.silent} s", self.leaves_line)))
        if self.popup_line:
            return self.popup_line
        if part.asked is None or not part.has_row():
            # The session's own status row is there, which does not show this.
            return ALL_PANES if self.is_synchronized and part.asked is None else ""
        return self.labels_line(self.outer.size()[1])

    def panes_label(self) -> str:
        """Return the labels of the panes, with marks for a zoom and for keys to all panes."""
        flags = ZOOMED * (self.part.zoomed is not None) + SYNCHRONIZED * self.is_synchronized
        return f"{self.labels.rstrip()} {flags}" if flags and self.labels else self.labels

    def labels_line(self, width: int) -> str:
        """Return the labels of the panes and of the windows, between the status texts of a settings file."""
        is_all = self.part.shows_all()
        left, right = self.status() if self.status else ([], [])
        ends, fits = (left, right if is_all else []), "" if is_all else self.fits_line
        self.parts = row_parts(self.panes_label(), self.windows, self.warning, fits, ends, width)
        return said(self.parts[0]) + self.parts[1] + said(self.parts[2])

    def window_at(self, row: int, col: int) -> int | None:
        """Return the index of the window whose label is at a row and a column of the terminal, from 1; None if there is none."""
        rows, width = self.outer.size()
        line = self.labels_line(width)
        if row != rows or self.is_covered() or self.part.asked is None or self.line() != line:
            return None
        left, middle, _ = self.parts
        return label_at(middle, self.windows[0], len(self.panes_label()), col - columns(said(left)))

    def line_text(self, text: str, width: int) -> str:
        """Return the row as written to the terminal."""
        cells = row_cells(self.parts, text, self.is_typed and text == self.prompt, width)
        return "".join(f"\x1b[{style}m{shown}" for style, shown in cells) + "\x1b[0m"

    # ---- output

    def put(self, is_over: bool = False) -> None:
        """Write the line after a painting if it has changed; over a painting, write it in any case."""
        text, part, popup = self.line(), self.part, self.part.popup
        if self.is_covered() or not text:
            return
        rows, width = self.outer.size()
        row = rows
        if part.asked is None and part.painted_size != NO_SIZE:
            row, width = min(part.painted_size[0], rows), min(part.painted_size[1], width)
        if is_over or self.line_put != (text, row, width):
            self.line_put = text, row, width
            written = tty.unwrapped(f"\x1b[{row};1H{self.line_text(text, width)}")
            self.outer.write(written + popup.placed() if popup and popup.is_placed else b"\x1b7" + written + b"\x1b8")

    def change(self) -> None:
        """Show another line. If the session's own status row is there, repaint everything."""
        if self.line() or self.is_covered():
            self.put()
        else:
            self.part.repaint()

    def say(self, line: str, is_asking: bool = False) -> None:
        """Show a line while a popup is open, unless there is a message. A prompt has precedence."""
        self.popup_line, self.is_popup_asking = line, is_asking
        self.change()

    def ask(self, text: str, is_typed: bool = False) -> None:
        """Show a prompt until it is answered."""
        self.prompt, self.is_typed = text, is_typed
        self.put()

    def end_prompt(self) -> None:
        """Remove the prompt."""
        if self.prompt:
            self.prompt, self.is_typed = "", False
            self.change()

    def tell(self, text: str, seconds: float | None = TOLD) -> None:
        """Show a message, for some seconds, or until it is removed."""
        self.told = text
        self.put()
        if seconds:
            self.loop.later("told", seconds, self.end_told)
        else:
            self.loop.drop("told")

    def end_told(self) -> None:
        """Remove the message."""
        self.loop.drop("told")
        if self.told:
            self.told = ""
            self.change()
