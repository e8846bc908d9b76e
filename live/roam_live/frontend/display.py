"""The contents of a user's terminal: a painted part of a session, or lines in its place, and a line in the last row."""
from __future__ import annotations

from roam_live.common import tty
from roam_live.common.event_loop import Loop
from roam_live.common.text import printable
from roam_live.frontend import sizes
from roam_live.frontend.last_row import LastRow
from roam_live.frontend.outer_terminal import OuterTerminal
from roam_live.frontend.popup import Popup
from roam_live.frontend.shown_part import ShownPart
from roam_live.frontend.status_line import cut
from roam_live.protocol.display_records import DisplayRecord
from roam_live.protocol.panes import Rect

TYPE_CHECKING = False
if TYPE_CHECKING:
    from collections.abc import Callable

# During a resize by mouse a terminal is repainted once in so many seconds at most.
DRAWN = 0.05

# Seconds after which the rest of the previous window is erased if the new one is not painted yet.
ENTERS = 0.15

TOO_SMALL = "too small"


class Display:
    """The display on a terminal: a painted part of a session, and a line of the front end in the last row.

    If the session is shown whole, with its status row, messages cover that row. A client sends whole records, so nothing is ever written
    into the middle of a painting, and paintings are not parsed.
    """

    def __init__(self, loop: Loop, says: Callable[[str], object]) -> None:
        self.outer, self.loop, self.says = OuterTerminal(), loop, says
        self.part = ShownPart(self.outer, loop, says, self.choose)
        self.row = LastRow(self.outer, loop, self.part, lambda: bool(self.notice) or self.is_entering)
        # The text in place of the session, its first visible line, the last possible first one, and the note about it in the last row.
        self.notice = self.notice_foot = ""
        self.notice_first = self.notice_most = 0
        # True while the terminal still shows the previous window.
        self.is_entering = False
        # True if the client knows the mask of a popup; and a call for a possible change of the visible part.
        self.is_masked = False
        self.moved: Callable[[], object] = lambda: None
        # True if the next painting may erase the last row.
        self.is_line_lost = False

    # ---- requests

    def begin(self) -> None:
        """Reset the state of paintings for a new client connection."""
        self.part.begin()
        self.row.silent, self.row.line_put, self.is_masked = 0, None, False

    def know(self, size: tty.Size, labels: str, may_be_whole: bool) -> None:
        """Use the known state of the session: its size, the labels of its panes, and whether it may be shown whole."""
        part, before = self.part, self.part.told_size
        part.told_size, self.row.labels, part.may_be_whole = size, labels, may_be_whole
        # In a session that shrank, the view may begin too far down, or too far right.
        self.choose(is_anew=sizes.is_smaller(size, before) and part.place != (0, 0))
        part.mend_place()
        self.row.put()

    def choose(self, is_anew: bool = False, is_painted: bool = False) -> None:
        """Request the wanted view if it differs from the last request. Otherwise request it anew, or a repaint, if needed."""
        rows, cols = self.outer.size()
        if rows < tty.LEAST_SHOWN[0] or cols < tty.LEAST_SHOWN[1]:
            line = "{}: {} by {} is needed".format(TOO_SMALL, *tty.LEAST_SHOWN)
            self.show("\n".join(filter(None, (line, self.row.leaves_line))))
            return
        if self.notice.startswith(TOO_SMALL):
            self.notice, is_painted = "", True
        if self.part.is_held:
            return
        if not self.part.choose(is_anew) and is_painted and not self.notice:
            self.part.repaint()
        self.moved()

    def resettle(self) -> None:
        """Repaint everything, unless a notice covers the session."""
        if not self.notice:
            self.choose(is_painted=True)

    def release(self) -> None:
        """Show new paintings again after a pause."""
        if self.part.is_held:
            self.part.is_held = False
            self.choose(is_anew=True)

    def zoom(self, rect: Rect | None) -> None:
        """Show only this rectangle of the session; None shows the whole session again."""
        self.part.zoomed, self.part.is_held = rect, False
        self.choose(is_anew=True)

    # ---- another window, and the last row

    def begin_window(self) -> None:
        """Reset the state for a new window. The old one stays visible until the new one is painted, or that takes long."""
        self.part.begin_window()
        self.row.labels, self.is_entering = "", True
        self.loop.later("entered", ENTERS, self.blank)

    def blank(self) -> None:
        """Erase the rest of the previous window."""
        self.end_entering()
        if not self.notice:
            self.outer.write(tty.CLEARED)
            self.row.line_put = None
            self.row.put()

    def end_entering(self) -> None:
        """Record that the old window is no longer visible."""
        self.is_entering = False
        self.loop.drop("entered")

    def switch_row(self) -> None:
        """Toggle the last row."""
        self.part.is_row_hidden, self.row.line_put = not self.part.is_row_hidden, None
        self.resettle()

    # ---- records

    def take(self, record: DisplayRecord) -> None:
        """Take a record about the view."""
        if record.word == "size":
            self.take_size((record.numbers[0], record.numbers[1]))
        elif record.word == "part":
            self.part.place, self.part.is_placed = (record.numbers[0], record.numbers[1]), True
            self.moved()
            self.part.mend_place()
        elif record.word in ("paint", "anew"):
            self.take_painting(record)
        elif record.word in ("silent", "heard"):
            self.row.silent = record.numbers[0] if record.numbers else 0
            self.row.change()

    def take_size(self, size: tty.Size) -> None:
        """Take the size of the next paintings."""
        self.part.painted_size, self.is_line_lost = size, True
        if self.part.asked is None:
            self.part.whole_size = size
            self.choose()

    def take_painting(self, record: DisplayRecord) -> None:
        """Take a painting. One that does not fit, or comes before the full repaint, does not reach the terminal, and no reset does."""
        is_anew, part, popup = record.word == "anew", self.part, self.part.popup
        if part.asked is None:
            # A size that was reported before is not reported again.
            part.whole_size = part.painted_size
        if self.notice or part.is_held or not part.fits() or part.is_stale and not is_anew:
            part.is_stale = True
            return
        was_entering = self.is_entering
        if was_entering:
            self.end_entering()
        if popup:
            self.outer.write(popup.lifted())
        self.outer.write(tty.CLEARED + record.data.removeprefix(tty.RESET) if is_anew else record.data)
        is_over = is_anew or self.is_line_lost or part.asked is None or not part.has_row()
        part.is_stale = self.is_line_lost = False
        if is_over or was_entering:
            # Other paintings leave the last row unchanged, and any change of its line writes it.
            self.row.put(is_over)
        if popup:
            self.outer.write(popup.laid(is_anew))

    def shown_at(self, row: int, col: int, is_near: bool = False) -> tuple[int, int] | None:
        """Return the session's cell at a row and a column of the terminal, all from 1.

        None if there is none, as in the last row; with `is_near`, the nearest one.
        """
        if self.notice or self.part.is_stale:
            return None
        return sizes.place_at((row, col), self.part.begins_at(), self.part.painted_size, is_near)

    # ---- popups

    def lay(self, popup: Popup) -> None:
        """Show a popup over part of the view, which stays in place. Everything else is repainted for it."""
        was_masked, self.part.popup = self.is_masked, popup
        if was_masked:
            self.says("unmask")
        else:
            self.part.ask_again()
        self.is_masked = self.part.is_stale = True
        self.says("mask {} {} {} {}".format(popup.rect.row - 1, popup.rect.col - 1, popup.rect.rows, popup.rect.cols))

    def draw(self) -> None:
        """Draw the changes of a popup's lines and cursor."""
        if self.part.popup and not self.notice and not self.part.is_stale:
            self.outer.write(self.part.popup.laid())

    def lift(self) -> None:
        """Remove the popup."""
        self.part.popup, self.row.popup_line, self.row.is_popup_asking = None, "", False
        if self.is_masked:
            self.is_masked = False
            self.says("unmask")
            self.part.is_stale = True
        self.part.ask_again()

    # ---- lines in place of the session

    def show(self, text: str, first: int = 0, foot: str = "") -> None:
        """Show lines in place of the session, from one on if they do not fit. A foot in the last row reports that."""
        self.notice, self.part.is_stale, self.row.line_put, self.notice_foot = text, True, None, foot
        self.end_entering()
        self.forget_drawn()
        lines, self.notice_first, self.notice_most = notice_page(text, self.outer.size(), first, foot)
        self.outer.write(tty.CLEARED + tty.unwrapped("\r\n".join(lines)))

    def uncover(self) -> None:
        """Show the session again."""
        self.notice = ""
        self.outer.write(tty.CLEARED)
        self.choose(is_painted=True)

    def forget_drawn(self) -> None:
        """Record that popups are no longer visible on the terminal."""
        if self.part.popup:
            self.part.popup.forget()

    def enter_again(self) -> None:
        """Take the terminal again after its contents are gone."""
        self.outer.enter_again()
        self.part.is_stale, self.row.line_put = True, None
        self.forget_drawn()

    def resized(self) -> None:
        """Handle a new size of the terminal. If the view no longer fits, act at once.

        The rest follows a moment later, since a resize by mouse causes many sizes.
        """
        self.row.line_put = None
        if self.notice:
            self.show(self.notice, self.notice_first, self.notice_foot)
        self.part.is_stale = self.part.is_stale or not self.part.fits()
        if "paint" not in self.loop.due:
            self.loop.later("paint", DRAWN, lambda: self.choose(is_painted=True))


def notice_page(text: str, size: tty.Size, first: int, foot: str) -> tuple[list[str], int, int]:
    """Return the visible lines of a notice, the index of the first one, and the last possible first one.

    If they do not fit, and there is a foot, it takes the last row.
    """
    rows, cols = size
    lines = [part for line in text.split("\n") for part in wrapped(printable(line), max(1, cols - 1))]
    most = len(lines) - rows + 1 if foot and rows > 1 and len(lines) > rows else 0
    first = min(first, most)
    if not most:
        return lines[: max(1, rows)], first, most
    shown = lines[first : first + rows - 1]
    return [*shown, cut(foot.format(first + 1, first + len(shown), len(lines)), cols - 1)], first, most


def wrapped(line: str, width: int) -> list[str]:
    """Return the rows of a line at a width, with breaks between words if possible."""
    rows: list[str] = []
    begin = 0
    while len(line) - begin > width:
        end = line.rfind(" ", begin + 1, begin + width + 1)
        is_between = end > 0 and not line[begin:end].isspace()
        rows.append(line[begin : end if is_between else begin + width].rstrip())
        begin = end + 1 if is_between else begin + width
    return [*rows, line[begin:]]
