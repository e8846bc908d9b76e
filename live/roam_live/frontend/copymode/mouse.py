"""The mouse in copy mode: the wheel scrolls, and a drag selects and copies. A double click copies a word, a triple one a line."""
from __future__ import annotations

from collections.abc import Callable

from roam_live.frontend.copymode.mode import CopyMode
from roam_live.frontend.copymode.state import CopyEvent, CopyState
from roam_live.input.mouse_reports import CLICKED, DOWN, UP, Clicks, MouseReport

# Rows for a notch of the wheel.
NOTCH = 3

# Seconds between scrolled rows while a drag is outside the pane.
DRAGGED = 0.05


def scroll(mode: CopyMode, rows: int, closes: bool) -> None:
    """Scroll by so many rows, backwards if positive. With `closes`, scrolling past the last row ends copy mode, unless text is selected."""
    view = mode.view
    was_lowest = view.is_lowest()
    for _ in range(abs(rows)):
        view.step(-1 if rows > 0 else 1, True)
    view.follow()
    if rows < 0 and view.is_lowest() and (closes or was_lowest) and not view.selection:
        mode.perform("cancel")


def point_at(mode: CopyMode, row: int, col: int) -> None:
    """Move the cursor to the mouse, in rows and columns of the pane's rectangle from 0. Outside it, scroll."""
    view = mode.view
    if row < 0:
        view.step(-1, True)
    elif row >= view.height:
        view.step(1, True)
    view.put_at(max(0, min(row, view.height - 1)), max(0, min(col, view.rows.cols - 1)))
    view.follow()


def select_at(mode: CopyMode, row: int, col: int, what: str) -> None:
    """Select a word or a line at the mouse."""
    mode.view.selection = None
    point_at(mode, row, col)
    mode.perform(what)


class CopyPointing:
    """The mouse of one user in copy mode. Calls open copy mode in a pane, and queue an event there."""

    def __init__(self, state: CopyState, opens: Callable[..., object], adds: Callable[[CopyEvent], object]) -> None:
        self.state, self.opens, self.adds, self.acts, self.loop = state, opens, adds, state.acts, state.acts.loop
        # True if the wheel opened it. Then the position of a first-button press, a flag for a drag, and its target.
        self.is_wheeled = False
        self.pressed: tuple[int, int] | None = None
        self.is_dragged = False
        self.place = (0, 0)
        self.clicks = Clicks()

    def end(self) -> None:
        """Forget pressed buttons."""
        self.pressed, self.is_dragged, self.is_wheeled = None, False, False
        self.loop.drop("copy drag")
        self.loop.drop("copy click")

    def wheel(self, rows: int) -> CopyEvent:
        """Return an event that scrolls by so many rows."""
        return CopyEvent(lambda mode: scroll(mode, rows, self.is_wheeled), lambda: self.acts.scroll(self.state.pane, rows))

    # ---- opening

    def open_by_wheel(self, pane: int) -> None:
        """Open copy mode in a pane, by a notch of the wheel."""
        def instead() -> bool:
            self.acts.scroll(pane, NOTCH)
            return True

        self.opens(pane, instead, CopyEvent(lambda mode: scroll(mode, NOTCH, True)))
        self.is_wheeled = self.state.is_on()
        if self.is_wheeled and pane != self.acts.focus():
            self.acts.act_together(f"focus {pane}")

    def open_by_drag(self, pane: int, pressed: tuple[int, int], place: tuple[int, int]) -> None:
        """Open copy mode in a pane by a drag from one position of the terminal to another."""
        self.opens(pane, lambda: None)
        if self.state.is_on():
            self.pressed = self.within(pressed)
            self.drag(self.within(place))

    def open_by_click(self, pane: int, place: tuple[int, int]) -> None:
        """Open copy mode in a pane, by a double click on a position of the terminal."""
        self.opens(pane, lambda: None)
        if self.state.is_on():
            self.click(self.within(place), 2)

    # ---- while it is open

    def within(self, place: tuple[int, int]) -> tuple[int, int]:
        """Return a position of the terminal relative to the rectangle, from 0."""
        rect = self.state.rect
        return place[0] - rect.row, place[1] - rect.col

    def is_within(self, place: tuple[int, int]) -> bool:
        """Return True if a position is inside the rectangle."""
        return 0 <= place[0] < self.state.rect.rows and 0 <= place[1] < self.state.rect.cols

    def take(self, report: MouseReport) -> bool:
        """Take a mouse report, and return True if it is for copy mode: in its rectangle, or a drag from there."""
        place = self.within((report.row, report.col))
        if self.pressed and report.number() == 0 and (report.moves() or report.is_release):
            if report.moves():
                self.drag(place)
            else:
                self.let_go(place)
            return True
        if not self.is_within(place):
            return False
        if report.number() in (UP, DOWN):
            self.adds(self.wheel(NOTCH if report.number() == UP else -NOTCH))
        elif report.number() == 0 and not report.moves() and not report.is_release:
            self.pressed, self.is_dragged = place, False
            self.click(place, self.clicks.press(place, self.loop.clock()))
        return True

    def click(self, place: tuple[int, int], count: int) -> None:
        """Handle so many clicks at a position: the second selects a word and the third a line, which is copied a moment later."""
        self.loop.drop("copy click")
        if count < 2:
            self.adds(CopyEvent(lambda mode: point_at(mode, *place)))
            return
        self.clicks.place, self.clicks.at, self.clicks.count = place, self.loop.clock(), count
        what = "select-word" if count == 2 else "select-line"
        self.adds(CopyEvent(lambda mode: select_at(mode, *place, what)))
        self.loop.later("copy click", CLICKED, self.copy)

    def copy(self) -> None:
        """Copy the selection, and leave."""
        self.adds(CopyEvent(lambda mode: mode.copy(True)))

    def drag(self, place: tuple[int, int]) -> None:
        """Select from the press to a position."""
        begin = self.pressed
        self.loop.drop("copy click")
        if begin and not self.is_dragged:
            self.is_dragged = True
            row, col = begin
            self.adds(CopyEvent(lambda mode: select_from(mode, row, col)))
        self.place = place
        self.adds(CopyEvent(lambda mode: point_at(mode, *place)))
        if 0 <= place[0] < self.state.rect.rows:
            self.loop.drop("copy drag")
        else:
            self.loop.later("copy drag", DRAGGED, lambda: self.drag(self.place))

    def let_go(self, place: tuple[int, int]) -> None:
        """Copy the dragged selection, and leave."""
        self.loop.drop("copy drag")
        was_dragged, self.pressed, self.is_dragged = self.is_dragged, None, False
        if was_dragged:
            self.adds(CopyEvent(lambda mode: point_at(mode, max(0, min(place[0], mode.view.height - 1)), place[1])))
            self.copy()


def select_from(mode: CopyMode, row: int, col: int) -> None:
    """Select by characters from the mouse position, unless a word or a line is selected there and continues."""
    selection = mode.view.selection
    if selection and selection.kind != "characters":
        return
    mode.view.selection = None
    point_at(mode, row, col)
    mode.begin_selection()
