"""The mouse: reports for the programs in panes, typed as acts, and roam's own actions if it uses the mouse."""
from __future__ import annotations

from roam_live.frontend.modes import ScrollMode
from roam_live.frontend.window_acts import WindowActs
from roam_live.input.mouse_reports import DOWN, UP, Clicks, MouseReport, is_wanted, report_of, sent, tracking_of
from roam_live.protocol.panes import Places, Rect

TYPE_CHECKING = False
if TYPE_CHECKING:
    from collections.abc import Callable

    from roam_live.frontend.copymode.mouse import CopyPointing
    from roam_live.frontend.resize_keys import BorderDrag

# A row and a column of the session, from 1.
Place = tuple[int, int]

# Seconds between two motion reports; and the most lines in flight before the next one. So a drag over a slow network does not lag ever
# more.
APART = 0.02
MOST_ON_WAY = 4

# Rows for a notch of the wheel, or arrows if a program shows the alternate screen according to `panes`.
NOTCH = 3
OTHER = "other"

# Seconds for which the message about the owner of the mouse is shown.
TOLD = 3.0
ON = "roam has the mouse: click, wheel, drag; {} m gives it back"
OFF = "the mouse selects text, except in programs that use it"


def inside(rect: Rect, place: Place) -> Place:
    """Return the nearest position inside a pane."""
    return min(max(place[0], rect.row), rect.row + rect.rows - 1), min(max(place[1], rect.col), rect.col + rect.cols - 1)


class Pointing:
    """The mouse of one user.

    Calls return copy mode's mouse, return True if copy mode is open, request reports from the terminal anew, and go to the window at a
    position in the last row.
    """

    def __init__(self, acts: WindowActs, copying: Callable[[], CopyPointing], is_copying: Callable[[], bool], asks: Callable[[], object],
                 goes_to: Callable[[int], object]) -> None:
        self.acts, self.copying, self.is_copying, self.asks, self.goes_to, self.loop = acts, copying, is_copying, asks, goes_to, acts.loop
        # True if roam itself uses the mouse; and the border being dragged.
        self.is_on = False
        self.border: BorderDrag | None = None
        # The pane and position of a first-button press that no program takes, and the count of clicks.
        self.grasped: tuple[int, Place] | None = None
        self.clicks = Clicks()
        # By button, the pane whose program got the press.
        self.held: dict[int, int] = {}
        # The newest untyped motion, with its pane and position; then the pane, position, button and moment of the last typed one.
        self.motion: tuple[int, MouseReport, Place] | None = None
        self.moved: tuple[int, Place, int] | None = None
        self.moved_at = 0.0

    def asked(self) -> str:
        """Return the reports to request from the terminal: those that the focused pane's program or roam itself needs.

        A read-only user, or one with unknown panes, needs none.
        """
        panes = self.acts.panes
        if self.acts.link.is_read_only or not panes.places:
            return ""
        tracking = tracking_of(panes.focus_modes)
        return "motion" if tracking == "motion" else "drags" if tracking or self.is_on else ""

    def switch(self) -> None:
        """Toggle roam's own use of the mouse."""
        self.is_on = not self.is_on
        self.asks()
        self.acts.display.row.tell(ON.format(self.acts.modes.keymap.name) if self.is_on else OFF, TOLD)

    def panes_changed(self) -> None:
        """Take a report about the panes."""
        if self.border:
            self.border.panes_changed()

    def take(self, text: str) -> None:
        """Take a report of the outer terminal."""
        report, acts = report_of(text), self.acts
        if not report:
            return
        holder = self.held.get(report.number(), 0) if report.moves() or report.is_release else 0
        if report.is_release:
            self.held.pop(report.number(), None)
        if not holder and not self.border and self.copies(report):
            return
        if self.is_on and not holder and self.goes(report):
            return
        if report.is_release:
            self.grasped = None
        elif self.border and not report.moves():
            # Its release was not reported.
            self.end_drag()
        is_near = holder > 0 or self.border is not None
        place, places = acts.display.shown_at(report.row, report.col, is_near), acts.places()
        if not place or not places or acts.paused or acts.link.is_read_only:
            self.end_drag()
        elif self.border and (report.moves() or report.is_release):
            self.drag(self.border, report, place)
        elif acts.modes.has(ScrollMode):
            self.point_back(report, places, place)
        elif acts.modes.is_typing():
            self.point(report, places, place, holder)

    def goes(self, report: MouseReport) -> bool:
        """Go to the window whose label in the last row was pressed, and return True if there is one."""
        acts = self.acts
        is_press = not report.is_release and not report.moves() and report.number() == 0
        place = acts.display.row.window_at(report.row, report.col) if is_press and acts.modes.is_typing() else None
        if place is None:
            return False
        self.end_drag()
        self.goes_to(place)
        return True

    def point(self, report: MouseReport, places: Places, place: Place, holder: int = 0) -> None:
        """Handle a report at a position of the session.

        The pane whose program got a press has all reports of that button, wherever the mouse is. Its program gets the nearest position, as
        on a terminal of its own.
        """
        pane = holder or places.pane_at(*place)
        if self.grasped and report.moves() and report.number() == 0:
            (pane, pressed), self.grasped = self.grasped, None
            self.copying().open_by_drag(pane, pressed, (report.row, report.col))
        elif not pane and self.is_on and report.button == 0 and not report.is_release:
            self.grip(places, place)
        elif pane == 0 or report.is_release and not holder or pane != places.focus and (not self.is_on or report.moves() or holder):
            return
        elif report.moves():
            is_meant = holder or not report.is_held()
            self.motion = (pane, report, inside(places.rects[pane], place)) if is_meant else None
            self.put_motion()
        else:
            self.put_motion(is_now=True)
            self.moved = None
            self.press(report, pane, place, pane == places.focus)

    def press(self, report: MouseReport, pane: int, place: Place, has_focus: bool) -> None:
        """Handle a press or release in a pane, or the wheel over one. Its program gets it on request."""
        if self.type(pane, report, place):
            if not report.is_release and not report.is_wheel():
                self.held[report.number()] = pane
        elif report.is_wheel():
            self.turn(report, pane)
        else:
            if not has_focus:
                self.acts.act_together(f"focus {pane}")
            if self.is_on and report.number() == 0:
                self.grasp(pane, (report.row, report.col))

    # ---- copy mode

    def copies(self, report: MouseReport) -> bool:
        """Return True if copy mode takes a report."""
        acts = self.acts
        if not self.is_copying() or acts.paused or acts.display.notice or not acts.modes.is_typing():
            return False
        return self.copying().take(report)

    def grasp(self, pane: int, place: Place) -> None:
        """Record a first-button press at a position of the terminal. A drag from there selects text, and a double click selects a word."""
        self.grasped = pane, place
        if self.clicks.press(place, self.loop.clock()) == 2:
            self.grasped = None
            self.copying().open_by_click(pane, place)

    # ---- roam's own mouse

    def turn(self, report: MouseReport, pane: int) -> None:
        """Handle the wheel over a pane whose program does not use the mouse: arrows on the alternate screen, else the scrollback."""
        way = {UP: "up", DOWN: "down"}.get(report.number())
        if not self.is_on or not way:
            return
        if OTHER in self.acts.panes.modes(pane):
            self.acts.act_together(f"focus {pane}", *[f"key {way}"] * NOTCH)
        elif way == "up":
            self.copying().open_by_wheel(pane)

    def point_back(self, report: MouseReport, places: Places, place: Place) -> None:
        """Handle a report while scrollback is shown: the wheel scrolls. If roam uses the mouse, an event on another pane ends that."""
        pane, is_press = places.pane_at(*place), not report.moves() and not report.is_release
        if pane == places.focus and report.number() in (UP, DOWN):
            self.acts.scroll(pane, NOTCH if report.number() == UP else -NOTCH)
        elif pane != places.focus and self.is_on and is_press:
            self.acts.end_scroll()
            self.point(report, places, place)

    def grip(self, places: Places, place: Place) -> None:
        """Take the border at a position, to drag it."""
        from roam_live.frontend.borders import border_at
        from roam_live.frontend.resize_keys import BorderDrag

        border = border_at(places.rects, *place)
        if border:
            self.border = BorderDrag(self.acts, border, self.end_drag)

    def drag(self, drag: BorderDrag, report: MouseReport, place: Place) -> None:
        """Drag a border until the release of its button."""
        if report.number() == 0:
            drag.to(*place)
            if report.is_release:
                drag.let_go()

    def end_drag(self) -> None:
        """Stop dragging."""
        self.border = None
        self.loop.drop("border")

    # ---- reports

    def type(self, pane: int, report: MouseReport, place: Place) -> bool:
        """Type a report into a pane if its program wants it and its form can express it, and return True if so.

        The same line of acts names the pane, so that nobody else's focus comes between.
        """
        text = self.text(pane, report, place)
        if text:
            self.acts.act_together(f"focus {pane}", *(f"char {ord(letter):x}" for letter in text))
        return text != ""

    def text(self, pane: int, report: MouseReport, place: Place) -> str:
        """Return the text of a report for a pane's program; nothing if the program does not want it."""
        modes, places = self.acts.panes.modes(pane), self.acts.panes.places
        rect = places.rects.get(pane) if places else None
        if not rect or not is_wanted(report, modes):
            return ""
        row, col = inside(rect, place)
        return sent(report._replace(row=row - rect.row + 1, col=col - rect.col + 1), modes)

    def put_motion(self, is_now: bool = False) -> None:
        """Type the latest motion report once permitted, or now. Later input has to follow it."""
        self.loop.drop("motion")
        if not self.motion:
            return
        pane, report, place = self.motion
        due = self.moved_at + APART
        if self.moved == (pane, place, report.button) or pane != self.acts.focus():
            self.motion = None
        elif not is_now and (self.loop.clock() < due or self.acts.link.untaken() >= MOST_ON_WAY):
            self.loop.at("motion", max(due, self.loop.clock() + APART / 2), self.put_motion)
        else:
            self.motion, self.moved, self.moved_at = None, (pane, place, report.button), self.loop.clock()
            self.type(pane, report, place)
