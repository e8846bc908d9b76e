"""Borders that a user moves by keys, and even sizes for all panes."""
from __future__ import annotations

from collections import deque

from roam_live.frontend.borders import MOST_GROWTH, Border, Evened, begin_of, border_at, end_of, is_told_by_numbers, splits_of
from roam_live.frontend.session_size import SessionSize
from roam_live.frontend.window_acts import WindowActs
from roam_live.frontend.zoom import FOCUS_WAIT, Zooming
from roam_live.protocol.panes import BESIDE, Places, Rect

TYPE_CHECKING = False
if TYPE_CHECKING:
    from collections.abc import Callable

# The most keys that wait for the session's old size; and the most lines of acts for even split sizes. Each line follows the report of the
# previous one's effect.
MOST_WAITING = 64
MOST_LINES = 10

# Seconds after which an accepted resize without a report counts as refused.
SETTLES = 0.25
NO_PANE = "this border cannot be moved: the panes on both sides are split"

# The side opposite to each.
OPPOSITE = {"left": "right", "right": "left", "up": "down", "down": "up"}

# Seconds for which the reason for uneven sizes is shown.
TOLD = 3.0
NO_BORDER = {"right": "pane {} has no border on its left or right", "down": "pane {} has no border above or below it"}
NO_ROOM = "this border cannot move further"
STUCK = "space is divided evenly, except at borders between split panes"
EVEN = "space is divided evenly"
UNTOLD = "the server does not report its panes"
NO_FOCUS = "the active pane is not known yet"


def axis_of(side: str) -> str:
    """Return the direction in which a pane's border on a side moves."""
    return "right" if side in ("left", "right") else "down"


def side_border(rects: dict[int, Rect], pane: int, side: str) -> Border | None:
    """Return the border on a side of a pane; None if there is none.

    If neither numbers nor rectangles show its owner, the two panes at this side are candidates.
    """
    rect, way = rects[pane], axis_of(side)
    is_behind = side in ("right", "down")
    at = end_of(rect, way) if is_behind else begin_of(rect, way) - 1
    place = (rect.row, at) if way == "right" else (at, rect.col)
    border = border_at(rects, *place)
    if border and not border.leaves and not is_told_by_numbers(rects):
        other = next((number for number, one in rects.items() if is_across(rect, one, side)), 0)
        pair = (pane, other) if is_behind else (other, pane)
        return border._replace(before=pair[0], behind=pair[1], leaves=[(pair[0], 1), (pair[1], -1)]) if other else border
    return border


def is_across(rect: Rect, other: Rect, side: str) -> bool:
    """Return True if another rectangle is across a border, with equal length."""
    first, second = (rect, other) if side in ("right", "down") else (other, rect)
    way = axis_of(side)
    along = "down" if way == "right" else "right"
    return end_of(first, way) + 1 == begin_of(second, way) and (begin_of(first, along), end_of(first, along)) == (
        begin_of(second, along), end_of(second, along))


class BorderDrag:
    """A border that a user drags, in steps: each resizes a pane that owns the border, and waits for a report of the effect.

    After a pane was closed the owner may be misjudged. A step that moves another border is undone, and the pane on the other side is tried.
    """

    def __init__(self, acts: WindowActs, border: Border, ended: Callable[[], object], moment: str = "border") -> None:
        self.acts, self.loop, self.border, self.ended = acts, acts.loop, border, ended
        # The name of the timer that settles it.
        self.moment = moment
        others = [leaf for leaf in ((border.before, 1), (border.behind, -1)) if leaf not in border.leaves]
        self.leaves = border.leaves + others if border.leaves else []
        self.aim = 0
        # The growing pane, the amount, and the positions before; a flag for an undo step; and a flag for the released button.
        self.grown: tuple[int, int, Places] | None = None
        self.is_undone = self.is_over = False
        # True if this user moved the focus to a still unknown pane: a resize would move it back.
        self.awaits_focus = False

    def to(self, row: int, col: int) -> None:
        """Drag it to a position of the session."""
        self.aim = min(max(col if self.border.way == "right" else row, self.border.least), self.border.most)
        self.pull()

    def let_go(self) -> None:
        """End the drag at its target, once the border is there."""
        self.is_over = True
        self.pull()

    def pull(self) -> None:
        """Move it to its target, unless a step is in progress."""
        places = self.acts.places()
        if self.grown:
            return
        at = self.border.at(places.rects) if places else 0
        self.awaits_focus = bool(places and not places.focus and at and self.aim and self.aim != at)
        if self.awaits_focus:
            self.loop.later(self.moment, SETTLES, self.settle)
        elif not places or not at or not self.aim or self.aim == at:
            self.end_over()
        elif not self.leaves:
            self.acts.display.row.tell(NO_PANE)
            self.ended()
        else:
            pane, sign = self.leaves[0]
            self.grow(pane, min(max(sign * (self.aim - at), -MOST_GROWTH), MOST_GROWTH), places)

    def grow(self, pane: int, by: int, places: Places) -> None:
        """Resize a pane, and restore the focus."""
        self.grown = pane, by, places
        self.loop.later(self.moment, SETTLES, self.settle)
        self.acts.act_together(f"focus {pane}", f"grow {by}", *[f"focus {places.focus}"] * (places.focus != pane))

    def panes_changed(self) -> None:
        """Take a report about the panes. A new size of the pane is the effect of a step."""
        places = self.acts.panes.places
        if self.awaits_focus and self.acts.moved_to is None:
            self.loop.drop(self.moment)
            self.pull()
        if not self.grown or not places:
            return
        pane, by, before = self.grown
        now, then = places.rects.get(pane), before.rects[pane]
        if now and (now.rows, now.cols) == (then.rows, then.cols):
            return
        self.loop.drop(self.moment)
        self.grown = None
        if now and not self.is_undone and self.border.at(places.rects) == self.border.at(before.rects):
            self.leaves.pop(0)
            self.is_undone = True
            self.grow(pane, -by, places)
        else:
            self.is_undone = False
            self.pull()

    def settle(self) -> None:
        """Continue if an accepted step has no effect: the border is at its limit."""
        if self.acts.link.untaken():
            self.loop.later(self.moment, SETTLES, self.settle)
            return
        self.grown, self.is_undone, self.awaits_focus, self.aim = None, False, False, 0
        self.end_over()

    def end_over(self) -> None:
        """End the drag after the release."""
        if self.is_over:
            self.ended()


class BorderKeys:
    """A user's actions on borders by keys."""

    def __init__(self, acts: WindowActs, size: SessionSize, zooming: Zooming) -> None:
        self.acts, self.size, self.zooming, self.loop = acts, size, zooming, acts.loop
        # The moving border, and keys that wait until the session has its old size.
        self.drag: BorderDrag | None = None
        self.waiting: deque[str] = deque(maxlen=MOST_WAITING)
        # The expected positions after the acts for even sizes, and the number of further lines.
        self.wanted: dict[int, Rect] | None = None
        self.lines_left = 0

    def ask(self, wish: str) -> None:
        """Carry out the request of a key, `even` or a side, once nothing is zoomed."""
        if self.zooming.is_on():
            self.zooming.end()
        self.waiting.append(wish)
        self.loop.later("border keys", FOCUS_WAIT, lambda: self.do_waiting(is_late=True))
        self.do_waiting()

    def do_waiting(self, is_late: bool = False) -> None:
        """Carry out the waiting request, once the panes at the session's size and the moved focus are reported."""
        places, here = self.acts.panes.places, self.acts.places()
        is_known = here is None or here.focus > 0
        if is_late and self.waiting and not is_known:
            self.waiting.clear()
            self.acts.display.row.tell(NO_FOCUS)
        while self.waiting and is_known and not self.size.requested and (not places or places.is_covered()):
            wish = self.waiting.popleft()
            if wish == "even":
                self.even()
            else:
                self.move(wish)

    def panes_changed(self) -> None:
        """Handle a report about the panes."""
        places = self.acts.panes.places
        if self.drag:
            self.drag.panes_changed()
        if places and self.wanted is not None and places.rects == self.wanted:
            self.go_on()
        self.do_waiting()

    # ---- one border

    def move(self, side: str) -> None:
        """Move the border on a side of the focused pane towards that side; without one, the border on the other side."""
        places, way = self.acts.places(), axis_of(side)
        if not places:
            self.acts.display.row.tell(UNTOLD)
            return
        found = [side_border(places.rects, places.focus, one) for one in (side, OPPOSITE[side])]
        border = found[0] or found[1]
        if not border:
            self.acts.display.row.tell(NO_BORDER[way].format(places.focus))
            return
        is_same = self.drag is not None and self.drag.aim > 0 and (self.drag.border.way, self.drag.border.before) == (way, border.before)
        if not is_same or not self.drag:
            self.drop()
            self.drag = BorderDrag(self.acts, border, self.drop, "border by key")
        at = self.drag.aim if is_same else border.at(places.rects)
        self.pull(self.drag, at + sum(BESIDE[side]))

    def pull(self, drag: BorderDrag, aim: int) -> None:
        """Move a border to a column or a row, as far as possible."""
        if not drag.leaves:
            self.acts.display.row.tell(NO_PANE)
            self.drop()
            return
        if not drag.border.least <= aim <= drag.border.most:
            self.acts.display.row.tell(NO_ROOM)
        drag.to(aim, aim)
        if self.drag is drag:
            drag.let_go()

    def drop(self) -> None:
        """Forget a moving border."""
        self.drag = None
        self.loop.drop("border by key")

    # ---- all of them

    def even(self) -> None:
        """Give all panes even sizes."""
        self.drop()
        self.lines_left = MOST_LINES
        self.go_on(is_first=True)

    def go_on(self, is_first: bool = False) -> None:
        """Type the remaining acts for even sizes. A border hidden by a pane's own split follows once there is room."""
        self.wanted = None
        self.loop.drop("even")
        places = self.acts.panes.places
        parts = splits_of(places.rects) if places and places.is_covered() else None
        if not places or not parts or not places.focus:
            self.acts.display.row.tell(UNTOLD)
            return
        evened = Evened(parts, places.rects)
        if evened.acts and self.lines_left:
            self.lines_left -= 1
            self.wanted = evened.rects
            self.loop.later("even", SETTLES, self.settle)
            self.acts.act_together(*evened.acts, *self.back(places))
        elif evened.is_stuck:
            self.acts.display.row.tell(STUCK, TOLD)
        elif is_first:
            self.acts.display.row.tell(EVEN)

    def back(self, places: Places) -> list[str]:
        """Return the act that restores this user's focus."""
        here = self.acts.places()
        return [f"focus {here.focus if here and here.focus else places.focus}"]

    def settle(self) -> None:
        """Continue with the reports so far, once the input is taken."""
        if self.acts.link.untaken():
            self.loop.later("even", SETTLES, self.settle)
        else:
            self.go_on()
