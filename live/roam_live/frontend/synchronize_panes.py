"""Keys that a user types to all panes of a window at once.

In one line of acts each pane gets the focus for them, and then the focused pane gets it back.
"""
from __future__ import annotations

from roam_live.config.environment import text_of
from roam_live.frontend.status_line import ALL_PANES
from roam_live.frontend.window_acts import WindowActs

TYPE_CHECKING = False
if TYPE_CHECKING:
    from collections.abc import Callable

    # Returns the acts of a key in a pane.
    Typed = Callable[[int], list[str]]

# The option, by tmux's name.
OPTION = "synchronize-panes"

# The most acts of a key in one line.
MOST_OF_KEY = 16

# The most acts in one line: each change of the focus takes a session long, so keys share lines if possible.
MOST_ACTS = 64

# Acts in flight above which keys wait to go together, and seconds until the next check.
ON_THEIR_WAY = 32
AGAIN = 0.01

# Seconds for which keys wait for a report of the focus after a command that moves it.
FOCUS_WAIT = 1.0

# Above this many waiting keys no more input is read.
MOST_KEYS = 1 << 16

# Seconds without predictions after somebody else has moved the focus. Until the client shows the focused pane, it would draw predictions in
# the previous one. Keys may be trusted there, and the first of them may belong to a password.
HIDES = 1.0

# Seconds for which the message about the new state is shown.
TOLD = 2.0
OFF = "keys go to the active pane"
ALONE = "pasted into the active pane only: {}"
UNTOLD = "keys go to the active pane: the server does not report its panes"


def same_in_each(acts: list[str]) -> Typed:
    """Return a key that types the same acts in any pane."""
    return lambda pane: acts


def packed(groups: list[list[str]], back: str) -> list[list[str]]:
    """Return lines of acts, each with some of these groups whole and a final act."""
    lines: list[list[str]] = [[]]
    for group in groups:
        if lines[-1] and len(lines[-1]) + len(group) >= MOST_ACTS:
            lines.append([])
        lines[-1] += group
    return [[*line, back] for line in lines]


def lines_of(panes: list[int], keys: list[Typed]) -> list[list[str]]:
    """Return the lines of acts that type keys in each of these panes, the first of which has the focus before and after.

    A line has as many keys as fit for all panes.
    """
    lines: list[list[str]] = []
    begin = 0
    while begin < len(keys):
        end = begin + 1
        while end < len(keys) and sum(len(key(pane)) for key in keys[begin : end + 1] for pane in panes) + len(panes) <= MOST_ACTS:
            end += 1
        groups = [[f"focus {pane}"] * (pane != panes[0]) + [act for key in keys[begin:end] for act in key(pane)] for pane in panes]
        lines += packed(groups, f"focus {panes[0]}")
        begin = end
    return lines


class Synchronizing:
    """The switch that sends one user's keys to all panes of a window, and the keys on their way there.

    Calls return True if a pane is zoomed, and show the state.
    """

    def __init__(self, acts: WindowActs, is_zoomed: Callable[[], bool], shows: Callable[[], object]) -> None:
        self.acts, self.is_zoomed, self.shows, self.loop = acts, is_zoomed, shows, acts.loop
        # The switches of this front end's windows, by number, and this window's number; and the normal prediction setting.
        self.switched: dict[int, bool] = {}
        self.number = 0
        self.predictions: Callable[[], str] = lambda: "never"
        # True while predictions are hidden for a moment.
        self.is_hiding = False
        # The untyped acts of each key.
        self.keys: list[Typed] = []

    def remember(self, switched: dict[int, bool], number: int, predictions: Callable[[], str]) -> None:
        """Use the switches of this front end's windows, by number."""
        self.switched, self.number, self.predictions = switched, number, predictions
        if self.is_on():
            self.choose_prediction()

    def is_on(self) -> bool:
        """Return True if it is on, even while a pane is zoomed."""
        return self.switched.get(self.number, text_of(OPTION) == "on") and not self.acts.link.is_read_only

    def is_working(self) -> bool:
        """Return True if keys now go to all panes. A zoomed pane gets them alone."""
        return self.is_on() and not self.is_zoomed()

    def switch(self) -> None:
        """Toggle it."""
        self.settle(is_last=True)
        self.switched[self.number] = not self.is_on()
        self.choose_prediction()
        self.shows()
        places = self.acts.panes.places
        self.acts.display.row.tell(OFF if not self.is_on() else ALL_PANES if places else UNTOLD, TOLD)

    def choose_prediction(self) -> None:
        """Turn predictions off while it is on: a key's effect in one pane says nothing about the others."""
        self.acts.link.predict("never" if self.is_on() or self.is_hiding else self.predictions())

    def hide_predictions(self) -> None:
        """Hide predictions for a moment."""
        if self.predictions() != "never":
            self.is_hiding = True
            self.choose_prediction()
            self.loop.later(f"predictions {self.number}", HIDES, self.show_predictions)

    def show_predictions(self) -> None:
        """Show predictions again."""
        self.is_hiding = False
        self.choose_prediction()

    def panes(self) -> list[int]:
        """Return the panes that get input, the focused one first; none if the focus is unknown."""
        places = self.acts.places()
        return [places.focus, *(pane for pane in places.rects if pane != places.focus)] if places and places.focus else []

    def pasted_in(self) -> list[int]:
        """Return the panes that get a paste; none for the focused one alone. If the others are unknown, show that."""
        if not self.is_working():
            return []
        panes = self.panes()
        if not panes:
            self.acts.display.row.tell(ALONE.format("the server does not report its panes"), TOLD)
        return panes if len(panes) > 1 else []

    def is_full(self) -> bool:
        """Return True if too many keys wait to accept more."""
        return len(self.keys) >= MOST_KEYS

    def add(self, acts: list[str]) -> None:
        """Add the acts of a key, or of many."""
        for begin in range(0, len(acts), MOST_OF_KEY):
            self.keys.append(same_in_each(acts[begin : begin + MOST_OF_KEY]))

    def settle(self, is_last: bool = False) -> None:
        """Type the waiting keys. While the focus is unreported they wait, unless this is the last time."""
        if not self.keys:
            return
        panes = self.panes()
        may_be_told = self.acts.places() is not None or self.acts.panes.is_awaited()
        if not panes and may_be_told and not is_last:
            if "synchronize" not in self.loop.due:
                self.loop.later("synchronize", FOCUS_WAIT, lambda: self.settle(is_last=True))
            return
        if panes and not is_last and self.acts.link.untaken() * 2 * len(panes) > ON_THEIR_WAY:
            self.loop.later("synchronize", AGAIN, self.settle)
            return
        self.loop.drop("synchronize")
        keys, self.keys = self.keys, []
        if len(panes) < 2:
            focus = panes[0] if panes else 0
            self.acts.pastes.type(*(act for key in keys for act in key(focus)))
        else:
            self.acts.pastes.type_lines(lines_of(panes, keys))
        self.acts.note_key()
