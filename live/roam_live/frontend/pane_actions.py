"""A user's actions on panes: split, close, and focus."""
from __future__ import annotations

from roam_live.frontend.effects import ClosePane
from roam_live.frontend.window_acts import WindowActs
from roam_live.frontend.zoom import Zooming
from roam_live.session.foreground import told

TYPE_CHECKING = False
if TYPE_CHECKING:
    from collections.abc import Callable

    from roam_live.frontend.interfaces import OtherWindows

# The message if no previously focused pane is known.
NO_LAST = "no other pane was active before"


class PaneActions:
    """The panes of a window for one user. A call returns the windows of the session."""

    def __init__(self, acts: WindowActs, zooming: Zooming, windows: Callable[[], OtherWindows]) -> None:
        self.acts, self.zooming, self.windows = acts, zooming, windows
        # The previously focused panes, the newest first, each by its generation: a reused number is another pane.
        self.makings: list[str] = []

    def panes_changed(self) -> None:
        """Take a report: the focus, and the current panes."""
        places, making = self.acts.panes.places, self.acts.panes.making
        if not places:
            return
        there, now = [making(pane) for pane in places.rects], making(places.focus)
        self.makings = [now, *(one for one in self.makings if one != now and one in there)] if now else self.makings

    def ring(self, pane: int) -> None:
        """Ring, and name the pane if it isn't focused."""
        display = self.acts.display
        display.outer.ring()
        if self.acts.focus() != pane and not display.row.told:
            display.row.tell(f"bell in pane {pane}")

    def split(self, wish: str) -> None:
        """Split the focused pane, or show the reason of a failure."""
        places = self.zooming.unzoomed(self.acts.places())
        why = places.unsplit(wish.split()[1]) if places else ""
        if why:
            self.acts.display.row.tell(why)
        else:
            self.acts.act(wish)

    def close(self) -> None:
        """Close the focused pane. If a program other than a shell may run there, ask first."""
        places, busy = self.acts.places(), self.acts.session.busy()
        pane = places.focus if places else 0
        if places and pane and len(places.rects) == 1 and not self.windows().why_one():
            self.windows().grant("window shut")
        elif places and pane and len(places.rects) == 1:
            self.acts.display.row.tell("the last pane ends with its shell, and the session with it")
        elif busy == {} or busy and pane and pane not in busy:
            self.acts.act("close")
        else:
            runs = told({pane: busy[pane]}) if busy and pane else f"the program in {f'pane {pane}' if pane else 'this pane'}"
            self.acts.ask(f"close {runs}? y closes it", ClosePane(self.acts.session.number))

    def go(self, way: str) -> None:
        """Focus the pane on a side; the next one if no rectangle is known."""
        places = self.acts.places()
        if places and not places.focus:
            places = self.acts.panes.places
        places = self.zooming.unzoomed(places)
        pane = places.neighbour(way) if places else None
        if pane or not places:
            self.acts.act(f"focus {pane}" if pane else "next")

    def go_back(self) -> None:
        """Focus the previous pane."""
        places = self.acts.places()
        others = (pane for pane in (int(one.partition(" ")[0]) for one in self.makings) if places and pane != places.focus)
        pane = next(others, 0)
        if pane:
            self.acts.act(f"focus {pane}")
        else:
            self.acts.display.row.tell(NO_LAST)
