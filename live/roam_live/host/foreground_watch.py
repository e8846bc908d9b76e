"""The foreground programs of panes. A lookup follows input or output of a pane; idle panes cause none."""
from __future__ import annotations

import math

from roam_live.common.event_loop import Loop
from roam_live.session.foreground import group_in_front, name_of

TYPE_CHECKING = False
if TYPE_CHECKING:
    from collections.abc import Callable

    from roam_live.host.pane import PaneCommand

# Seconds from new output to the lookup, since a started program is in the foreground a moment later; and seconds between two lookups for a
# pane.
SOON = 0.1
APART = 0.5


class Fronts:
    """Looks up foreground programs while somebody subscribes, and reports them by a call: pane, generation, and printable name."""

    def __init__(self, loop: Loop, tells: Callable[[int, int, str], object], leads: str = "") -> None:
        self.loop, self.tells = loop, tells
        # The prefix of its timers' names, since other windows have such timers too.
        self.leads = leads
        self.is_wanted = False
        self.looked: dict[int, float] = {}

    def touched(self, pane: PaneCommand, soon: float = SOON) -> None:
        """Record input or output of a pane."""
        name = f"{self.leads}front {pane.state.number}"
        if self.is_wanted and name not in self.loop.due:
            moment = max(self.loop.clock() + soon, self.looked.get(pane.state.number, -math.inf) + APART)
            self.loop.at(name, moment, lambda: self.look(pane))

    def look(self, pane: PaneCommand) -> None:
        """Look up the program of a pane."""
        self.looked[pane.state.number] = self.loop.clock()
        group = None if pane.terminal is None else group_in_front(pane.terminal)
        if group:
            self.tells(pane.state.number, pane.state.generation, name_of(group))

    def drop(self, number: int) -> None:
        """Forget a pane that is gone."""
        self.loop.drop(f"{self.leads}front {number}")
        self.looked.pop(number, None)
