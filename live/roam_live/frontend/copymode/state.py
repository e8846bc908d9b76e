"""The state of one user's copy mode: its pane, the pending input, and its requests to the pty host for rows and matches.

One request at a time is in flight. Input that needs the answer is repeated once it is here.
"""
from __future__ import annotations

from collections import deque, namedtuple
from collections.abc import Callable

from roam_live.frontend.copymode.mode import CopyMode
from roam_live.frontend.copymode.rows import Missing, MissingRows
from roam_live.frontend.copymode.search import MissingFind
from roam_live.frontend.window_acts import WindowActs, nothing
from roam_live.protocol.panes import Rect
from roam_live.protocol.scrollback_client import Snapshot


class CopyEvent(namedtuple("CopyEvent", "does instead", defaults=(nothing,))):
    """An input event: its effect in copy mode, and the alternative without rows."""

    does: Callable[[CopyMode], object]
    instead: Callable[[], object]


class CopyState:
    """The state of one user's copy mode."""

    def __init__(self, acts: WindowActs) -> None:
        # The window, and the source of its rows.
        self.acts, self.scrollback = acts, acts.host.scrollback
        self.mode: CopyMode | None = None
        # The pane and its generation with a requested or current snapshot, and the number of requests for one.
        self.pane = self.generation = self.opening = 0
        self.is_opening = False
        # Its rectangle on the terminal, and the number of new rows since the snapshot.
        self.rect = Rect(1, 1, 1, 1)
        self.came = 0
        # The pending input.
        self.events: deque[CopyEvent] = deque()

    def is_on(self) -> bool:
        """Return True if it is open, or opens once a snapshot is here."""
        return self.mode is not None or self.is_opening


# The most rows of one request, and the pages of the first one: the needed page, and one ahead.
MOST_ASKED = 2000
PAGES_ASKED = 2

# Seconds until a request is repeated after a lost connection.
ASKS_AGAIN = 0.1

# Seconds for a host to return a snapshot. If the host is stopped, the shared view scrolls.
LENDS = 2.0

# Seconds between checks for a connection to the host.
CONNECTS = 0.05

# A longer wait for an answer is reported.
WAITS = 0.5
WAITING = "waiting for rows; C-c leaves"
GONE = "these rows are no longer stored"


class CopyAsking:
    """The requests of one user's copy mode.

    Calls continue after an answer, close copy mode with a reason, and take a snapshot with the number of its request, None without one.
    """

    def __init__(self, state: CopyState, goes_on: Callable[[], object], closes: Callable[[str], object],
                 lent: Callable[[int, Snapshot | None], object]) -> None:
        self.state, self.goes_on, self.closes, self.lent = state, goes_on, closes, lent
        self.loop, self.display = state.acts.loop, state.acts.display
        # True while an answer is awaited; and the size of the last request for rows in the current step.
        self.is_waiting = False
        self.asks = 0

    def end(self) -> None:
        """Wait for nothing any more."""
        self.is_waiting, self.asks = False, 0
        self.loop.drop("copy asks again")
        self.settle()

    def tell_later(self) -> None:
        """Report that an answer is awaited, once that takes long."""
        if "copy waits" not in self.loop.due:
            self.loop.later("copy waits", WAITS, lambda: self.display.row.tell(WAITING, None))

    def settle(self) -> None:
        """Stop reporting that an answer is awaited."""
        self.loop.drop("copy waits")
        if self.display.row.told == WAITING:
            self.display.row.end_told()

    def ask(self, lack: Missing) -> None:
        """Request a missing part."""
        self.is_waiting = True
        self.tell_later()
        if isinstance(lack, MissingFind):
            self.ask_find(lack)
        elif isinstance(lack, MissingRows):
            self.ask_rows(lack.row)

    def ask_find(self, lack: MissingFind) -> None:
        """Request the next match."""
        state, opening = self.state, self.state.opening

        def take(row: int | None) -> None:
            if not state.mode or opening != state.opening:
                return
            if row is None and state.acts.host.is_connecting():
                self.loop.later("copy asks again", ASKS_AGAIN, self.answered)
                return
            state.mode.finds.put(lack, row)
            self.answered()

        state.scrollback.find(state.pane, state.generation, lack.first, lack.is_back, lack.text, take)

    def ask_rows(self, row: int) -> None:
        """Request a row with those after it, or before it if those are here. Each further request of one step asks for more rows."""
        state, opening = self.state, self.state.opening
        if not state.mode:
            return
        rows = state.mode.rows
        self.asks = min(MOST_ASKED, max(PAGES_ASKED * state.rect.rows, 2 * self.asks))
        is_back = rows.has(row + 1)
        first = max(rows.first, row - self.asks + 1) if is_back else row
        count = min(self.asks, (row + 1 if is_back else rows.end) - first)

        def take(at: int, lines: list[bytes]) -> None:
            if not state.mode or opening != state.opening:
                return
            rows.put(at, lines[:MOST_ASKED])
            rows.forget_far(row)
            if rows.has(row):
                self.answered()
            elif lines and first <= at and at + len(lines) <= row:
                # Fewer rows came than requested.
                state.scrollback.rows(state.pane, state.generation, at + len(lines), row - at - len(lines) + 1, take)
            elif not lines and state.acts.host.is_connecting():
                # Rows keep their numbers, so the request is repeated on the next connection.
                self.loop.later("copy asks again", ASKS_AGAIN, self.answered)
            else:
                self.closes(GONE)

        state.scrollback.rows(state.pane, state.generation, first, count, take)

    def answered(self) -> None:
        """Continue the steps that waited for an answer."""
        self.is_waiting = False
        self.settle()
        self.goes_on()

    # ---- a snapshot

    def begin(self) -> int:
        """Wait for the snapshot that opens it, up to the limit, and return the number of the request."""
        self.state.opening += 1
        opening, self.state.is_opening = self.state.opening, True
        self.loop.later("copy opens", LENDS, lambda: self.lent(opening, None))
        self.tell_later()
        return opening

    def ask_snapshot(self) -> None:
        """Request a snapshot."""
        self.ask_connected(self.begin())

    def ask_connected(self, opening: int) -> None:
        """Request it once the host is connected, if that may be soon."""
        if opening != self.state.opening or not self.state.is_opening:
            return
        if self.state.acts.host.is_connecting():
            self.loop.later("copy connects", CONNECTS, lambda: self.ask_connected(opening))
        else:
            self.state.scrollback.snapshot(self.state.pane, self.state.generation, lambda snapshot: self.take_snapshot(opening, snapshot))

    def take_snapshot(self, opening: int, snapshot: Snapshot | None) -> None:
        """Take the host's answer. If the connection was lost instead, repeat the request on the next one."""
        if snapshot is None and self.state.acts.host.is_connecting():
            self.ask_connected(opening)
        else:
            self.lent(opening, snapshot)
