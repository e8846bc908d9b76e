"""A pane of one generation, as the scrollback process and the stored rows know it."""
from __future__ import annotations

from collections import deque

from roam_live.host.scrollback_store import PaneRows, Snapshot

TYPE_CHECKING = False
if TYPE_CHECKING:
    from collections.abc import Callable

    from roam_live.common.tty import Size

    # The call with a snapshot; None if there is none.
    Told = Callable[[Snapshot | None], object]

    # The call with the answer to a new size: its word, and the text that paints the screen.
    Rewrapped = Callable[[str, bytes], object]


class PaneScrollback:
    """A generation of a pane: its rows, its size, and its terminal in the scrollback process, or -1."""

    def __init__(self, rows: PaneRows, size: Size) -> None:
        self.rows, self.size = rows, size
        self.terminal = -1
        # Its second terminal, or -1. It shows the alternate screen at a new size. Meanwhile the first one keeps the main screen at the size
        # before.
        self.second = -1
        # True if some output didn't reach the scrollback process; and true if rows are lost and the rows don't say so yet.
        self.lacks = self.is_cut = False
        # The calls that wait for its screen; None for one that was answered without it.
        self.awaited: deque[Told | None] = deque()
        # The number of logs of its rows, which get its last screen too.
        self.logs = 0
        # True if its terminal has read everything since the pane began; the sizes asked for, and what takes each answer.
        self.is_whole = True
        self.rewraps: deque[tuple[Size, Rewrapped]] = deque()
        # True if it is closed, so that its last screen is final; and true if its rows aren't kept any more.
        self.has_last = self.is_gone = False
