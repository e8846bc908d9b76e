"""Pauses between attempts to restore a connection or a process."""
from __future__ import annotations

TYPE_CHECKING = False
if TYPE_CHECKING:
    from collections.abc import Sequence

# The default pauses in seconds, and the duration after which an end is no failure.
PAUSES = (0.1, 1, 2, 4, 8, 15)
SOUND = 5.0


class Retry:
    """Counts failures in a row. Each makes the next pause longer, until something lasts `sound` seconds."""

    def __init__(self, pauses: Sequence[float] = PAUSES, sound: float = SOUND) -> None:
        self.pauses, self.sound = pauses, sound
        self.faults, self.since = 0, float("-inf")

    def begins(self, now: float) -> None:
        """Record the start of something at a moment."""
        self.since = now

    def ends(self, now: float) -> None:
        """Record its end."""
        self.faults = 0 if now >= self.since + self.sound else self.faults

    def fails(self) -> float:
        """Count a failure, and return the next pause."""
        self.faults += 1
        return self.pause()

    def pause(self, others: int = 0) -> float:
        """Return the pause after the failures so far, or after so many others if those are more. It is 0 without failures."""
        faults = max(self.faults, others)
        return self.pauses[min(faults, len(self.pauses)) - 1] if faults else 0.0
