"""Unexpected exceptions in a process that continues: each is logged with its traceback, at a limited rate."""
from __future__ import annotations

import time

from roam_live.common.errors import Fault, log_in_full, say
from roam_live.common.suppress import suppress
from roam_live.common.text import one_line

TYPE_CHECKING = False
if TYPE_CHECKING:
    from collections.abc import Callable

# An exception raised at one source line is logged once in APART seconds; MOST_PLACES lines are remembered.
APART = 60.0
MOST_PLACES = 64

# Limits of a logged traceback: calls, characters, and characters of a line.
MOST_CALLS = 16
MOST_LOGGED = 4000
LONGEST_LINE = 300

# A pane may have MOST_SOON exceptions in SOON seconds; the next one closes it.
MOST_SOON = 2
SOON = 10.0


def place_of(fault: BaseException) -> str:
    """Return the source line that raised an exception."""
    last = fault.__traceback__
    while last and last.tb_next:
        last = last.tb_next
    return f"{last.tb_frame.f_code.co_filename}:{last.tb_lineno}" if last else ""


def told_in_full(fault: BaseException) -> str:
    """Return the traceback of an exception, bounded for a log."""
    import traceback

    lines = traceback.format_exception(type(fault), fault, fault.__traceback__, limit=-MOST_CALLS)
    return "".join(line[:LONGEST_LINE].rstrip("\n") + "\n" for line in "".join(lines).splitlines())[:MOST_LOGGED]


class FaultLog:
    """Logs unexpected exceptions. One from a source line that was logged less than APART seconds ago is only counted."""

    def __init__(self, clock: Callable[[], float] = time.monotonic) -> None:
        self.clock = clock
        # For each source line: the moment of its last log entry, and the number of exceptions since then. Then the number of all
        # exceptions.
        self.logged: dict[str, tuple[float, int]] = {}
        self.count = 0

    def take(self, fault: Exception) -> None:
        """Log an exception, or count it."""
        self.count += 1
        # If memory is short, logging may fail too.
        with suppress(Exception):
            place, now = place_of(fault), self.clock()
            since, more = self.logged.get(place, (float("-inf"), 0))
            if now < since + APART:
                self.logged[place] = since, more + 1
                return
            self.logged.pop(place, None)
            while len(self.logged) >= MOST_PLACES:
                del self.logged[next(iter(self.logged))]
            self.logged[place] = now, 0
            self.tell(fault, more)

    @staticmethod
    def tell(fault: Exception, more: int) -> None:
        """Log an exception. A `Fault` has a message for the user, so it needs no traceback."""
        if isinstance(fault, Fault):
            say(one_line(str(fault)[:LONGEST_LINE]))
            return
        line = one_line(f"{type(fault).__name__}: {fault}"[:LONGEST_LINE])
        say(f"internal error, roam continues: {line}" + (f" ({more} more since the last one logged)" if more else ""))
        log_in_full(told_in_full(fault))


class SoonFaults:
    """Counts exceptions, and reports if there were too many in SOON seconds."""

    def __init__(self, clock: Callable[[], float]) -> None:
        self.clock = clock
        self.moments: list[float] = []

    def is_last(self) -> bool:
        """Count an exception, and return True if it is one too many."""
        now = self.clock()
        self.moments = [moment for moment in self.moments if now < moment + SOON]
        is_last = len(self.moments) >= MOST_SOON
        self.moments.append(now)
        return is_last
