"""The requests about the scrollback rows of panes at the socket `host`."""
from __future__ import annotations

from roam_live.common.text import decimal_in
from roam_live.host.log_skip import LogSkip
from roam_live.host.pane_scrollback import PaneScrollback
from roam_live.host.scrollback import Scrollback, pane_key, pane_of_key
from roam_live.host.scrollback_store import ScrollbackRange, Search, Snapshot
from roam_live.protocol.host_lines import (BACK, COUNT, END, FIND, FOUND, LOG, MORE, MOST_NUMBER, NONE, ON, RELEASE, ROWS, SNAPSHOT,
                                             led)
from roam_live.protocol.panes import MOST_PANES

TYPE_CHECKING = False
if TYPE_CHECKING:
    from collections.abc import Callable

# Seconds of one step of a search, and seconds between two reports of new rows.
SEARCHES = 0.01
TELLS_MORE = 0.5

# The reason that a peer's snapshot has no rows.
DROPPED = "the snapshot took too much memory and was dropped"

# The directions of a search.
WAYS = {BACK: True, ON: False}


def numbers_in(words: list[str]) -> list[int] | None:
    """Return these words as numbers, the first one that of a pane; None if they are invalid."""
    numbers = [number for number in (decimal_in(word, MOST_NUMBER) for word in words) if number is not None]
    return numbers if numbers and len(numbers) == len(words) and 1 <= numbers[0] <= MOST_PANES else None


class RowAsker:
    """A peer that requests rows: its snapshot, its search, and the pane that it logs.

    One call answers it, and one sends it an unrequested line. Another is for a delayed answer, after which its next request is read.
    """

    def __init__(self, scrollback: Scrollback, answer: Callable[[bytes], object], tells: Callable[[str], object],
                 goes_on: Callable[[], object]) -> None:
        self.scrollback, self.answer, self.tells, self.goes_on = scrollback, answer, tells, goes_on
        # The window of the last request, and the number by which the request named it.
        self.window = self.said = 0
        self.snapshot: Snapshot | None = None
        # The reported number of new rows, and the earliest moment of the next such report.
        self.more, self.more_due = 0, 0.0
        # The number of the request that waits for a snapshot; the current search, and the start of its answer.
        self.awaited = 0
        self.is_asking = False
        self.search: Search | None = None
        self.found_begin = ""
        # The pane whose rows it logs, its next row, and the part of the next rows that it has got.
        self.logged: PaneScrollback | None = None
        self.next_row = 0
        self.log_skip = LogSkip()
        # True if its wait is over, and no other begins until it has read everything.
        self.is_late = False
        self.is_closed = False

    def waits(self) -> bool:
        """Return True if a request is unanswered: the next one is read after it."""
        return bool(self.awaited) or self.search is not None

    # ---- requests

    def take(self, line: str, window: int = 0, said: int = 0) -> bool:
        """Take a line about the panes of a window, and return True if it is valid here."""
        self.window, self.said = window, said
        word, *words = line.split(" ")
        if word == FIND:
            return self.find(line.split(" ", 5)[1:])
        asks: dict[str, tuple[int, Callable[..., object]]] = {COUNT: (2, self.count), SNAPSHOT: (2, self.ask_snapshot),
                                                              RELEASE: (2, self.release), LOG: (3, self.log), ROWS: (4, self.rows)}
        count, does = asks.get(word, (0, self.say))
        numbers = numbers_in(words) if count and len(words) == count else None
        if not numbers:
            return False
        does(*numbers)
        return True

    def say(self, line: str, data: bytes = b"", said: int | None = None) -> None:
        """Answer with a line and data after it, about the window of the last request or another."""
        self.answer(f"{led(self.said if said is None else said, line)}\n".encode() + data)

    def said_of(self, key: int) -> int:
        """Return the number by which the window of a pane is named."""
        return pane_of_key(key)[0] if self.said else 0

    def key(self, pane: int) -> int:
        """Return the number of a pane among those of all windows."""
        return pane_key(self.window, pane)

    def range(self, pane: int, generation: int) -> ScrollbackRange | None:
        """Return the rows of a request: those of the peer's snapshot, else the stored ones."""
        held = self.snapshot
        if held and (held.pane, held.generation) == (self.key(pane), generation):
            return None if held.is_lost else held
        pane_scrollback = self.scrollback.pane(self.key(pane), generation)
        return pane_scrollback.rows.range() if pane_scrollback else None

    def count(self, pane: int, generation: int) -> None:
        """Send the numbers of the rows."""
        among = self.range(pane, generation)
        self.say(f"{COUNT} {pane} {generation} {among.first} {among.end}" if among else self.refusal(COUNT, pane, generation))

    def refusal(self, word: str, pane: int, generation: int) -> str:
        """Return the answer that there are no rows, with the reason."""
        held = self.snapshot
        is_lost = held and held.is_lost and (held.pane, held.generation) == (self.key(pane), generation)
        return f"{word} {pane} {generation} {NONE} {DROPPED if is_lost else self.scrollback.why_none(self.key(pane), generation)}"

    def rows(self, pane: int, generation: int, first: int, count: int) -> None:
        """Send rows."""
        among = self.range(pane, generation)
        if among:
            self.say_rows(pane, generation, *among.rows(first, count))
        else:
            self.say(f"{ROWS} {pane} {generation} {NONE}")

    def say_rows(self, pane: int, generation: int, first: int, found: list[bytes], said: int | None = None) -> None:
        """Answer with rows."""
        data = b"".join([row + b"\n" for row in found])
        self.say(f"{ROWS} {pane} {generation} {first} {len(found)} {len(data)}", data, said)

    def find(self, words: list[str]) -> bool:
        """Start a search, whose result follows later; return False if the words are invalid."""
        numbers = numbers_in(words[:3]) if len(words) == 5 and words[3] in WAYS and words[4] else None
        if not numbers:
            return False
        pane, generation, start = numbers
        among = self.range(pane, generation)
        self.found_begin = f"{FOUND} {pane} {generation}"
        if among:
            self.search = Search(among, start, WAYS[words[3]], words[4])
        else:
            self.say(f"{self.found_begin} {NONE}")
        return True

    def ask_snapshot(self, pane: int, generation: int) -> None:
        """Request a snapshot, which follows later and replaces the earlier one."""
        self.let_go()
        self.awaited, self.is_asking = self.awaited + 1, True
        self.scrollback.ask_snapshot(self.key(pane), generation, lambda snapshot: self.take_snapshot(pane, generation, snapshot))
        self.is_asking = False

    def take_snapshot(self, pane: int, generation: int, snapshot: Snapshot | None) -> None:
        """Answer with a snapshot."""
        if self.is_closed:
            if snapshot:
                self.scrollback.room.release(snapshot)
            return
        self.awaited = 0
        self.snapshot, self.more, self.more_due = snapshot, 0, 0.0
        if snapshot:
            screen = snapshot.screen
            self.say(f"{SNAPSHOT} {pane} {generation} {snapshot.first} {snapshot.scrollback_end} {screen.count} {len(screen.data)}",
                     screen.data)
        else:
            self.say(self.refusal(SNAPSHOT, pane, generation))
        if not self.is_asking:
            self.goes_on()

    def release(self, pane: int, generation: int) -> None:
        """Release a snapshot."""
        if self.snapshot and (self.snapshot.pane, self.snapshot.generation) == (self.key(pane), generation):
            self.let_go()

    def let_go(self) -> None:
        """Release the snapshot."""
        if self.snapshot:
            self.scrollback.room.release(self.snapshot)
            self.snapshot = None

    def log(self, pane: int, generation: int, first: int) -> None:
        """Send each row from a number on as it comes, until the pane ends, and then the last screen."""
        self.unlog()
        self.logged = self.scrollback.pane(self.key(pane), generation)
        if self.logged:
            self.logged.logs += 1
            self.scrollback.logs += 1
            self.next_row, self.is_late, self.log_skip = first, False, LogSkip()
        else:
            self.say(f"{LOG} {pane} {generation} {NONE}")

    def unlog(self) -> None:
        """Stop sending rows as they come."""
        if self.logged:
            logged, self.logged = self.logged, None
            logged.logs -= 1
            self.scrollback.logs -= 1
            self.scrollback.unlogged(logged)

    def skip_logged(self, end: int, withdrawn: list[bytes]) -> None:
        """Skip rows that are withdrawn from a number on, as far as they were sent."""
        if self.next_row > end:
            self.log_skip.add(withdrawn[: self.next_row - end])
            self.next_row = end

    # ---- delayed answers

    def turn(self, now: float, has_room: bool) -> float | None:
        """Continue with delayed answers, and return the moment of the next call, or None."""
        dues = [self.go_on_search(now), self.tell_more(now), now if has_room and self.tell_logged() else None]
        return min((due for due in dues if due is not None), default=None)

    def go_on_search(self, now: float) -> float | None:
        """Continue the search for a while."""
        search, clock = self.search, self.scrollback.loop.clock
        if not search:
            return None
        end = clock() + SEARCHES
        while not search.step():
            if clock() >= end:
                return now
        self.search = None
        self.say(f"{self.found_begin} {NONE if search.found is None else search.found}")
        self.goes_on()
        return None

    def tell_more(self, now: float) -> float | None:
        """Report the number of rows since the snapshot if it has changed."""
        held = self.snapshot
        pane_scrollback = self.scrollback.pane(held.pane, held.generation) if held else None
        more = max(0, pane_scrollback.rows.end - held.scrollback_end) if held and pane_scrollback else self.more
        if not held or more == self.more:
            return None
        if now < self.more_due:
            return self.more_due
        self.more, self.more_due = more, now + TELLS_MORE
        self.tells(led(self.said_of(held.pane), f"{MORE} {pane_of_key(held.pane)[1]} {held.generation} {self.more}"))
        return None

    def tell_logged(self) -> bool:
        """Send the rows that a log reader lacks, and return True if there were any."""
        logged = self.logged
        if not logged:
            return False
        rows = logged.rows
        first, found = rows.newest(self.next_row).rows(self.next_row, rows.end) if rows.end > self.next_row else (0, [])
        if found:
            self.next_row = first + len(found)
            found = self.log_skip.rest(found)
            if found:
                self.say_rows(pane_of_key(rows.pane)[1], rows.generation, self.next_row - len(found), found, self.said_of(rows.pane))
            return True
        self.is_late = False
        if logged.is_gone or logged.has_last and self.next_row == rows.end:
            self.unlog()
            self.say(f"{LOG} {pane_of_key(rows.pane)[1]} {rows.generation} {END}", said=self.said_of(rows.pane))
        return False

    def close(self) -> None:
        """End all requests."""
        self.is_closed = True
        self.search = None
        self.unlog()
        self.let_go()
