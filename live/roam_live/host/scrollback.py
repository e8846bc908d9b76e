"""Stores the rows that scroll off the screens of a session's panes.

It sends each pane's output to the scrollback process, and accounts for rows lost if that process is slow or ends.
"""
from __future__ import annotations

from collections import deque

from roam_live.common.errors import Fault, reason
from roam_live.common.event_loop import Loop
from roam_live.common.process import is_stopped, program
from roam_live.common.retry import Retry
from roam_live.common.suppress import suppress
from roam_live.config.environment import DEFAULT_ROWS, chosen_history
from roam_live.host.pane_scrollback import PaneScrollback
from roam_live.host.scrollback_process import (ANSWERS, BACK, CLEARED, LEAST_SIZE, LOST, MOST_RECORD, MOST_SIZE, MOST_TERMINALS, NONE,
                                               ROWS, SCREEN, TEXT, ScrollbackProcess, ScrollbackRecord)
from roam_live.host.scrollback_store import PaneRows, RowsRoom, Snapshot

TYPE_CHECKING = False
if TYPE_CHECKING:
    from collections.abc import Callable

    from roam_live.common.tty import Size
    from roam_live.host.handed_rows import HandedProcess
    from roam_live.host.pane_scrollback import Rewrapped, Told

# Bytes in the queue of the scrollback process above which no pane is read, until half of them are left; and the most seconds of such a
# pause.
QUEUE = 1 << 18
WAITS = 1.0

# Seconds for the scrollback process to report a screen, and the number of such requests that may wait for one pane.
SCREEN_WAIT = 2.0
MOST_AWAITED = 64

# Bytes in reserve, freed first if memory is short.
RESERVED = 1 << 18

# The pauses before the scrollback process is restarted; the run time after which it counts as healthy; and the seconds before the same
# message is repeated.
PAUSES = (0.1, 1, 5, 15, 60)
SOUND = 10.0
TOLD_FOR = 60.0

# The rows of an ended pane stay for at most so many seconds, for log readers.
LAST_WAIT = 10.0

# The most second terminals, so that each of 891 panes finds a number for its first one. A pane above that shows its screen at the old size.
MOST_SECONDS = 64

# The sequence that shows the alternate screen (xterm, 1049).
SHOWS_OTHER = b"\x1b[?1049h"

BEHIND = "scrollback rows were lost: the scrollback process is too slow"
ENDED = "scrollback rows were lost: the scrollback process ended: {}; it is restarted"
SHORT = "scrollback rows were dropped: memory is low"
NOT_RUN = "no scrollback is stored: {}; tried again"

# Reasons that a screen, or any row, is missing. The row of the first kind stands in place of the screen.
NO_SCREEN = " [the screen is missing here: {}]\n"
OFF = "no rows are stored, since ROAM_HISTORY is 0"
NO_PANE = "it has no such pane any more"
RESTARTS = "the scrollback process ended, and is restarted soon"
STOPPED = "the scrollback process is stopped"
SILENT = "the scrollback process does not answer"


# A window has nine panes at most, so multiples of this keep the numbers of windows apart.
APART = 10


def pane_key(window: int, pane: int) -> int:
    """Return the number of a window's pane among all panes; the pane itself in a session of one unnumbered window."""
    return window * APART + pane


def pane_of_key(key: int) -> tuple[int, int]:
    """Return the window, and the pane there, of such a number."""
    return divmod(key, APART)


def chosen_rows() -> tuple[int, str]:
    """Return the limit of scrollback rows from ROAM_HISTORY, and an error; an invalid value means the default."""
    try:
        return chosen_history(), ""
    except Fault as fault:
        return DEFAULT_ROWS, f"{fault}; {DEFAULT_ROWS} rows are stored for each pane"


class Scrollback:
    """The rows of all panes, and the scrollback process. A call takes messages for the user."""

    def __init__(self, loop: Loop, tells: Callable[[str], object], most_rows: int | None = None,
                 handed: HandedProcess | None = None) -> None:
        self.loop, self.tells, self.handed = loop, tells, handed
        chosen, wrong = chosen_rows()
        if wrong:
            tells(wrong)
        self.room = RowsRoom(chosen if most_rows is None else most_rows)
        self.panes: dict[int, PaneScrollback] = {}
        # Ended panes whose last screen is awaited.
        self.leaving: list[PaneScrollback] = []
        self.process: ScrollbackProcess | None = None
        # The panes of the scrollback process's terminals, and of second ones; and the terminals to end once it accepts more.
        self.terminals: dict[int, PaneScrollback] = {}
        self.seconds: dict[int, PaneScrollback] = {}
        self.last = -1
        self.ending: list[int] = []
        # True while the scrollback process is behind, so that no pane is read; and True if that took too long, so that output is lost.
        self.is_behind = self.is_losing = False
        # True while no pane is read, so that this is quiet soon.
        self.is_paused = False
        self.retry = Retry(PAUSES, SOUND)
        self.is_off = self.room.most_rows == 0
        self.told, self.told_until = "", 0.0
        self.reserve = bytes(RESERVED)
        # The number of log readers; a call for new rows of a pane with such readers; and a check for a reader to wait for.
        self.logs = 0
        self.logs_came: Callable[[PaneRows], object] = lambda rows: None
        # A call for rows of such a pane that are withdrawn, from a number on.
        self.logs_back: Callable[[PaneRows, int, list[bytes]], object] = lambda rows, end, withdrawn: None
        self.waits_for_logs: Callable[[], bool] = lambda: False
        # Called if rows arrived or a pane closed, for a waiting peer; and if panes are read from now on, or aren't any more.
        self.came: Callable[[], object] = lambda: None
        self.hears_changed: Callable[[], object] = lambda: None
        # Returns True if a pane's program is known to show the alternate screen. No row scrolls off that, even in a new terminal.
        self.is_other: Callable[[int], bool] = lambda number: False
        self.spawn()

    # ---- the scrollback process

    def words(self) -> list[str]:
        """Return the command of the scrollback process."""
        return [program(), "rows", "--normalize"]

    def spawn(self) -> None:
        """Spawn a scrollback process, and retry later if that fails."""
        if self.is_off:
            return
        handed = self.handed.ends() if self.handed and self.handed.process else None
        try:
            self.process = ScrollbackProcess(self.loop, self.words(), self.take, self.wrote, self.ended, self.reads, self.shed, handed)
        except (Fault, OSError) as fault:
            self.tell(NOT_RUN.format(reason(fault)))
            self.spawn_later()
            return
        self.retry.begins(self.loop.clock())

    def spawn_later(self) -> None:
        """Spawn another scrollback process after a growing pause."""
        self.loop.later("rows again", self.retry.fails(), self.spawn)

    def ended(self, why: str, status: int | None) -> None:
        """Continue after the end of the scrollback process. The contents of its terminals are lost."""
        self.process = self.handed = None
        self.loop.drop("rows are behind")
        self.terminals.clear()
        self.seconds.clear()
        self.ending.clear()
        self.is_losing = False
        self.set_behind(False)
        for pane in [*self.panes.values(), *self.leaving]:
            self.cut(pane)
        self.retry.ends(self.loop.clock())
        if not self.is_off:
            self.tell(ENDED.format(why))
            self.spawn_later()

    def tell(self, words: str) -> None:
        """Send the user a message, but not the same again for a while."""
        if words != self.told or self.loop.clock() >= self.told_until:
            self.told, self.told_until = words, self.loop.clock() + TOLD_FOR
            self.tells(words)

    def shed(self) -> None:
        """Drop the older half of all rows if memory is short: they matter least of the host's data."""
        self.reserve = b""
        with suppress(MemoryError):
            self.room.shed()
            self.tell(SHORT)
            self.reserve = bytes(RESERVED)

    def hears(self) -> bool:
        """Return True if panes are read now."""
        return not (self.is_behind or self.is_paused)

    def reads(self) -> bool:
        """Return True if the output of the scrollback process is read now."""
        return not (self.logs and self.waits_for_logs())

    def has_room(self) -> bool:
        """Return True if the scrollback process accepts records other than output."""
        return self.process is not None and self.process.is_there and not self.is_losing and self.process.size() < 2 * QUEUE

    def set_behind(self, is_behind: bool) -> None:
        """Read panes, or stop, by the state of the scrollback process."""
        if is_behind != self.is_behind:
            self.is_behind = is_behind
            self.hears_changed()

    def demand_room(self) -> None:
        """Pause all panes for a while if too much waits for the scrollback process."""
        if self.process and not self.is_behind and not self.is_losing and self.process.size() >= QUEUE:
            self.set_behind(True)
            self.loop.later("rows are behind", WAITS, self.lose)

    def wrote(self) -> None:
        """Continue once the scrollback process has taken enough."""
        size = self.process.size() if self.process else 0
        if self.is_behind and size <= QUEUE // 2:
            self.set_behind(False)
            self.loop.drop("rows are behind")
        if not size:
            self.is_losing = False
        if self.ending:
            self.end_terminals()

    def lose(self) -> None:
        """Read panes again, and send the scrollback process nothing until its queue is empty."""
        self.is_losing = True
        self.set_behind(False)
        self.tell(BEHIND)

    # ---- panes

    def begin(self, number: int, generation: int, size: Size) -> None:
        """Store the rows of a pane generation, which is new, or which a host before this one may have handed over."""
        self.drop(number)
        pane = self.panes[number] = PaneScrollback(self.room.pane(number, generation), size)
        if self.handed and self.handed.give(number, generation, pane):
            self.terminals[pane.terminal] = pane
            if pane.second >= 0:
                self.seconds[pane.second] = pane

    def resize(self, number: int, size: Size) -> None:
        """Handle a new size of a pane."""
        pane = self.panes.get(number)
        if pane and (pane.size != size or pane.second >= 0):
            pane.size = size
            self.end_second(pane)
            if self.process and pane.terminal >= 0 and self.has_room():
                self.process.add("size {} {} {}".format(pane.terminal, *allowed(size)))
            elif pane.terminal >= 0:
                self.cut(pane)

    def ask_rewrap(self, number: int, size: Size, takes: Rewrapped) -> bool:
        """Ask for the text that paints a pane with its lines wrapped at a size; return False if the scrollback process can't know it."""
        pane = self.panes.get(number)
        if not pane or not pane.is_whole or pane.lacks or pane.terminal < 0 or not self.has_room() or size != allowed(size):
            return False
        pane.rewraps.append((size, takes))
        assert self.process is not None
        self.process.add("rewrap {} {} {}".format(pane.terminal, *size))
        return True

    def keep_main(self, number: int, size: Size) -> None:
        """Keep the main screen of a pane at the size before, and show its alternate screen in a second terminal of the new size."""
        pane = self.panes.get(number)
        if not self.process or not pane or pane.terminal < 0:
            return
        pane.size = size
        if pane.second >= 0:
            self.process.add("size {} {} {}".format(pane.second, *allowed(size)))
            return
        if sum(other.second >= 0 for other in self.panes.values()) >= MOST_SECONDS:
            return
        pane.second = self.new_terminal(size)
        self.seconds[pane.second] = pane
        self.process.add_bytes(pane.second, SHOWS_OTHER)

    def end_second(self, pane: PaneScrollback) -> None:
        """End the second terminal of a pane, if it has one."""
        if pane.second >= 0 and self.process:
            self.ending.append(pane.second)
            self.end_terminals()
        pane.second = -1

    def take_answer(self, pane: PaneScrollback, record: ScrollbackRecord) -> None:
        """Hand on the answer to the oldest question about a new size."""
        if not pane.rewraps or pane.terminal != record.terminal:
            return
        size, takes = pane.rewraps.popleft()
        if record.word == TEXT:
            pane.size = size
            self.end_second(pane)
        takes(record.word, record.data)

    def cut_by(self, number: int, size: Size) -> None:
        """Begin another terminal for a pane, of a new size, since it isn't known how the one before was resized."""
        pane = self.panes.get(number)
        if pane:
            pane.rewraps.clear()
            pane.size = size
            self.cut(pane)

    def feed(self, number: int, data: bytes) -> None:
        """Take the output of a pane."""
        pane = self.panes.get(number)
        if self.is_off or not pane or not data:
            return
        if not self.process or not self.process.is_there or self.is_losing:
            pane.lacks = True
            return
        try:
            self.demand_terminal(pane)
            self.process.add_bytes(pane.terminal, data)
            if pane.second >= 0:
                self.process.add_bytes(pane.second, data)
        except MemoryError:
            pane.lacks = True
            self.shed()
        self.demand_room()

    def demand_terminal(self, pane: PaneScrollback) -> None:
        """Give a pane a terminal in the scrollback process; a new one if output for the old one was lost."""
        if not self.process or pane.terminal >= 0 and not pane.lacks:
            return
        self.cut(pane)
        pane.terminal = self.new_terminal(pane.size)
        self.terminals[pane.terminal] = pane
        if pane.is_cut and self.is_other(pane.rows.pane):
            self.process.add_bytes(pane.terminal, SHOWS_OTHER)

    def new_terminal(self, size: Size) -> int:
        """Begin a terminal in the scrollback process, and return its number, which no pane uses."""
        assert self.process is not None
        used = {number for pane in [*self.panes.values(), *self.leaving] for number in (pane.terminal, pane.second)}
        used |= set(self.handed.rest()) if self.handed else set()
        self.last = next(number % MOST_TERMINALS for number in range(self.last + 1, self.last + 1 + MOST_TERMINALS)
                         if number % MOST_TERMINALS not in used)
        self.terminals.pop(self.last, None)
        self.seconds.pop(self.last, None)
        self.process.add("pane {} {} {}".format(self.last, *allowed(size)))
        return self.last

    def cut(self, pane: PaneScrollback) -> None:
        """Detach a pane from its terminal, if any, because some of its output is missing there."""
        pane.is_cut = pane.is_cut or pane.lacks or pane.terminal >= 0
        pane.is_whole, pane.lacks = pane.is_whole and not pane.is_cut, False
        self.end_terminal(pane)
        self.answer_all(pane)

    def miss(self, number: int) -> None:
        """Record that the output of a pane so far is unknown here, unless its terminal was handed over."""
        pane = self.panes.get(number)
        if pane and pane.terminal < 0:
            pane.lacks, pane.is_whole = True, False

    def is_quiet(self) -> bool:
        """Return True if nothing is under way between this and the scrollback process."""
        is_busy = self.leaving or self.is_losing or self.is_behind or self.ending
        is_asked = any(pane.awaited or pane.rewraps for pane in self.panes.values())
        return not (is_busy or is_asked) and (not self.process or self.process.is_quiet())

    def pause(self, is_paused: bool) -> None:
        """Read no pane, and send the scrollback process what waits for it; or read all of them again."""
        if self.is_paused != is_paused:
            self.is_paused = is_paused
            self.hears_changed()
        if is_paused and self.process:
            self.process.hand()

    def drop_handed(self) -> None:
        """Drop what a host before this one has handed over for panes that did not come back."""
        if self.handed:
            self.ending += self.handed.rest()
            self.handed = None
            self.end_terminals()
        self.room.drop_handed()

    def end_terminal(self, pane: PaneScrollback) -> None:
        """End the terminal of a pane. Earlier output of it may still come."""
        self.end_second(pane)
        if pane.terminal >= 0 and self.process:
            self.ending.append(pane.terminal)
            self.end_terminals()
        pane.terminal = -1

    def end_terminals(self) -> None:
        """Send the scrollback process the terminals to end, if it accepts that much."""
        if self.process and self.has_room():
            for terminal in self.ending:
                self.process.add(f"gone {terminal}")
            self.ending.clear()

    def drop(self, number: int) -> None:
        """Drop the rows of a pane, after log readers have got its last screen."""
        if number not in self.panes:
            return
        pane = self.panes.pop(number)
        if pane.logs and self.has_room():
            self.leaving.append(pane)
            self.ask_screen(pane, lambda snapshot: self.take_last(pane, snapshot))
        else:
            self.forget(pane)

    def take_last(self, pane: PaneScrollback, snapshot: Snapshot | None) -> None:
        """Store the last screen of an ended pane, without the blank rows at its end."""
        if snapshot:
            rows = snapshot.screen.data.rstrip(b" \n").split(b"\n") if snapshot.screen.data.strip() else []
            self.room.release(snapshot)
            pane.rows.add(len(rows), b"".join(row + b"\n" for row in rows))
        pane.has_last = True
        self.came()
        self.loop.later(f"last of {id(pane)}", LAST_WAIT, lambda: self.forget(pane))
        self.unlogged(pane)

    def unlogged(self, pane: PaneScrollback) -> None:
        """Drop an ended pane once it has no log readers."""
        if pane.has_last and not pane.logs:
            self.forget(pane)

    def forget(self, pane: PaneScrollback) -> None:
        """Drop an ended pane."""
        if pane.is_gone:
            return
        pane.is_gone = True
        self.loop.drop(f"last of {id(pane)}")
        if pane in self.leaving:
            self.leaving.remove(pane)
        self.end_terminal(pane)
        self.answer_all(pane)
        self.room.drop(pane.rows)
        self.came()

    # ---- output of the scrollback process

    def take(self, record: ScrollbackRecord) -> None:
        """Take a record about a terminal."""
        pane = self.terminals.get(record.terminal)
        if record.terminal in self.seconds and record.word == SCREEN:
            self.take_screen(self.seconds[record.terminal], record)
            return
        if not pane or pane.is_gone:
            return
        if pane.is_cut and pane.terminal == record.terminal:
            pane.is_cut = False
            pane.rows.lose(None)
        if record.word == ROWS:
            self.add_rows(pane.rows, record)
        elif record.word == LOST:
            pane.rows.lose(record.rows)
        elif record.word == CLEARED:
            pane.rows.clear()
        elif record.word == BACK:
            self.take_back(pane, record.rows)
        elif record.word in ANSWERS:
            self.take_answer(pane, record)
        elif pane.terminal == record.terminal:
            self.take_screen(pane, record)
        if pane.logs or self.room.snapshots:
            pane.rows.settle()
            self.came()
        if pane.logs:
            self.logs_came(pane.rows)

    def take_back(self, pane: PaneScrollback, count: int) -> None:
        """Withdraw the newest rows of a pane."""
        rows = pane.rows
        end = max(rows.first, rows.end - count)
        if pane.logs and end < rows.end:
            self.logs_back(rows, end, rows.newest(end).rows(end, rows.end - end, count, MOST_RECORD)[1])
        rows.withdraw(count)

    def take_screen(self, pane: PaneScrollback, record: ScrollbackRecord) -> None:
        """Answer the oldest request for the screen of a pane."""
        told = pane.awaited.popleft() if pane.awaited and not pane.is_gone else None
        if told:
            told(self.room.snapshot(pane.rows, record.rows, record.data))

    def add_rows(self, rows: PaneRows, record: ScrollbackRecord) -> None:
        """Store rows. If memory is short, older ones are dropped and these are lost."""
        try:
            rows.add(record.rows, record.data)
        except MemoryError:
            self.shed()
            rows.lose(record.rows)

    # ---- requests

    def pane(self, number: int, generation: int) -> PaneScrollback | None:
        """Return a generation of a pane, if its rows are still stored."""
        found = [self.panes[number]] if number in self.panes else []
        found += [pane for pane in self.leaving if pane.rows.pane == number]
        pane = next((pane for pane in found if pane.rows.generation == generation and not self.is_off), None)
        if pane:
            pane.rows.settle()
        return pane

    def ask_snapshot(self, number: int, generation: int, told: Told) -> None:
        """Request a snapshot. It comes once the scrollback process has reported the screen.

        If that fails, a row with the reason stands in place of the screen; None if no rows are stored either.
        """
        found = self.pane(number, generation)
        if not found:
            told(None)
            return
        pane: PaneScrollback = found
        if self.has_room() and len(pane.awaited) < MOST_AWAITED and self.why_silent() != STOPPED:
            self.ask_screen(pane, lambda snapshot: told(snapshot or self.stored(pane)))
        else:
            told(self.stored(pane))

    def stored(self, pane: PaneScrollback) -> Snapshot | None:
        """Return a snapshot of the stored rows alone, with the reason in place of the screen; None if there are none."""
        rows = pane.rows.range()
        if pane.is_gone or rows.first == rows.end:
            return None
        return self.room.snapshot(pane.rows, 1, NO_SCREEN.format(self.why_silent()).encode())

    def why_silent(self) -> str:
        """Return the reason that the scrollback process reports no screen."""
        if not self.process or not self.process.is_there:
            return RESTARTS
        return STOPPED if is_stopped(self.process.process) else SILENT

    def why_none(self, number: int, generation: int) -> str:
        """Return the reason that a pane has no rows for a peer."""
        return OFF if self.is_off else self.why_silent() if self.pane(number, generation) else NO_PANE

    def ask_screen(self, pane: PaneScrollback, told: Told) -> None:
        """Request a screen from the scrollback process, which has room."""
        self.demand_terminal(pane)
        pane.awaited.append(told)
        if self.process:
            self.process.add(f"screen {pane.terminal if pane.second < 0 else pane.second}")
        name = f"screen of {id(pane)}"
        if name not in self.loop.due:
            self.loop.later(name, SCREEN_WAIT, lambda: self.tell_none(pane))

    def tell_none(self, pane: PaneScrollback) -> None:
        """Answer None to all callers that wait for a screen. A later report of that screen answers nobody."""
        waited = list(pane.awaited)
        pane.awaited = deque([None] * len(waited))
        for told in waited:
            if told:
                told(None)

    def answer_all(self, pane: PaneScrollback) -> None:
        """Do the same if the scrollback process will not report that screen later."""
        self.loop.drop(f"screen of {id(pane)}")
        self.tell_none(pane)
        pane.awaited.clear()
        rewraps, pane.rewraps = pane.rewraps, deque()
        for _, takes in rewraps:
            takes(NONE, b"")

    def close(self) -> None:
        """End the scrollback process by closing its input."""
        self.is_off = True
        if self.process:
            self.process.end("the session ends")


def allowed(size: Size) -> Size:
    """Return the size of the scrollback process's terminal for a pane's size."""
    rows, cols = (min(max(one, least), most) for one, least, most in zip(size, LEAST_SIZE, MOST_SIZE))
    return rows, cols
