"""The event loop of a process: descriptors ("ends") with callbacks, named timers, and hooks before each wait."""
from __future__ import annotations

import errno
import select
import time
from _operator import itemgetter

from roam_live.common.suppress import suppress

TYPE_CHECKING = False
if TYPE_CHECKING:
    from collections.abc import Callable
    from typing import Protocol, Union

    class HasEnd(Protocol):
        """An object with a descriptor."""

        def fileno(self) -> int:
            """Return the descriptor."""

    End = Union[int, HasEnd]
    Does = Callable[[], object]
    TakesFault = Callable[[Exception], object]

READ, WRITE = 1, 2

# epoll events as events of this module, and the reverse. Any other epoll event, such as a hangup, counts as all that the end waits for.
FOUND = {select.EPOLLIN: READ, select.EPOLLOUT: WRITE, select.EPOLLIN | select.EPOLLOUT: READ | WRITE}
WATCHED = {READ: select.EPOLLIN, WRITE: select.EPOLLOUT, READ | WRITE: select.EPOLLIN | select.EPOLLOUT}

# epoll waits whole milliseconds. A shorter wait than FINE seconds uses select, which takes descriptors below MOST_SELECTED.
FINE = 0.01
MOST_SELECTED = 1024

# Longest wait, in seconds; epoll rejects longer timeouts than 24 days.
LONGEST = 86400.0

# Seconds for which an end without a `fails` callback is paused after an exception, and after which a timer that failed is called again.
RESTS = 1.0

MOMENT = itemgetter(0)

def place_of(found: tuple[LoopEnd, int, int]) -> int:
    """Return the rank of a ready end: ends are served in the order in which they were added."""
    return found[0].place


def always() -> bool:
    """Return True."""
    return True


def number_of(end: End) -> int:
    """Return the descriptor of an end."""
    return end if isinstance(end, int) else end.fileno()


def ready(end: End, events: int, seconds: float) -> int:
    """Wait up to `seconds` for some of these events at an end, and return those that it has."""
    poll = select.poll()
    poll.register(number_of(end), (select.POLLIN if events & READ else 0) | (select.POLLOUT if events & WRITE else 0))
    return sum(FOUND.get(found, READ | WRITE) & events for _, found in poll.poll(max(0.0, seconds) * 1000))


def comes(end: End, seconds: float) -> bool:
    """Return True if an end becomes readable within so many seconds."""
    return bool(ready(end, READ, seconds))


def is_taken(end: End, seconds: float) -> bool:
    """Return True if an end becomes writable within so many seconds."""
    return bool(ready(end, WRITE, seconds))


def is_hung_up(end: End) -> bool:
    """Return True if the other end of a connection has gone, also while bytes from it are unread."""
    poll = select.poll()
    poll.register(number_of(end), 0)
    return bool(poll.poll(0))


class Watched:
    """The descriptors that epoll watches, with the events of each.

    A descriptor with no events is unregistered, since epoll would report its hangup again and again. Regular files, which epoll rejects,
    are always ready.
    """

    def __init__(self) -> None:
        self.poller = select.epoll()
        self.events: dict[int, int] = {}
        self.files: set[int] = set()

    def watch(self, number: int, events: int) -> None:
        """Watch a descriptor for these events from now on; OSError if the system refuses."""
        if events == self.events.get(number, 0):
            return
        if not events:
            self.forget(number)
            return
        if number not in self.files:
            self.tell_system(number, WATCHED[events])
        self.events[number] = events

    def tell_system(self, number: int, mask: int) -> None:
        """Register or change a descriptor at epoll. The number may now belong to another file than the registered one."""
        with suppress(FileNotFoundError):
            if number in self.events:
                self.poller.modify(number, mask)
                return
        try:
            self.poller.register(number, mask)
        except FileExistsError:
            self.poller.modify(number, mask)
        except PermissionError:
            self.files.add(number)

    def forget(self, number: int) -> None:
        """Stop watching a descriptor, which may be closed already."""
        if self.events.pop(number, None) is not None and number not in self.files:
            with suppress(OSError):
                self.poller.unregister(number)
        self.files.discard(number)

    def found(self, seconds: float | None) -> dict[int, int]:
        """Wait up to `seconds` (None: forever), and return the events by descriptor."""
        if self.files:
            seconds = 0
        elif seconds and seconds < FINE and self.poller.fileno() < MOST_SELECTED:
            select.select((self.poller,), (), (), seconds)
            seconds = 0
        found = {}
        for number, events in self.poller.poll(seconds if seconds is None else min(seconds, LONGEST)):
            wanted = self.events.get(number)
            if wanted:
                found[number] = FOUND.get(events, READ | WRITE) & wanted
        for number in self.files:
            found[number] = self.events[number]
        return found


class LoopEnd:
    """A descriptor's callbacks.

    One reads it while `hears` returns True, one writes it while `has_more` does, and `fails` receives their exceptions.
    """

    def __init__(self, reads: Does | None, writes: Does | None, hears: Callable[[], object], has_more: Callable[[], object],
                 fails: TakesFault | None = None, is_told: bool = False) -> None:
        self.reads, self.writes, self.hears, self.has_more, self.fails = reads, writes, hears, has_more, fails
        # `is_fixed`: the events never change. `is_told`: the owner calls `Loop.changed` when they may have changed; otherwise the loop asks
        # before each wait.
        self.is_fixed = hears is always and (writes is None or has_more is always)
        self.is_told = is_told or self.is_fixed
        # Rank among all ends, and True while paused after an exception.
        self.place, self.rests = 0, False

    def events(self) -> int:
        """Return the events that this end waits for now."""
        if self.rests:
            return 0
        return ((READ if self.reads and (self.hears is always or self.hears()) else 0)
                | (WRITE if self.writes and (self.has_more is always or self.has_more()) else 0))

    def do(self, events: int) -> bool:
        """Call the callback of the first of these events, and return True if others remain."""
        if events & READ and self.reads:
            self.reads()
            return bool(events & WRITE)
        if self.writes:
            self.writes()
        return False


class Loop:
    """Waits for descriptors and timers, and calls their callbacks.

    An exception in a callback propagates and so ends the process, unless the end has a `fails` callback or the loop has a handler
    (`faults`). Then only that callback ends: the other ends, timers and hooks go on.
    """

    def __init__(self, clock: Callable[[], float] | None = None) -> None:
        self.clock = clock or time.monotonic
        self.watched = Watched()
        self.sources: dict[int, LoopEnd] = {}
        self.added = 0
        # Ends whose events are checked before each wait, and ends whose events may have changed since the last wait.
        self.asked: dict[int, LoopEnd] = {}
        self.changes: dict[int, LoopEnd] = {}
        self.due: dict[str, tuple[float, Does]] = {}
        self.before: list[Callable[[], float | None]] = []
        self.next: dict[Does, None] = {}
        # Handler for unexpected exceptions.
        self.faults: TakesFault | None = None

    # ---- ends

    def add(self, end: End, reads: Does | None = None, writes: Does | None = None, *, hears: Callable[[], object] = always,
            has_more: Callable[[], object] = always, fails: TakesFault | None = None, is_told: bool = False) -> None:
        """Call `reads` when an end is readable and `hears` returns True, and `writes` when it is writable and `has_more` does.

        The loop asks `hears` and `has_more` before each wait. With `is_told` it asks only after a callback of this end, and after the owner
        called `changed`: use that if there are many ends. An exception in a callback of this end is passed to `fails`.
        """
        number = number_of(end)
        self.remove(number)
        source = self.sources[number] = LoopEnd(reads, writes, hears, has_more, fails, is_told)
        self.added += 1
        source.place = self.added
        (self.changes if source.is_told else self.asked)[number] = source

    def changed(self, end: End) -> None:
        """Ask an end for its wishes before the next wait."""
        number = end if isinstance(end, int) else end.fileno()
        source = self.sources.get(number)
        if source:
            self.changes[number] = source

    def remove(self, end: End) -> None:
        """Remove an end. Call this before closing it."""
        number = number_of(end)
        if self.sources.pop(number, None):
            self.asked.pop(number, None)
            self.changes.pop(number, None)
            self.watched.forget(number)

    def hear(self, end: End) -> None:
        """Call the read callback of an end now."""
        number = number_of(end)
        source = self.sources.get(number)
        if source:
            self.do(number, source, READ)

    # ---- timers

    def at(self, name: str, moment: float, does: Does) -> None:
        """Set a timer for a moment of the loop's clock; it replaces a timer of the same name."""
        self.due[name] = moment, does

    def later(self, name: str, seconds: float, does: Does) -> None:
        """Set a timer to so many seconds from now."""
        self.at(name, self.clock() + seconds, does)

    def drop(self, name: str) -> None:
        """Cancel a timer, if it is set."""
        self.due.pop(name, None)

    def each(self, does: Callable[[], float | None]) -> None:
        """Call a hook before each wait. It returns the moment by which it has to be called again, or None."""
        self.before.append(does)

    def soon(self, does: Does) -> None:
        """Call something once before the next wait, however often it is requested."""
        self.next[does] = None

    def do_due(self) -> None:
        """Call the timers that are due."""
        now = self.clock()
        if not self.due or min(self.due.values(), key=MOMENT)[0] > now:
            return
        for name in [name for name, (moment, _) in self.due.items() if moment <= now]:
            # A timer before it may have cancelled or postponed it.
            if name in self.due and self.due[name][0] <= now:
                does = self.due.pop(name)[1]
                if not self.is_done(does) and name not in self.due:
                    self.later(name, RESTS, does)

    def do_next(self) -> None:
        """Make the calls requested by `soon`. Calls that they request wait until the next time."""
        if self.next:
            calls, self.next = self.next, {}
            for does in calls:
                self.is_done(does)

    # ---- exceptions

    def is_done(self, does: Callable[..., object], *values: object) -> bool:
        """Call something with these values, and return True if it raised nothing. Without a handler its exception propagates."""
        try:
            does(*values)
        except Exception as fault:
            if not self.faults:
                raise
            self.faults(fault)
            return False
        return True

    def fail(self, number: int, source: LoopEnd, fault: Exception) -> None:
        """Report an exception in a callback of an end and pass it to `fails`. Without `fails` pause the end; remove it if `fails` fails."""
        if self.faults:
            self.faults(fault)
        fails = source.fails
        if not fails:
            self.rest(number, source)
        elif not self.is_done(fails, fault) and self.sources.get(number) is source:
            self.remove(number)

    def pause(self, end: End) -> None:
        """Pause an end, if it exists."""
        number = number_of(end)
        if number in self.sources:
            self.rest(number, self.sources[number])

    def rest(self, number: int, source: LoopEnd) -> None:
        """Wait for no event of an end for RESTS seconds, so that a callback that fails repeatedly takes no processor time."""

        def go_on() -> None:
            source.rests = False
            if self.sources.get(number) is source:
                self.changes[number] = source

        source.rests = True
        self.changes[number] = source
        self.later(f"rest of end {number}", RESTS, go_on)

    # ---- turns

    def ask(self, sources: dict[int, LoopEnd]) -> None:
        """Make the system watch these ends for the events that they wait for now."""
        known = self.watched.events
        for number, source in list(sources.items()):
            if self.sources.get(number) is not source:
                continue
            try:
                events = source.events()
                if events != known.get(number, 0):
                    self.watched.watch(number, events)
            except Exception as fault:
                if not self.is_refused(number, source, fault):
                    raise

    def is_refused(self, number: int, source: LoopEnd, fault: Exception) -> bool:
        """Handle an end that epoll refuses, and return True if that is possible. If memory is short the loop retries later."""
        if isinstance(fault, OSError) and fault.errno in (errno.ENOMEM, errno.ENOSPC):
            self.rest(number, source)
        elif source.fails or self.faults:
            self.fail(number, source, fault)
        else:
            return False
        return True

    def ready(self, seconds: float | None) -> dict[int, int]:
        """Wait up to `seconds` (None: forever) for events, and return them by descriptor."""
        if self.asked:
            self.ask(self.asked)
        if self.changes:
            changes, self.changes = self.changes, {}
            self.ask(changes)
        return self.watched.found(seconds)

    def wait_time(self) -> float | None:
        """Make the calls that are due before a wait, and return the seconds until the next timer; None without one."""
        least = None
        if self.next or self.before:
            least = self.next_hook()
            if self.next:
                return 0.0
        if self.due:
            first = min(self.due.values(), key=MOMENT)[0]
            least = first if least is None or first < least else least
        return None if least is None else max(0.0, least - self.clock())

    def next_hook(self) -> float | None:
        """Make the calls requested by `soon` and those before each wait. Return the moment at which one is due again."""
        self.do_next()
        moments = [moment for moment in map(self.hooked, list(self.before)) if moment is not None]
        return min(moments) if moments else None

    def hooked(self, does: Callable[[], float | None]) -> float | None:
        """Call a hook, and return the moment by which it has to be called again. A hook that failed is called again after a pause."""
        try:
            return does()
        except Exception as fault:
            if not self.faults:
                raise
            self.faults(fault)
            return self.clock() + RESTS

    def do(self, number: int, source: LoopEnd, events: int) -> int:
        """Call a callback of an end, and return the remaining events."""
        if source.is_told and not source.is_fixed:
            self.changes[number] = source
        try:
            return WRITE if source.do(events) else 0
        except Exception as fault:
            if not (source.fails or self.faults):
                raise
            self.fail(number, source, fault)
            return 0

    def turn(self) -> None:
        """Wait once, then call the callbacks of ends that are ready, then those of timers."""
        ready = self.ready(self.wait_time())
        if len(ready) == 1:
            number, events = ready.popitem()
            self.serve(self.sources[number], number, events)
        elif ready:
            for found in sorted([(self.sources[number], number, events) for number, events in ready.items()], key=place_of):
                self.serve(*found)
        self.do_due()
        if self.next:
            self.do_next()

    def serve(self, source: LoopEnd, number: int, events: int) -> None:
        """Call the callbacks of a ready end. An earlier one may have removed it, or opened another under its number."""
        while events and self.sources.get(number) is source:
            events = self.do(number, source, events)
