"""The near end's commands and clients: a running command, invalid messages of the other end, and the numbers of clients."""
from __future__ import annotations

import contextlib
import itertools
import os
import subprocess
import time
from collections.abc import Callable, Iterator

from roam_live.common.errors import log_turn
from roam_live.common.event_loop import Loop
from roam_live.common.io import read
from roam_live.common.text import Said
from roam_live.protocol.datagram_stream import Carrier
from roam_live.relay.common import FORGOTTEN_AFTER, PEER_LIMIT
from roam_live.relay.far_windows import MOST_IN_WINDOW, WINDOW_SHIFT
from roam_live.relay.frames import RelayStream

TYPE_CHECKING = False
if TYPE_CHECKING:
    from typing import IO

    from roam_live.relay.common import Address

# Seconds for a command to end, and for the other end to receive the last message of a path.
END_WAIT = 1.0

# After an invalid message the next command waits for so many seconds, doubled each time up to the most. So many of them end the relay. All
# are forgotten after so many validated seconds.
BROKEN_PAUSE, MOST_PAUSE = 2.0, 60.0
MOST_BROKEN = 10
FORGIVEN = 600.0


class Peers:
    """The addresses of clients and their numbers. A number is reused only after all others."""

    def __init__(self, forget: Callable[[int], None]) -> None:
        self.numbers: dict[Address | Carrier, int] = {}
        self.addresses: dict[int, Address | Carrier] = {}
        self.moments: dict[int, float] = {}
        # The last number of each window; 0 is the relay's own, which has all numbers while no other is known.
        self.last: dict[int, int] = {}
        self.has_windows = False
        self.forget = forget

    def number(self, address: Address | Carrier, window: int = 0) -> int:
        """Return the number of an address, from 1; its high byte is that of its window."""
        if address not in self.numbers:
            while len(self.numbers) >= PEER_LIMIT:
                self.drop(min(self.moments, key=self.moments.__getitem__))
            number = next(self.free(window), 0) or self.longest_silent(window)
            self.last[window] = number
            self.numbers[address], self.addresses[number] = number, address
        number = self.numbers[address]
        self.moments[number] = time.monotonic()
        return number

    def longest_silent(self, window: int) -> int:
        """Forget the peer of a full window that was silent for longest, and return its number."""
        number = min((one for one in self.moments if one >> WINDOW_SHIFT == window), key=self.moments.__getitem__)
        self.drop(number)
        return number

    def free(self, window: int) -> Iterator[int]:
        """Yield the free numbers of a window, from the one after the last on."""
        first = (window << WINDOW_SHIFT) + 1
        end = first + MOST_IN_WINDOW if window or self.has_windows else 65536
        last = self.last.get(window, first - 1)
        return (number for number in itertools.chain(range(last + 1, end), range(first, last + 1)) if number not in self.addresses)

    def use_windows(self) -> None:
        """Restrict the relay's own window to its numbers, and forget others."""
        self.has_windows = True
        self.last[0] = min(self.last.get(0, 0), MOST_IN_WINDOW)
        for number in [number for number in self.addresses if number > MOST_IN_WINDOW]:
            self.drop(number)

    def drop_window(self, window: int) -> None:
        """Forget the peers of a window that is gone."""
        for number in [number for number in self.addresses if number >> WINDOW_SHIFT == window]:
            self.drop(number)

    def drop(self, number: int) -> None:
        """Forget a peer."""
        del self.numbers[self.addresses.pop(number)], self.moments[number]
        self.forget(number)

    def drop_silent(self) -> None:
        """Forget the peers that have been silent for long."""
        for number in [number for number, moment in self.moments.items() if moment + FORGOTTEN_AFTER < time.monotonic()]:
            self.drop(number)


class BrokenWords:
    """The count of invalid messages of the other end."""

    def __init__(self) -> None:
        self.count = 0
        self.validated_since: float | None = None

    def add(self, now: float) -> float:
        """Count one more, and return the earliest moment of the next command."""
        self.count += 1
        self.validated_since = None
        pause: float = min(BROKEN_PAUSE * 2 ** (self.count - 1), MOST_PAUSE)
        return now + pause

    def are_too_many(self) -> bool:
        """Return True if the relay has to end."""
        return self.count >= MOST_BROKEN

    def note(self, is_validated: bool, now: float) -> None:
        """Record the state of the transport: after so many validated seconds, forget all errors."""
        self.validated_since = (self.validated_since if self.validated_since is not None else now) if is_validated else None
        if self.validated_since is not None and now >= self.validated_since + FORGIVEN:
            self.count = 0


class RunningCommand:
    """A command that runs, and the stream over its standard input and output."""

    def __init__(self, command: list[str], session: str, may_ask: bool) -> None:
        pipe = subprocess.PIPE
        self.process = subprocess.Popen(command, stdin=pipe, stdout=pipe, stderr=pipe, start_new_session=not may_ask)
        self.ends: list[IO[bytes]] = [end for end in (self.process.stdin, self.process.stdout, self.process.stderr) if end]
        target, source, errors = (end.fileno() for end in self.ends)
        self.errors: int | None = errors
        self.said = Said()
        self.loop: Loop | None = None
        for end in (target, source, errors):
            os.set_blocking(end, False)
        self.stream = RelayStream(source, target, session)
        self.since = time.monotonic()

    def join(self, loop: Loop, hears: Callable[[], object]) -> None:
        """Let a loop write to the command, print its messages, and call `hears` for its output."""
        self.loop = loop
        if self.errors is not None:
            loop.add(self.errors, self.pass_errors, hears=lambda: self.errors is not None)
        loop.add(self.stream.target, None, self.stream.flush, has_more=lambda: self.stream.going)
        # Its end is handled by the reader, since unread output may precede it.
        loop.add(self.stream.source, hears)

    def pass_errors(self) -> None:
        """Print the command's standard error up to a limit: at first on the terminal, later in the log."""
        chunk = read(self.errors) if self.errors else None
        if chunk == b"":
            self.errors = None
        text = self.said.fed(chunk or b"")
        if text:
            with log_turn(len(text.encode())), contextlib.suppress(OSError):
                os.write(2, text.encode())

    def end(self) -> None:
        """End the command."""
        self.process.terminate()
        self.pass_errors()
        # Python's own buffers are empty: only the descriptors were used.
        for end in self.ends:
            if self.loop:
                self.loop.remove(end)
            end.close()
        self.errors = None

    def status(self) -> int:
        """Wait for its end, which comes in time, and return the exit status."""
        try:
            return self.process.wait(END_WAIT)
        except subprocess.TimeoutExpired:
            self.process.kill()
            return self.process.wait()
