"""The scrollback process, a process of the program: it reads the output of programs, and prints each scrolled-off row."""
from __future__ import annotations

import fcntl
import os

from roam_live.common.event_loop import Loop, always
from roam_live.common.io import read, write
from roam_live.common.named_fields import NamedFields
from roam_live.common.signals import signal
from roam_live.common.suppress import suppress
from roam_live.common.text import one_line
from roam_live.session.foreground import PANE

TYPE_CHECKING = False
if TYPE_CHECKING:
    from collections.abc import Callable

# The smallest and largest sizes of its terminals.
LEAST_SIZE, MOST_SIZE = (2, 4), (200, 500)

# Terminal numbers are below this.
MOST_TERMINALS = 1024

# The words of its records: rows, lost rows, cleared rows, and the rows of a screen. There are no other records. Then the most bytes of a
# record, and of the line that begins one.
ROWS, LOST, CLEARED, SCREEN = "rows", "lost", "cleared", "screen"

# Its answers to a new size. So many of the newest rows are on the screen again; the text that paints the screen; too early, within a
# sequence or a character; the alternate screen is shown; or it isn't possible.
BACK, TEXT, LATER, OTHER, NONE = "back", "text", "later", "other", "none"
WORDS = {ROWS: 4, LOST: 3, CLEARED: 2, SCREEN: 4, BACK: 3, TEXT: 3, LATER: 2, OTHER: 2, NONE: 2}

# The records behind whose line bytes follow, and those that end an answer to a new size.
WITH_ROWS, ANSWERS = (ROWS, SCREEN), (TEXT, LATER, OTHER, NONE)
MOST_RECORD = 1 << 24
LONGEST_LINE = 64

# The most bytes of its newest messages that are kept, and reported at its end.
MOST_SAID = 200

# Output goes to it in batches of this size, after so many seconds, or before a request, since each record has a cost.
BATCH = 1 << 14
GATHERS = 0.01

# The sizes of its pipes, and of the one for its messages, as far as the system allows; and F_SETPIPE_SZ of Linux, which Python names from
# 3.10 on.
PIPE_SIZE, SAID_SIZE = 1 << 20, 1 << 12
SETS_SIZE = 1031

# Seconds for it to end after its output has ended, and seconds between checks.
ENDS = 1.0
REAPS = 0.05


class BadRecord(Exception):
    """An invalid record of the scrollback process."""


class ScrollbackRecord(NamedFields):
    """A record about a terminal: the number of rows, and their bytes."""

    word: str
    terminal: int
    rows: int
    data: bytes


def head_of(line: bytes) -> tuple[str, int, int, int]:
    """Return the word, the terminal, and the counts of rows and bytes in a record's first line."""
    word, *rest = line.decode("ascii", "replace").split(" ")
    if len(rest) + 1 != WORDS.get(word) or not all(one.isascii() and one.isdigit() and len(one) <= 15 for one in rest):
        raise BadRecord("it printed an invalid record")
    terminal, count, length = [*map(int, rest), 0, 0][:3]
    if word == TEXT:
        count, length = 0, count
    if terminal >= MOST_TERMINALS or length > MOST_RECORD:
        raise BadRecord("it printed an impossible record")
    return word, terminal, count, length


class ScrollbackRecords:
    """Splits the output of the scrollback process into records."""

    def __init__(self) -> None:
        # The start of a line; or a record's head, the bytes so far, and the number of missing ones.
        self.rest = b""
        self.head = "", 0, 0
        self.parts: list[bytes] = []
        self.missing = 0

    def fed(self, chunk: bytes) -> list[ScrollbackRecord]:
        """Return the records that are complete; BadRecord if one is invalid. After a MemoryError the same chunk can be fed again."""
        before, count = (self.rest, self.head, self.parts, self.missing), len(self.parts)
        try:
            return self.taken_apart(chunk)
        except MemoryError:
            self.rest, self.head, self.parts, self.missing = before
            del self.parts[count:]
            raise

    def taken_apart(self, chunk: bytes) -> list[ScrollbackRecord]:
        """Parse a chunk, and return the records that are complete."""
        found, at = [], 0
        if self.missing:
            self.parts.append(chunk[: self.missing])
            at = len(self.parts[-1])
            self.missing -= at
            if self.missing:
                return []
            found.append(self.made(b"".join(self.parts)))
        chunk, at = (self.rest + chunk[at:], 0) if self.rest else (chunk, at)
        self.rest = b""
        while not self.missing:
            end = chunk.find(b"\n", at, at + LONGEST_LINE)
            if end < 0:
                self.rest = chunk[at:]
                break
            word, terminal, count, length = head_of(chunk[at:end])
            self.head = word, terminal, count
            at = end + 1 + length
            data = chunk[end + 1 : at]
            self.missing = length - len(data)
            if self.missing:
                self.parts = [data]
            else:
                found.append(self.made(data))
        if len(self.rest) >= LONGEST_LINE:
            raise BadRecord("it printed a line that is too long")
        return found

    def made(self, data: bytes) -> ScrollbackRecord:
        """Return a record with its bytes, which have as many rows as it claims."""
        record = ScrollbackRecord(*self.head, data)
        if record.word in WITH_ROWS and (data.count(b"\n") != record.rows or data[-1:] not in (b"", b"\n")):
            raise BadRecord("it printed a wrong number of rows")
        return record


def spawned(words: list[str]) -> tuple[int, list[int]]:
    """Spawn a process, and return its pid and the pipes of its standard input, output and error; OSError if that fails."""
    ends: list[int] = []
    try:
        for _ in range(3):
            ends += os.pipe2(os.O_CLOEXEC)
        (its_input, to_it), (from_it, its_output), (said, its_error) = ends[:2], ends[2:4], ends[4:]
        actions = [(os.POSIX_SPAWN_DUP2, end, number) for number, end in enumerate((its_input, its_output, its_error))]
        # This variable marks programs in a pane, even of another session in which this one was started.
        known = {name: value for name, value in os.environ.items() if name != PANE}
        process = os.posix_spawn(words[0], words, known, file_actions=actions, setsigdef=[signal.SIGPIPE])
    except OSError:
        for end in ends:
            os.close(end)
        raise
    for end in (its_input, its_output, its_error):
        os.close(end)
    for end in (to_it, from_it, said):
        os.set_blocking(end, False)
        with suppress(OSError):
            fcntl.fcntl(end, SETS_SIZE, PIPE_SIZE if end != said else SAID_SIZE)
    return process, [to_it, from_it, said]


class ScrollbackProcess:
    """A running scrollback process, with a queue of records to it and a reader of those from it.

    Calls take each record, report a shorter queue, and report its end, with the reason and its status, None if unknown. Another call pauses
    reading, and one frees memory if it is short.
    """

    def __init__(self, loop: Loop, words: list[str], takes: Callable[[ScrollbackRecord], object], wrote: Callable[[], object],
                 ended: Callable[[str, int | None], object], reads: Callable[[], bool] = always,
                 sheds: Callable[[], object] = lambda: None, handed: tuple[int, list[int]] | None = None) -> None:
        self.loop, self.takes, self.wrote, self.ended, self.sheds = loop, takes, wrote, ended, sheds
        # A host before this one may have handed its process over.
        self.process, (self.input, self.output, self.error) = handed or spawned(words)
        self.records = ScrollbackRecords()
        self.waiting = bytearray()
        # The output for one terminal since the last record of another. It becomes one record.
        self.terminal = -1
        self.chunks: list[bytes] = []
        self.chunks_size = 0
        # True if the queue is to be sent now.
        self.is_due = False
        # The newest bytes of its messages.
        self.said = b""
        # True while it accepts and prints records; the reason for its end.
        self.is_there = True
        self.why = ""
        loop.add(self.input, None, self.write, has_more=self.has_batch, fails=self.fail, is_told=True)
        loop.add(self.output, self.hear, hears=reads, fails=self.fail)
        # A full pipe would stop it for good.
        loop.add(self.error, self.hear_error)

    def size(self) -> int:
        """Return the number of bytes that wait for it."""
        return len(self.waiting) + self.chunks_size

    def is_quiet(self) -> bool:
        """Return True if nothing waits for it here, and no record of it is incomplete."""
        return self.is_there and not self.size() and not self.records.missing and not self.records.rest

    def has_batch(self) -> bool:
        """Return True if there is something to send now."""
        return self.is_due or self.size() >= BATCH

    def hand(self) -> None:
        """Send the queue now."""
        self.is_due = self.is_there and self.size() > 0
        self.loop.changed(self.input)

    # ---- records to it

    def add(self, line: str) -> None:
        """Queue a record, and send it now."""
        self.join()
        self.is_due = True
        self.waiting += f"{line}\n".encode()
        self.loop.changed(self.input)

    def add_bytes(self, terminal: int, data: bytes) -> None:
        """Queue the output for a terminal."""
        if terminal != self.terminal:
            self.join()
            self.terminal = terminal
        if not self.size():
            self.loop.later(f"hand rows {self.process}", GATHERS, self.hand)
        self.chunks.append(data)
        self.chunks_size += len(data)
        if self.size() >= BATCH:
            self.loop.changed(self.input)

    def join(self) -> None:
        """Turn the output for one terminal into one record."""
        if self.chunks:
            try:
                self.join_chunks()
            except MemoryError:
                self.sheds()
                self.join_chunks()
        self.terminal = -1

    def join_chunks(self) -> None:
        """Join the chunks into one record. A MemoryError changes nothing."""
        record = b"bytes %d %d\n" % (self.terminal, self.chunks_size) + b"".join(self.chunks)
        self.waiting += record
        self.chunks, self.chunks_size = [], 0

    def write(self) -> None:
        """Write as much as it accepts. If it accepts nothing more, its end follows soon."""
        self.join()
        if not write(self.input, self.waiting):
            self.end("it stopped reading")
        self.is_due = self.is_due and bool(self.waiting)
        self.wrote()

    # ---- records from it

    def hear(self) -> None:
        """Read its output."""
        chunk = read(self.output)
        if chunk is None:
            return
        if not chunk:
            self.end("it ended")
            return
        try:
            records = self.fed(chunk)
        except BadRecord as fault:
            self.kill(str(fault))
            return
        for record in records:
            self.takes(record)

    def fed(self, chunk: bytes) -> list[ScrollbackRecord]:
        """Parse a chunk. If memory is short, free some and try once more."""
        try:
            return self.records.fed(chunk)
        except MemoryError:
            self.sheds()
            return self.records.fed(chunk)

    def hear_error(self) -> None:
        """Read its messages, of which the newest are kept."""
        chunk = read(self.error)
        self.said = (self.said + (chunk or b""))[-MOST_SAID:]
        if chunk == b"":
            self.loop.remove(self.error)

    # ---- its end

    def end(self, why: str) -> None:
        """Stop both directions, and end it if it does not end by itself."""
        if not self.is_there:
            return
        self.is_there, self.why = False, why
        self.waiting.clear()
        self.chunks, self.chunks_size = [], 0
        for end in (self.input, self.output):
            self.loop.remove(end)
            os.close(end)
        self.loop.drop(f"hand rows {self.process}")
        self.loop.later(f"end rows {self.process}", ENDS, self.signal_kill)
        self.reap()

    def fail(self, fault: Exception) -> None:
        """End the scrollback process after an exception: part of its input or output is lost."""
        self.kill("memory is low" if isinstance(fault, MemoryError) else "an internal error")

    def kill(self, why: str) -> None:
        """Kill it, since it is unusable."""
        if self.is_there:
            self.end(why)
            self.signal_kill()

    def signal_kill(self) -> None:
        """Kill it if it still runs."""
        if self.process:
            with suppress(OSError):
                os.kill(self.process, signal.SIGKILL)

    def reap(self) -> None:
        """Record its end as soon as the system reports it, and report it by a call, with its last message."""
        try:
            process, status = os.waitpid(self.process, os.WNOHANG)
        except ChildProcessError:
            process, status = self.process, -1
        if not process:
            self.loop.later(f"reap rows {self.process}", REAPS, self.reap)
            return
        self.hear_error()
        self.loop.remove(self.error)
        os.close(self.error)
        self.loop.drop(f"end rows {self.process}")
        self.process = 0
        why = one_line(self.said.decode("utf-8", "replace")) or self.why
        self.ended(why, None if status < 0 else os.waitstatus_to_exitcode(status))
