"""A connection to a session's client process: queued lines, received records, and reconnection after a loss."""
from __future__ import annotations

import os
import time

from roam_live.common.errors import Fault, reason
from roam_live.common.event_loop import READ, WRITE, ready
from roam_live.common.files import is_disk_full
from roam_live.common.io import read
from roam_live.common.retry import Retry
from roam_live.common.unix_socket import SHUT_WR, SocketPeer, connected_to, is_anybody
from roam_live.protocol.display_records import NoRecord, Records

TYPE_CHECKING = False
if TYPE_CHECKING:
    import socket
    from collections.abc import Callable

    from roam_live.protocol.display_records import DisplayRecord
    from roam_live.protocol.session_interface import AnySession

# Seconds between attempts while the disk is full: a client starts as soon as there is room.
FULL_PAUSE = 1

# Seconds for a client to create its socket, and seconds between checks.
READY_WAIT = 10.0
STEP = 0.02

# Seconds for the input typed before a detach to reach the client, and for a client's first record.
LAST_WAIT = 1.5
FIRST_WAIT = 5.0

# The last output of a client is read at most this many times, 65,536 bytes each.
LAST_READS = 64

# Most acts in one line if they arrive at once, such as a paste: the client types them in one turn. A client accepts 64 in flight. So one
# line waits while another is answered, and another terminal's key fits in between.
MOST_ACTS = 32

# Bytes that may wait for a client. Above this, no more input is read.
TYPED_LIMIT = 1 << 24

# The start of a line whose acts were pasted.
PASTED = "paste ; "

# The reason of a lost link.
LOST = "the client process ended; the last keys may be lost"
NO_MORE = "at most 16 terminals may attach"
REPLACED = "another session has the name of this one by now"
LET_GO = "this terminal was disconnected; the last keys may be lost"
NO_RECORDS = "the client process there sends no display records"
REFUSED = "the client process refused a line"
SILENT = "the client process does not answer"

# The start of each act that goes to the program in the focused pane.
TYPES = ("char ", "key ")


def greeting_of(is_read_only: bool, prediction: str) -> bytes:
    """Return the first lines sent to a client."""
    more = b"watch\n" if is_read_only else b"" if prediction == "never" else f"predict {prediction}\n".encode()
    return b"events\n" + more


class ClientLink:
    """A terminal's connection to the client, which sends records over it.

    Each line goes whole to one connection. A client ignores a partial line at the end of a lost connection.
    """

    def __init__(self, path: str | os.PathLike[str], is_read_only: bool, prediction: str = "never") -> None:
        self.path, self.is_read_only = path, is_read_only
        self.greeting = greeting_of(is_read_only, prediction)
        self.peer: socket.socket | None = None
        # The process at the other end, if known.
        self.process = 0
        self.waiting = bytearray()
        self.sent = 0
        # The number of acts in the last line, if more may join them, and a flag for pasted ones.
        self.acts = 0
        self.is_pasted = False
        self.since = 0.0
        self.forget()

    def forget(self) -> None:
        """Reset the state of the previous connection."""
        self.records = Records()
        # Flags for the first byte and the end of file; the lines sent, and those done; a flag for a full client, and the line it refused.
        self.has_come = self.has_ended = False
        self.lines = self.taken = 0
        self.is_full, self.refusal = False, ""

    def fileno(self) -> int:
        """Return its descriptor."""
        return self.end().fileno()

    def end(self) -> socket.socket:
        """Return the connection, which has to exist."""
        if self.peer is None:
            raise ValueError("a link that isn't connected was asked for its connection")
        return self.peer

    def connect(self, is_peer: Callable[[int], bool] = is_anybody) -> None:
        """Connect to the client, unless a call refuses the process there."""
        self.peer = connected_to(self.path, is_peer)
        self.process = SocketPeer.of(self.peer).process
        self.since, self.sent = time.monotonic(), 0
        self.acts = 0
        self.forget()
        if self.is_read_only:
            self.waiting[:] = self.greeting
        elif not self.waiting.startswith(self.greeting):
            self.waiting[:0] = self.greeting
        self.lines = self.waiting.count(b"\n")

    def predict(self, prediction: str) -> None:
        """Change the prediction setting, here and for later clients."""
        is_waiting = self.waiting.startswith(self.greeting)
        greeting = greeting_of(self.is_read_only, prediction)
        if is_waiting:
            self.waiting[: len(self.greeting)] = greeting
        self.greeting = greeting
        if self.peer and not self.is_read_only:
            self.say(f"predict {prediction}")

    def say(self, line: str) -> None:
        """Append a line."""
        self.waiting += f"{line}\n".encode()
        self.acts = 0
        self.lines += 1

    def type(self, *acts: str, is_pasted: bool = False) -> None:
        """Append acts; pasted ones have lines of their own, marked as such."""
        for act in acts:
            if 0 < self.acts < MOST_ACTS and is_pasted == self.is_pasted:
                self.waiting[-1:] = f" ; {act}\n".encode()
                self.acts += 1
            else:
                self.say(f"{PASTED}{act}" if is_pasted else act)
                self.acts = 1
            self.is_pasted = is_pasted

    def is_stuffed(self) -> bool:
        """Return True if too much waits to accept more typing, and no paste among it that C-c would drop."""
        return len(self.waiting) >= TYPED_LIMIT and not self.has_pastes()

    def is_full_behind(self) -> bool:
        """Return True if as much waits with a paste among it, so that only C-c helps."""
        return len(self.waiting) >= TYPED_LIMIT and self.has_pastes()

    def has_pastes(self) -> bool:
        """Return True if a paste waits, or may."""
        return PASTED.encode() in self.waiting

    def drop_pasted(self) -> list[str]:
        """Drop the pastes that are still unsent, and all keys after the first of them; return the lines that had them.

        Other acts and requests stay. A half-sent line is sent whole.
        """
        if not self.has_pastes():
            return []
        begin = self.waiting.find(b"\n") + 1 if self.sent else 0
        lines = self.waiting[begin:].decode().splitlines()
        first = next((place for place, line in enumerate(lines) if line.startswith(PASTED)), len(lines))
        left = [*lines[:first], *filter(None, map(without_keys, lines[first:]))]
        dropped = [line for line in lines[first:] if without_keys(line) != line]
        self.waiting[begin:] = "".join(f"{line}\n" for line in left).encode()
        self.lines -= len(lines) - len(left)
        self.acts = 0
        return dropped

    def send(self) -> bool:
        """Send as much as the client accepts now, and return True while it is there."""
        self.acts = 0
        try:
            self.sent += self.end().send(memoryview(self.waiting)[self.sent : self.sent + 65536])
        except BlockingIOError:
            return True
        except OSError:
            return False
        whole = self.waiting.rfind(b"\n", 0, self.sent) + 1
        del self.waiting[:whole]
        self.sent -= whole
        return True

    def read_events(self) -> list[DisplayRecord] | None:
        """Return the records that arrived; None if the connection has ended or sent an invalid record."""
        chunk = read(self.end().fileno())
        self.has_come = self.has_come or bool(chunk)
        try:
            records = self.records.came(chunk or b"")
        except NoRecord:
            chunk = b""
        if chunk == b"":
            self.has_ended = True
            return None
        for record in records:
            self.note(record)
        return records

    def note(self, record: DisplayRecord) -> None:
        """Record what the client reports of the connection."""
        if record.word == "taken":
            self.taken = record.numbers[0]
        elif record.word == "full":
            self.is_full = True
        elif record.word == "refused":
            self.refusal = record.words

    def exchanged(self, seconds: float = 0.1) -> list[DisplayRecord] | None:
        """Wait up to `seconds`, send what fits, and return the records that arrived.

        Return None once the connection has ended and its last records were read.
        """
        events = ready(self.end(), READ | WRITE if self.waiting else READ, seconds)
        if events & WRITE:
            self.send()
        return self.read_events() if events & READ else []

    def hear_last(self) -> None:
        """Read the last records of a client that accepts nothing more, such as the refusal of a line."""
        for _ in range(LAST_READS):
            if self.read_events() is None:
                return

    def begins(self, seconds: float) -> bool:
        """Send the waiting lines, and return True if records arrive within so many seconds."""
        end = time.monotonic() + seconds
        while not self.records.begun and time.monotonic() < end:
            if self.exchanged() is None:
                break
        return self.records.begun

    def untaken(self) -> int:
        """Return the number of sent lines that are not taken yet."""
        return max(0, self.lines - self.taken)

    def is_done(self) -> bool:
        """Return True if the client has taken all lines, with all their acts."""
        return self.taken >= self.lines

    def loss(self) -> str:
        """Return the reason that a connection has ended although its client still runs."""
        if self.is_full or not self.has_come:
            return NO_MORE
        if not self.records.begun:
            return NO_RECORDS
        return f"{REFUSED}: {self.refusal}" if self.refusal else LET_GO

    def close(self) -> None:
        """Close it."""
        if self.peer:
            self.peer.close()
            self.peer = None

    def part(self, seconds: float = LAST_WAIT) -> bool:
        """Send the typed input, close, and return True if the client took all of it within so many seconds."""
        end = time.monotonic() + seconds
        has_said, has_ended = False, not self.peer
        while not has_ended and time.monotonic() < end:
            if not has_said and not self.waiting:
                has_said = True
                self.end().shutdown(SHUT_WR)
            has_ended = self.exchanged() is None
        self.close()
        return has_ended and not self.waiting


def without_keys(line: str) -> str:
    """Return a line without the acts that type into a pane; nothing of a pasted line."""
    if line.startswith(PASTED):
        return ""
    return " ; ".join(act for act in line.split(" ; ") if not act.startswith(TYPES))


class Reconnector:
    """Reconnects a link: to the existing client, or to a new one, which is spawned after growing pauses."""

    def __init__(self, session: AnySession, link: ClientLink, is_full: Callable[[], bool] = lambda: False) -> None:
        self.session, self.link, self.is_full = session, link, is_full
        self.retry = Retry()
        self.begun_at = 0.0
        self.client: int | None = None

    def lost(self) -> str:
        """Record that a link has ended, and return the reason as far as it is known yet."""
        self.session.read()
        why = self.link.loss() if self.session.runs("client") else LOST
        self.retry.begins(self.link.since)
        self.retry.ends(time.monotonic())
        self.retry.fails()
        self.link.close()
        return why

    def pause(self) -> float:
        """Return the seconds until the next attempt."""
        pause = self.retry.pause()
        return min(pause, FULL_PAUSE) if pause and is_disk_full(self.link.path) else pause

    def connected(self) -> str:
        """Record that a link is connected, and return a message if the previous one lost something."""
        self.begun_at = 0.0
        self.session.read()
        before, self.client = self.client, self.session.process("client")
        return "" if before is None else LET_GO if before == self.client else LOST

    def connect(self) -> tuple[float, str] | None:
        """Connect if possible now. Otherwise return the seconds until the next try, and a reason for the user if there is one."""
        try:
            self.link.connect(lambda process: self.session.is_peer("terminals", process))
            return None
        except PermissionError as fault:
            return self.failed(f"{self.link.path}: {reason(fault)}")
        except OSError as fault:
            why = reason(fault)
        now = time.monotonic()
        if self.begun_at and self.session.runs("client") and now < self.begun_at + READY_WAIT:
            return STEP, ""
        if self.begun_at:
            return self.failed(f"no client process is ready: {why}")
        if not self.session.is_served():
            return self.failed(f"no server is {self.session}")
        if self.is_full():
            return self.failed("the server has used its 64 clients and accepts no more")
        return self.begin(now)

    def begin(self, now: float) -> tuple[float, str]:
        """Spawn a client, whose socket comes soon."""
        if self.session.is_replaced():
            return self.failed(REPLACED)
        try:
            self.session.revive()
        except (Fault, OSError) as fault:
            return self.failed(reason(fault).removeprefix(f"session {self.session.name}: "))
        self.begun_at = now
        return STEP, ""

    def failed(self, said: str) -> tuple[float, str]:
        """Return the pause after a failure, with its message."""
        self.retry.fails()
        self.begun_at = 0.0
        return self.pause(), said
