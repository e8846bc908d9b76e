"""The limit on new client processes that other machines bring to a server.

A server accepts a number of clients in its life and frees none. A known client always passes. New ones come slowly and leave some for the
server's own machine.

All far ends of a window count together. Each accepted client is a line of a file in the window's folder. A line is written at once and
never changed, so that a killed far end leaves no partial state.
"""
from __future__ import annotations

import contextlib
import fcntl
import os
from collections import namedtuple
from collections.abc import Callable, Iterator

from roam_live.protocol.datagram_layout import ADDRESS_LAYOUT, READ_ONLY, READ_WRITE
from roam_live.protocol.panes import MOST_CLIENTS, MOST_WATCHERS, asked_places
from roam_live.protocol.server_address import is_id
from roam_live.session.names import REMOTE_CLIENTS

# The most bytes of the file.
MOST_NOTE = 1 << 14

# New clients that pass at once, and then the seconds between two.
AT_ONCE = 2
SECONDS = 10.0

# Seconds for a server to count a client after it passes, and to report the count.
SETTLES = 5.0
ASKED = 0.25

# The placeholder for a server whose session is unknown. There no datagram counts as another session's.
UNKNOWN = 0

# For each kind that a client sends, how many a server accepts, and how many other machines leave.
LIMITS = {READ_WRITE: (MOST_CLIENTS, 16), READ_ONLY: (MOST_WATCHERS, 4)}


class RemoteClient(namedtuple("RemoteClient", "session kind name moment count")):
    """A client that passed: its server's session, its kind and id, the moment, and the number of clients that the server knew before."""

    session: int
    kind: int
    name: int
    moment: float
    count: int

    def __str__(self) -> str:
        return f"{self.session:x} {self.kind} {self.name:x} {self.moment:.3f} {self.count}"


def remote_client_in(line: str) -> RemoteClient | None:
    """Return the client in a line; None if it is invalid."""
    words = line.split(" ")
    if len(words) != 5 or not (is_id(words[0]) and is_id(words[2])):
        return None
    try:
        return RemoteClient(int(words[0], 16), int(words[1]), int(words[2], 16), float(words[3]), int(words[4]))
    except ValueError:
        return None


def room_at(moments: list[float], now: float) -> float:
    """Return how many new ones may pass now after others passed at these moments. It grows up to the burst."""
    room, before = float(AT_ONCE), 0.0
    for moment in [*(min(moment, now) for moment in moments), now]:
        room = min(float(AT_ONCE), room + max(0.0, moment - before) / SECONDS)
        before = moment
        room -= 1
    return room + 1


def counted(folder: str) -> dict[int, int] | None:
    """Return how many clients of each kind the server of a folder reports; None without a report."""
    places = asked_places(os.path.join(folder, "panes"), ASKED) if folder else None
    return {READ_WRITE: places.clients, READ_ONLY: places.watchers} if places else None


class ClientLimit:
    """The limit for the server of one folder. Without a folder this end counts alone."""

    def __init__(self, folder: str, clock: Callable[[], float], counts: Callable[[str], dict[int, int] | None] = counted) -> None:
        self.folder, self.clock, self.counts = folder, clock, counts
        # The clients that this end let pass; and those of them that could not be recorded.
        self.known: set[tuple[int, int, int]] = set()
        self.unnoted: list[RemoteClient] = []

    def passes(self, datagram: bytes) -> bool:
        """Return True if a datagram may go to the server, even one that the server refuses without using memory."""
        version, kind, session, name = ADDRESS_LAYOUT.unpack_from(datagram)
        if version not in (1, 2) or kind not in LIMITS or (session, kind, name) in self.known:
            return True
        own = self.session()
        if own not in (None, session):
            return True
        if self.lets(own or UNKNOWN, kind, name):
            self.known.add((session, kind, name))
            return True
        return False

    def session(self) -> int | None:
        """Return the id of the server's session; None if unknown."""
        if not self.folder:
            return None
        with contextlib.suppress(OSError, ValueError):
            with open(os.path.join(self.folder, "session"), encoding="ascii") as file:
                return int(file.read(17).strip(), 16)
        return None

    def lets(self, session: int, kind: int, name: int) -> bool:
        """Return True if a client unknown to this end passes. A new one is then recorded."""
        there = self.noted(session)
        if any((one.kind, one.name) == (kind, name) for one in there):
            return True
        if not self.has_room(there, kind):
            return False
        # The server is asked before the file is locked, since others wait for the lock.
        told = self.counts(self.folder)
        with self.locked() as note:
            there = self.noted(session)
            if not self.has_room(there, kind):
                return False
            count = self.count(there, kind, told)
            most, kept = LIMITS[kind]
            if count >= most - kept:
                return False
            self.note(note, RemoteClient(session, kind, name, self.clock(), count), not there and session != UNKNOWN)
        return True

    def has_room(self, there: list[RemoteClient], kind: int) -> bool:
        """Return True if a new one of a kind may pass now."""
        return room_at([one.moment for one in there if one.kind == kind], self.clock()) >= 1

    def count(self, there: list[RemoteClient], kind: int, told: dict[int, int] | None) -> int:
        """Return the number of a kind's clients that the server knows, including one that just passed."""
        ours = [one for one in there if one.kind == kind]
        known = told[kind] if told else len(ours)
        return max([known, *(one.count + 1 for one in ours[-1:] if self.clock() < one.moment + SETTLES)])

    # ---- the file

    def path(self) -> str:
        """Return the file's path."""
        return os.path.join(self.folder, REMOTE_CLIENTS)

    def noted(self, session: int) -> list[RemoteClient]:
        """Return the clients of a session that passed, in order."""
        lines: list[str] = []
        if self.folder:
            with contextlib.suppress(OSError), open(self.path(), encoding="ascii", errors="replace") as file:
                lines = file.read(MOST_NOTE).split("\n")[:-1]
        found = [client for client in map(remote_client_in, lines) if client and client.session == session]
        return found + [one for one in self.unnoted if one.session == session]

    @contextlib.contextmanager
    def locked(self) -> Iterator[int | None]:
        """Yield the file, locked against other far ends; None if that fails."""
        note = None
        try:
            with contextlib.suppress(OSError):
                if self.folder:
                    note = os.open(self.path(), os.O_WRONLY | os.O_APPEND | os.O_CREAT | os.O_CLOEXEC | os.O_NOFOLLOW, 0o600)
                    fcntl.flock(note, fcntl.LOCK_EX)
            yield note
        finally:
            if note is not None:
                os.close(note)

    def note(self, note: int | None, client: RemoteClient, is_first: bool) -> None:
        """Record a client: a server's first one replaces those of an earlier server."""
        try:
            if note is None:
                raise OSError
            if is_first:
                os.ftruncate(note, 0)
            # The previous line may be incomplete after a full disk.
            line = f"\n{client}\n".encode()
            if os.write(note, line) != len(line):
                raise OSError
        except OSError:
            self.unnoted.append(client)
