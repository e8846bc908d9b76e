"""The processes of a session. The folder has a note of each, and a log of their output."""
from __future__ import annotations

import fcntl
import os
import time

from roam_live.common.errors import Fault, is_absent, reason, say
from roam_live.common.file_path import FilePath
from roam_live.common.files import is_own_folder, make_room, replace_text
from roam_live.common.json_reader import read_json
from roam_live.common.process import begun, is_running
from roam_live.common.signals import signal
from roam_live.common.suppress import suppress
from roam_live.common.unix_socket import SAID_AFTER, SocketPeer, connected_in
from roam_live.session.front_end_lock import FRONT_ENDS
from roam_live.session.roles import NOTED, ROLES

TYPE_CHECKING = False
if TYPE_CHECKING:
    import subprocess
    from collections.abc import Callable
    from typing import IO, Any

    # A note as JSON; `is_note` checks its form.
    State = dict[str, Any]

# Seconds for a process to become ready, and to end. A host needs a second and a half for the ends of windows, and then a second for row
# readers.
START_WAIT = 10.0
END_WAIT = 3.0

# Seconds for a process to end after its peer is gone.
LEFT_WAIT = 0.5

# Seconds for the listener of a socket to accept the connection that identifies it.
ASK_WAIT = 0.5

# The roles of the processes at sockets. In a remote session the relay stands in for the server and the host.
PEERS = {"terminals": "client", "panes": "server", "host": "host"}

# A note has fewer characters: it contains the panes' command, whose length the system limits.
MOST_NOTE = 1 << 24

# The last line of a client process whose server has ended.
ENDED = b"[the server has ended]"

# A message quotes this much of the output of a process that was not ready in time.
SAID_MOST = 500


def is_note(state: object) -> bool:
    """Return True if this has the form of a note: words, each with a process and its start time."""
    if not isinstance(state, dict):
        return False
    noted = [state[role] for role in NOTED if role in state]
    return all(isinstance(one, list) and len(one) == 2 and type(one[0]) is int and type(one[1]) in (int, type(None)) for one in noted)


def noted_in(path: str | os.PathLike[str]) -> State | None:
    """Return the note in a file; None if it is incomplete, OSError if it is unreadable."""
    try:
        state = read_json(FilePath(path).read_text()[:MOST_NOTE])
    except (ValueError, RecursionError):
        return None
    return dict(state) if is_note(state) else None


def signal_now(process: int, number: int) -> None:
    """Send a signal to a process, which handles it now: a stopped one is continued."""
    with suppress(ProcessLookupError):
        os.kill(process, number)
        os.kill(process, signal.SIGCONT)


def children_of(process: int) -> list[int]:
    """Return the living children of a process; none if the system hides them."""
    try:
        return [int(child) for child in FilePath(f"/proc/{process}/task/{process}/children").read_text(encoding="ascii").split()]
    except (OSError, ValueError):
        return []


def is_scrollback_process(process: int) -> bool:
    """Return True if a process is a scrollback process."""
    try:
        words = FilePath(f"/proc/{process}/cmdline").read_bytes().split(b"\0")
    except OSError:
        return False
    return len(words) > 1 and os.path.basename(words[0]) == b"roam" and words[1] == b"rows"


def end_left(left: list[tuple[int, int | None]]) -> None:
    """End processes that would end by themselves unless stopped; by force if they are late."""
    for number in (signal.SIGCONT, signal.SIGTERM, signal.SIGKILL):
        end = time.monotonic() + LEFT_WAIT
        left = [(process, moment) for process, moment in left if is_running(process, moment)]
        for process, _ in left:
            signal_now(process, number)
        while any(is_running(*one) for one in left) and time.monotonic() < end:
            time.sleep(0.01)


class HeldLock:
    """Holds the lock of a session in a `with`, and reloads the note of its processes."""

    def __init__(self, processes: Processes, may_wait: bool) -> None:
        self.processes, self.may_wait = processes, may_wait

    def __enter__(self) -> None:
        self.lock = self.processes.taken_lock(self.may_wait)
        try:
            self.processes.read()
        except BaseException:
            os.close(self.lock)
            raise

    def __exit__(self, *fault: object) -> None:
        os.close(self.lock)


class WholeOrNothing:
    """Ends the processes that a `with` spawned if the `with` raises an exception."""

    def __init__(self, processes: Processes) -> None:
        self.processes = processes

    def __enter__(self) -> None:
        """Do nothing."""

    def __exit__(self, kind: object, *fault: object) -> None:
        if kind:
            self.processes.undo()


class Processes:
    """The processes of a session by role, from the note in its folder."""

    # Its name, if known.
    name: str

    # The process whose end is the session's.
    served = "server"

    def __init__(self, folder: str | os.PathLike[str], server: int | None = None) -> None:
        self.folder = FilePath(folder)
        # A server that was spawned by hand, if known.
        self.by_hand = server
        self.note = self.folder / "state.json"
        self.log = self.folder / "log"
        # The processes that this one spawned and reaps.
        self.own: dict[str, subprocess.Popen[bytes]] = {}
        # The serving process and its start time, as of the last check.
        self.met: tuple[int, int | None] | None = (server, begun(server)) if server else None
        # The note, and the reason if an existing one was unreadable.
        self.state: State | None = None
        self.unread = ""
        self.read()

    def read(self) -> None:
        """Reload the note: nothing if it is incomplete."""
        self.unread, self.state = "", None
        try:
            self.state = noted_in(self.note)
        except OSError as fault:
            self.unread = "" if is_absent(fault) else reason(fault)

    def demand_read(self) -> None:
        """Raise Fault if the note was unreadable: unknown processes may run."""
        if self.unread:
            raise Fault(f"cannot read {self.note}: {self.unread}; nothing was changed there")

    def process(self, role: str) -> int | None:
        """Return the process of a role; None if none runs."""
        if role == "server" and self.by_hand:
            return self.by_hand
        own = self.own.get(role)
        if own:
            own.poll()
        if self.is_replaced():
            return self.met[0] if self.met and role == self.served else None
        noted = (self.state or {}).get(role)
        if not noted:
            return None
        process: int = noted[0]
        if not is_running(process, noted[1]):
            return None
        if role == self.served:
            self.met = process, noted[1]
        return process

    def is_replaced(self) -> bool:
        """Return True if the folder is another session's by now: its note names another serving process, and both run."""
        return self.is_of_other(self.state)

    def is_of_other(self, state: State | None) -> bool:
        """Return True if a note is that of another session."""
        noted = (state or {}).get(self.served)
        return bool(noted and self.met and tuple(noted) != self.met and is_running(*noted) and is_running(*self.met))

    def is_peer(self, name: str, process: int) -> bool:
        """Return True if a process at one of its sockets is its own, or if it is unknown."""
        self.read()
        role = PEERS.get(name, self.served)
        known = self.process(role if role in self.roles_known() else self.served)
        return process == known if known is not None else not self.is_replaced()

    def roles_known(self) -> tuple[str, ...]:
        """Return the roles of the processes that listen on this machine."""
        return tuple(ROLES)

    def has_met(self) -> bool:
        """Return True if the serving process was seen to run."""
        return self.met is not None

    def runs(self, role: str | None = None) -> bool:
        """Return True if the process of a role runs; by default the serving one."""
        return self.process(role or self.served) is not None

    def listener(self, name: str, seconds: float = ASK_WAIT) -> int | None:
        """Return the process that listens at a socket of the folder, and accepts in so many seconds; None if nobody of this user does."""
        path = self.folder / name
        try:
            with connected_in(path, seconds) as end:
                process = SocketPeer.of(end).process
        except BlockingIOError as fault:
            raise Fault(f"a process listens at {path} and accepts no connection; nothing was changed there") from fault
        except OSError as fault:
            if not is_absent(fault):
                raise Fault(f"cannot find the process that listens at {path}: {reason(fault)}; nothing was changed there") from fault
            return None
        if not process:
            raise Fault(f"the process that listens at {path} is not in /proc; nothing was changed there")
        return process

    # ---- the lock

    def locked(self, may_wait: bool = True) -> HeldLock:
        """Make its folder, and prevent others from spawning its processes, in a `with`; BlockingIOError if it is locked and `may_wait` is
        False.
        """
        return HeldLock(self, may_wait)

    def taken_lock(self, may_wait: bool) -> int:
        """Take and return the lock of the current folder, since an earlier one may have been removed."""
        while True:
            lock = self.opened_lock()
            try:
                self.wait_for_lock(lock, may_wait)
                if self.is_lock(lock):
                    return lock
            except BaseException:
                os.close(lock)
                raise
            os.close(lock)

    def opened_lock(self) -> int:
        """Open the lock's file, and create it if absent. A folder of another user is refused."""
        while True:
            self.folder.mkdir(mode=0o700, exist_ok=True)
            if not is_own_folder(self.folder):
                raise Fault(f"{self.folder} is not a directory of yours")
            # Another process may remove the folder just now.
            with suppress(FileNotFoundError):
                return os.open(self.folder / "lock", os.O_RDWR | os.O_CREAT | os.O_CLOEXEC | os.O_NOFOLLOW, 0o600)

    def is_lock(self, lock: int) -> bool:
        """Return True if an open file is still the lock at its path."""
        try:
            return os.path.samestat(os.fstat(lock), os.lstat(self.folder / "lock"))
        except OSError:
            return False

    def wait_for_lock(self, lock: int, may_wait: bool) -> None:
        """Wait until nobody else spawns its processes. Report a long wait, such as for an ssh that asks for a password."""
        end = time.monotonic() + SAID_AFTER
        while True:
            try:
                fcntl.flock(lock, fcntl.LOCK_EX | fcntl.LOCK_NB)
                return
            except BlockingIOError:
                if not may_wait:
                    raise
            if time.monotonic() > end:
                break
            time.sleep(0.02)
        say(f"waiting for another process that starts parts of {self.folder}")
        fcntl.flock(lock, fcntl.LOCK_EX)

    # ---- spawning

    def spawned(self, role: str, words: list[str], parts: Callable[[], None] = os.setsid,
                is_heard: bool = False) -> subprocess.Popen[bytes]:
        """Spawn a process that outlives this terminal; `parts` detaches it.

        Its output goes to the log. With `is_heard`, this process reads the output, and errors go to standard error. The process records
        itself before it executes the words, so that it is found even if this process dies.
        """
        import subprocess

        def begin() -> None:
            parts()
            self.note_own(role)

        refused = f"session {self.name}: {ROLES[role].said} cannot be started"
        try:
            self.write_note()
            make_room(self.log)
            with open(self.log, "ab") as log:
                output: int | IO[bytes] = subprocess.PIPE if is_heard else log
                errors = None if is_heard else log
                process = subprocess.Popen(words, stdin=subprocess.DEVNULL, stdout=output, stderr=errors, preexec_fn=begin)
        except OSError as fault:
            where = f"{fault.filename}: " if fault.filename else ""
            raise Fault(f"{refused}: {where}{reason(fault)}") from fault
        except subprocess.SubprocessError as fault:
            raise Fault(f"{refused}: it cannot be recorded in {self.note}{self.unnoted()}") from fault
        self.state = {**(self.state or {}), role: [process.pid, begun(process.pid)]}
        self.own[role] = process
        return process

    def write_note(self, state: State | None = None) -> None:
        """Write the known state, or this one, to the note."""
        import json

        replace_text(self.note, json.dumps(self.state if state is None else state))

    def note_own(self, role: str) -> None:
        """Record this process as the one of a role."""
        state = {**(self.state or {}), role: [os.getpid(), begun(os.getpid())]}
        self.write_note(state)

    def unnoted(self) -> str:
        """Return the reason that the note is unwritable, if it still is."""
        try:
            self.write_note()
        except OSError as fault:
            return f": {reason(fault)}"
        return ""

    def said(self, before: int) -> str:
        """Return the log's text after so many bytes, in one line."""
        try:
            with open(self.log, "rb") as log:
                log.seek(before)
                text = log.read(2 * SAID_MOST).decode("utf-8", "replace")
        except OSError:
            return ""
        return "; ".join(line.strip() for line in text.splitlines() if line.strip())[:SAID_MOST]

    def logged(self) -> int:
        """Return the size of the log in bytes."""
        return self.log.stat().st_size if self.log.exists() else 0

    def tells(self) -> bool:
        """Return True if its log contains more than the ends of client processes with their server."""
        with suppress(FileNotFoundError), open(self.log, "rb") as log:
            return any(line.strip() not in (b"", ENDED) for line in log)
        return False

    def wait_for(self, role: str, before: int, test: Callable[[], bool]) -> None:
        """Wait until a spawned process is ready, and end it if it is late."""
        process = self.own[role]
        end = time.monotonic() + START_WAIT
        while time.monotonic() < end:
            if test():
                return
            if process.poll() is not None:
                break
            time.sleep(0.005)
        process.kill()
        process.wait()
        raise Fault(f"session {self.name}: {ROLES[role].said} did not start: {self.said(before) or f'no message; see {self.log}'}")

    # ---- ends

    def end(self, role: str) -> None:
        """End the process of this role, by force if it is late."""
        for number in (signal.SIGTERM, signal.SIGKILL):
            process = self.process(role)
            if process is None:
                return
            signal_now(process, number)
            end = time.monotonic() + END_WAIT
            while self.runs(role) and time.monotonic() < end:
                time.sleep(0.01)

    def scrollback_processes(self) -> list[tuple[int, int | None]]:
        """Return the scrollback processes that the pty host has spawned, and their start times: no note has them."""
        host = self.process("host")
        return [(one, begun(one)) for one in children_of(host) if is_scrollback_process(one)] if host else []

    def whole(self) -> WholeOrNothing:
        """Return a context for a `with` that spawns all of its processes or none."""
        return WholeOrNothing(self)

    def undo(self) -> None:
        """End the spawned processes of a failed start; remove their files, and the folder if its log is empty."""
        for role in list(self.own):
            self.end(role)
        with suppress(Fault, OSError):
            self.clean()
            self.forget()

    def clean(self) -> None:
        """Remove the files of processes that have ended."""

    def forget(self) -> None:
        """Remove the folder of an ended session if its log is empty. The caller has its lock."""
        with suppress(OSError):
            if not self.logged():
                for name in ("log", "lock", FRONT_ENDS):
                    (self.folder / name).unlink(missing_ok=True)
                self.folder.rmdir()
