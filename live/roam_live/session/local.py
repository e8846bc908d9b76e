"""Sessions of this machine and their windows, also a window whose server was started by hand and that belongs to no session."""
from __future__ import annotations

import os
import time

from roam_live.common.build_info import identity
from roam_live.common.errors import Fault
from roam_live.common.file_path import FilePath
from roam_live.common.process import begun, end_words, holder_of, note_ends, stated
from roam_live.common.suppress import suppress
from roam_live.common.unix_socket import is_listened
from roam_live.protocol.window_lines import MOST_WINDOWS, name_in
from roam_live.session.folder import SessionFolder
from roam_live.session.names import (BUILD, JOINED, LONGEST_PATH, REPLACED, SPARE, WINDOWS, WINDOWS_VERSION, base, check_name,
                                     is_spare_server, numbers_in)
from roam_live.session.processes import children_of, end_left, noted_in
from roam_live.session.roles import HOLDER, ROLES, host_words, server_words

TYPE_CHECKING = False
if TYPE_CHECKING:
    from collections.abc import Iterable

# The first window of a session.
FIRST = 1

# The name of the pty host's program.
HOST_TOOL = b"pane_shells"
# The interpreter and its options precede it, in fewer words.
MOST_WORDS = 8

# Seconds to wait for the pty host once it has nothing left to serve, and for the holder to start one.
END_SOON = 1.0
HOST_SOON = 3.0


class SessionEnded(Fault):
    """A session has no window any more."""


class LocalSession(SessionFolder):
    """A session: its note has the pty host, which manages the rest."""

    served = "host"
    roles = ("host",)

    def __init__(self, folder: str | os.PathLike[str]) -> None:
        super().__init__(folder)
        self.folder_of_windows = self.folder / WINDOWS
        if len(str(self.folder_of_windows / str(MOST_WINDOWS) / "terminals")) > LONGEST_PATH:
            raise Fault(f"{self.folder} is too long for a socket's path")

    @classmethod
    def named(cls, name: str) -> LocalSession:
        """Return the session of a name."""
        check_name(name)
        return cls(base() / name)

    # ---- its windows

    def all_windows(self) -> list[Window]:
        """Return the windows with a folder, in order, running or not."""
        return [self.window_of(number) for number in numbers_in(str(self.folder_of_windows))]

    def window_of(self, number: int, server: int | None = None) -> Window:
        """Return the window of a number, existing or not."""
        return Window(self.folder_of_windows / str(number), server, self, number)

    def windows(self) -> list[SessionFolder]:
        """Return the running windows, in order."""
        return [window for window in self.all_windows() if window.find() and not window.is_spare()]

    def window(self, number: int | None = None) -> SessionFolder:
        """Return a window by its number, else the one used last; Fault if it does not exist."""
        self.demand_same()
        if number is not None:
            named = self.window_of(number) if number in numbers_in(str(self.folder_of_windows)) else None
            if not named or not named.find() or named.is_spare():
                raise Fault(f"session {self.name} has no window {number}")
            return named
        if not self.windows():
            # It may be ending, or beginning.
            self.await_end()
        there = self.windows()
        if not there and self.runs(self.served) and is_listened(self.folder / "host"):
            raise Fault(f"session {self.name} has no window: it is starting or ending; try again")
        if not there and self.runs(self.served):
            raise Fault(f"session {self.name} runs, but its files were removed; its pty host restores them within a minute")
        if not there:
            raise SessionEnded(f"session {self.name} has ended")
        last = self.last()
        return next((window for window in there if window.number == last), there[0])

    def demand_same(self) -> None:
        """Raise Fault if the folder is another session's by now."""
        state = None
        with suppress(OSError):
            state = noted_in(self.note)
        if self.is_of_other(state):
            raise Fault(f"session {self.name}: its files were removed, and another session has its name; "
                        f"`mux kill {self.name}` ends that one")

    def last(self) -> int:
        """Return the number of the window used last, as far as it is recorded."""
        with suppress(OSError, ValueError):
            return int((self.folder_of_windows / "last").read_text(encoding="ascii")[:9])
        return 0

    # ---- its presence

    def runs(self, role: str | None = None) -> bool:
        """Return True if the process of a role runs; without a role, if a window or the pty host does."""
        return super().runs(role) or role is None and any(window.runs() for window in self.all_windows())

    def find(self) -> bool:
        """Return True if it runs, by its note or else by the processes that answer at its sockets.

        Those are known again afterwards.
        """
        if self.process(self.served) or self.process(HOLDER):
            return True
        self.demand_read()
        with suppress(Fault):
            host = self.listener(ROLES[self.served].socket)
            host = self.holder() if host is None else host
            if host is not None:
                command = command_of(host, self.folder)
                beside = holder_beside(host)
                self.state = {"version": WINDOWS_VERSION, "command": command, self.served: [host, begun(host)],
                              **({HOLDER: [beside, begun(beside)]} if beside else {})}
                self.is_found = True
                return True
        return bool(self.windows())

    def holder(self) -> int | None:
        """Return the pty host from the lock on its folder, or by its command if the folder was removed."""
        return holder_of(self.folder) or host_of(self.folder)

    def is_ready(self) -> bool:
        """Return True if a window and the pty host run."""
        return is_listened(self.folder / "host") and bool(self.windows())

    # ---- its processes

    def launch(self, command: Iterable[str] = ()) -> None:
        """Start the pty host, and the first window's server, with a command in place of each shell; all or nothing."""
        from roam_live.session.start_limits import current_limits

        self.clean()
        self.state = {"version": WINDOWS_VERSION, "command": list(command), **current_limits()}
        window = self.window_of(FIRST)
        window.name = self.name
        with self.whole():
            # It takes longest, and waits for the server of the first window, which is spawned in parallel.
            self.spawn_host(["--first"])
            window.spawn_server()

    def demand_ready(self) -> None:
        """Wait until the pty host has a window."""
        # A command that ends at once may have ended it already.
        self.wait_for("host", self.logged(), lambda: self.is_ready() or self.own["host"].poll() == 0)

    def spawn_host(self, more: Iterable[str] = ()) -> None:
        """Spawn the pty host, with the umask and the limits of the session's first start."""
        from roam_live.session.start_limits import set_limits

        state = self.state = {**(self.state or {"version": WINDOWS_VERSION, "command": []}), BUILD: identity()}

        def begin() -> None:
            os.setsid()
            set_limits(state)

        self.spawned("host", host_words(self.folder, state.get("command", ()), more), begin)

    def demand_host(self) -> None:
        """Check that the pty host runs, and that there is a window. A holder starts the host."""
        end = time.monotonic() + HOST_SOON
        while not self.runs("host") and self.process(HOLDER) and time.monotonic() < end:
            time.sleep(0.01)
            self.read()
        if not self.runs("host"):
            before = self.logged()
            self.spawn_host()
            self.wait_for("host", before, self.is_ready)

    def demand_client(self) -> None:
        """Check that the client process of the window used last runs, if there is a window that doesn't end meanwhile."""
        if not self.windows():
            return
        with suppress(SessionEnded):
            window = self.window()
            try:
                window.demand_client()
            except Fault:
                if window.runs():
                    raise

    def owns_host(self) -> bool:
        """Return True: its pty host is restarted here."""
        return True

    def revive_host(self) -> bool:
        """Restart the pty host if it has ended, and return True if it runs. It adopts the windows."""
        with suppress(BlockingIOError), self.locked(may_wait=False):
            if not self.runs("host") and not self.process(HOLDER) and self.find():
                self.spawn_host()
        return self.runs("host")

    def busy(self) -> dict[int, str] | None:
        """Return None: each window reports its own panes."""
        return {}

    def busy_programs(self) -> dict[tuple[int, int], str] | None:
        """Return the windows and panes that run a program other than a shell, with its name; None if unknown."""
        from roam_live.session.foreground import busy_programs

        busy = busy_programs(str(self.folder)) if self.runs("host") or self.process(HOLDER) else {}
        numbers = {str(window.folder): window.number for window in self.all_windows()}
        return None if busy is None else {(numbers.get(folder, 0), pane): name for (folder, pane), name in busy.items()}

    # ---- its end

    def undo(self) -> None:
        """End the spawned processes with their children, and remove their files."""
        self.end_all()
        super().undo()

    def await_end(self) -> None:
        """Wait for the pty host, which ends soon without windows."""
        end = time.monotonic() + END_SOON
        while self.runs(self.served) and not self.windows() and time.monotonic() < end:
            time.sleep(0.01)

    def note_end(self) -> None:
        """Record that its windows' servers are about to be ended on purpose."""
        note_ends(str(self.folder), [end_words(*window.met) for window in self.all_windows() if window.runs() and window.met])

    def end_all(self) -> None:
        """End the host, which ends the windows, and then any that remain."""
        self.note_end()
        scrollback_processes = self.scrollback_processes()
        self.end(self.served)
        # A host that didn't end by itself has not told the holder, which starts another one.
        for role in (HOLDER, self.served):
            before = self.state
            self.read()
            # Without its files the processes are those that were found by their commands, and a host that follows.
            self.state = self.state or before
            self.find()
            self.end(role)
        for window in self.all_windows():
            window.end_all()
        end_left(scrollback_processes)

    def clean(self) -> None:
        """Remove the files of an ended session except its log and the record of its end."""
        for window in self.all_windows():
            window.clean()
        (self.folder_of_windows / "last").unlink(missing_ok=True)
        with suppress(OSError):
            self.folder_of_windows.rmdir()
        super().clean()

    # ---- its line in `mux ls`

    def lacking(self, answers: bool) -> str:
        """Return the remark of `mux ls` on a pty host that does not run, or that follows others which ended."""
        count = (self.state or {}).get(REPLACED)
        told = f", its pty host was replaced {'once' if count == 1 else f'{count} times'}"
        return super().lacking(answers) or (told if type(count) is int and count > 0 else "")

    def shown_window(self, windows: list[SessionFolder]) -> SessionFolder:
        """Return the window used last."""
        last = self.last()
        return next((window for window in windows if window.number == last), windows[0])


class Window(SessionFolder):
    """A window: its server and client process, from the note in its folder.

    One of a session has the session's lock, log and pty host. One whose server was started by hand has no session and the number 0; its pty
    host listens in its own folder and is never spawned here.
    """

    def __init__(self, folder: str | os.PathLike[str], server: int | None = None, session: LocalSession | None = None,
                 number: int = 0) -> None:
        super().__init__(folder, f"{session.name}:{number}" if session else None, server)
        self.session, self.number = session, number
        if session:
            self.common, self.log = session.folder, session.log
        else:
            self.roles = ("server", "host", "client")

    def whole_session(self) -> SessionFolder:
        """Return the session of this window, or itself."""
        return self.session or self

    def windows(self) -> list[SessionFolder]:
        """Return the running windows of its session."""
        return self.session.windows() if self.session else [self]

    def window(self, number: int | None = None) -> SessionFolder:
        """Return a window of its session by its number, else this one."""
        if number in (None, self.number or 1):
            return self
        if not self.session:
            raise Fault(f"session {self.name} was started by hand and has one window; there is no window {number}")
        return self.session.window(number)

    def spawn_server(self) -> None:
        """Create the window's folder, and spawn the server in it."""
        for folder in (self.folder.parent, self.folder):
            folder.mkdir(mode=0o700, exist_ok=True)
        self.state = {"version": WINDOWS_VERSION}
        before = self.logged()
        try:
            self.spawned("server", server_words(self.folder))
            self.wait_for("server", before, lambda: (self.folder / "session").exists() and self.is_served())
        except BaseException:
            self.end_all()
            raise

    def is_spare(self) -> bool:
        """Return True if its server is only a spare and not a window. The mark in its folder may be lost to a cleaner of old files."""
        if (self.folder / SPARE).exists():
            return True
        is_joined = (self.state or {}).get(JOINED) or os.path.lexists(self.terminals)
        return not is_joined and is_spare_server(self.process("server"))

    def title(self) -> str:
        """Return its name; nothing if it has none."""
        try:
            return name_in((self.folder / "name").read_text(encoding="utf-8")[:512].strip()) or ""
        except (OSError, ValueError):
            return ""

    # ---- its known state

    def process(self, role: str) -> int | None:
        """Return the process of a role; None if none runs."""
        if role in ("host", HOLDER) and self.session:
            self.session.read()
            return self.session.process(role)
        return super().process(role)

    def busy(self) -> dict[int, str] | None:
        """Return the panes that run a program other than a shell, with its name; None if its pty host is unknown."""
        from roam_live.session.foreground import busy_panes

        host = self.process("host")
        if self.session:
            return busy_panes(str(self.session.folder), str(self.folder)) if host or self.process(HOLDER) else {}
        if host is None and not self.is_found and (self.served in (self.state or {}) or "host" in (self.state or {})):
            # Its pty host has ended.
            return {}
        with suppress(Fault):
            host = self.listener(ROLES["host"].socket) if host is None else host
        return None if host is None else busy_panes(str(self.folder))

    # ---- its processes

    def taken_lock(self, may_wait: bool) -> int:
        """Take and return the session's lock."""
        return self.session.taken_lock(may_wait) if self.session else super().taken_lock(may_wait)

    def launch(self, command: Iterable[str] = ()) -> None:
        """Refuse: the pty host opens windows."""
        raise Fault(f"session {self.whole_session().name}: only its pty host opens windows")

    def demand_client(self) -> None:
        """Check that this machine's client process is ready, and record again the processes found by its sockets."""
        self.note_found()
        super().demand_client()

    def demand_host(self) -> None:
        """Check that the pty host runs."""
        if self.session:
            self.session.read()
            self.session.demand_host()

    def owns_host(self) -> bool:
        """Return True if it has a session, whose pty host is restarted here."""
        return self.session is not None

    def revive_host(self) -> bool:
        """Restart the pty host if it has ended, and return True if it runs."""
        return self.session is not None and self.session.revive_host()

    def end_all(self) -> None:
        """End its processes."""
        if not self.session:
            self.note_end()
        for role in self.roles:
            self.end(role)

    def clean(self) -> None:
        """Remove its files, with its folder."""
        super().clean()
        for name in ("name", SPARE):
            (self.folder / name).unlink(missing_ok=True)
        for folder in (self.folder / "relays", self.folder):
            with suppress(OSError):
                folder.rmdir()


def holder_beside(host: int) -> int | None:
    """Return the holder of a pty host, which is its parent or its child; None if there is none."""
    parent = stated(host)[1:2]
    found = [*map(int, parent), *children_of(host)]
    return next((process for process in found if is_holder(process)), None)


def is_holder(process: int) -> bool:
    """Return True if a process is a holder, by its command."""
    try:
        words = FilePath(f"/proc/{process}/cmdline").read_bytes().split(b"\0")
    except OSError:
        return False
    return any(os.path.basename(word) == HOLDER.encode() for word in words[1:4])


def host_of(folder: FilePath) -> int | None:
    """Return the pty host of this user whose command names a folder; None if there is none."""
    user = os.getuid()
    for name in os.listdir("/proc"):
        with suppress(OSError):
            if name.isdigit() and os.stat(f"/proc/{name}").st_uid == user and is_host_of(int(name), os.fsencode(folder)):
                return int(name)
    return None


def is_host_of(process: int, folder: bytes) -> bool:
    """Return True if a process is the pty host of a folder's session, by its command: `pane_shells --windows [--first] FOLDER ..`."""
    # The name is read first: the words of a busy process may be slow to read.
    name = FilePath(f"/proc/{process}/comm").read_bytes().strip()
    if name != HOST_TOOL and not name.startswith(b"python"):
        return False
    words = FilePath(f"/proc/{process}/cmdline").read_bytes().split(b"\0")
    at = words.index(b"--windows") if b"--windows" in words[:MOST_WORDS] else -1
    is_host = at > 0 and os.path.basename(words[at - 1]) == HOST_TOOL
    return is_host and folder in words[at + 1 : at + 3] and begun(process) is not None


def command_of(host: int | None, folder: FilePath) -> list[str]:
    """Return the command that a pty host runs in each pane of a folder's session; empty for the shell, or if unknown."""
    try:
        words = FilePath(f"/proc/{host}/cmdline").read_bytes().split(b"\0")[:-1]
        return [os.fsdecode(word) for word in words[words.index(os.fsencode(folder)) + 1 :]]
    except (OSError, ValueError):
        return []
