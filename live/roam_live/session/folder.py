"""A folder of a session, or of one of its windows: its processes, its clean-up, and its line in lists."""
from __future__ import annotations

import os
import time

from roam_live.common.build_info import identity
from roam_live.common.errors import Fault
from roam_live.common.file_path import FilePath
from roam_live.common.files import is_locked, is_own_folder
from roam_live.common.process import age_of, begun, end_words, is_stopped, note_ends
from roam_live.common.suppress import suppress
from roam_live.common.text import printable
from roam_live.common.unix_socket import is_listened
from roam_live.protocol.panes import ASKED, MOST_CLIENTS, asked_places
from roam_live.session.environment import LINK
from roam_live.session.front_end_lock import FRONT_ENDS, has_front_ends
from roam_live.session.names import BUILD, HOST_STATE, LONGEST_PATH, REMOTE_CLIENTS, TOOLS_FOLDER, WINDOWS_VERSION
from roam_live.session.processes import START_WAIT, Processes, noted_in
from roam_live.session.roles import ROLES, client_words

TYPE_CHECKING = False
if TYPE_CHECKING:
    from collections.abc import Iterable

    from roam_live.protocol.panes import Places
    from roam_live.session.survey import Survey

# Seconds to wait for the number of free clients before a client is spawned. The user waits too.
ROOM_ASKED = 0.25

# Seconds that the log of an ended session stays. Then the files that are written by way of a second file, whose name has a pid at its end;
# a killed process leaves that one.
LOG_KEPT = 86400.0
WRITTEN = ("ended", "state.json", "session", HOST_STATE)

# From this many clients on, `mux ls` prints the number that a server knows.
MANY_CLIENTS = 32

# The least columns of a name in `mux ls`.
LEAST_NAME = 12

# The most characters of another build's name that are shown.
LONGEST_BUILD = 60

# `mux ls` adds this for a session that does not report its terminals.
NO_ANSWER = ", its pty host does not answer"

SOCKETS = ("clients", "panes", "terminals", "host", *(f"p{pane}" for pane in range(1, 10)))


class SessionFolder(Processes):
    """A folder with listening processes, of a session or of a window. The subclasses define the rest."""

    # The roles of the processes that listen in the folder.
    roles: tuple[str, ...] = ("server", "client")

    def __init__(self, folder: str | os.PathLike[str], name: str | None = None, server: int | None = None) -> None:
        super().__init__(folder, server)
        self.name = name or self.folder.name
        # True if its processes were found by its sockets.
        self.is_found = False
        # The folder of the session, and the number of the window, 0 if it has none.
        self.common = self.folder
        self.number = 0
        self.terminals = self.folder / ROLES["client"].socket
        if len(str(self.terminals)) > LONGEST_PATH:
            raise Fault(f"{self.folder} is too long for a socket's path")

    def __str__(self) -> str:
        return f"in {self.folder}"

    # ---- its windows

    def windows(self) -> list[SessionFolder]:
        """Return the windows of the session, in order."""
        raise NotImplementedError

    def window(self, number: int | None = None) -> SessionFolder:
        """Return a window by its number, else the one used last; Fault if it does not exist."""
        raise NotImplementedError

    def whole_session(self) -> SessionFolder:
        """Return the session of which this is a window, or itself."""
        return self

    def title(self) -> str:
        """Return its name as a window; nothing if it has none."""
        return ""

    def tools_folder(self) -> str:
        """Return the folder of the tools that the session's pty host runs; nothing if its note does not say so."""
        try:
            found = (noted_in(os.path.join(self.common, "state.json")) or {}).get(TOOLS_FOLDER)
        except OSError:
            return ""
        return found if isinstance(found, str) else ""

    # ---- its known state

    def id(self) -> str:
        """Return the session's id, if known."""
        try:
            return (self.folder / "session").read_text(encoding="utf-8").strip()
        except OSError:
            return ""

    def places(self, seconds: float = ASKED) -> Places | None:
        """Query the positions of its panes; None without an answer within so many seconds.

        That includes a folder that another user made in its place.
        """
        return asked_places(self.folder / "panes", seconds) if is_own_folder(self.folder) else None

    def is_served(self) -> bool:
        """Return True if a server is there, or a relay to one."""
        return is_listened(self.folder / "clients")

    def busy(self) -> dict[int, str] | None:
        """Return the panes that run a program other than a shell, with its name; None if unknown."""
        return None

    def busy_programs(self) -> dict[tuple[int, int], str] | None:
        """Return the same by windows and panes; 0 is the window of a session with only one."""
        busy = self.busy()
        return None if busy is None else {(0, pane): name for pane, name in busy.items()}

    def ending(self) -> tuple[str, int]:
        """Return the message and exit status once its serving process has ended. An intended end was recorded before."""
        if self.met and end_words(*self.met) in self.whole_session().ended().splitlines():
            return "[the session has ended]", 0
        return f"[the server was killed or failed, and its session is gone; {self.log} may say why]", 1

    def ended(self) -> str:
        """Return the record of an end: the serving process and its start time; nothing without one."""
        try:
            return (self.folder / "ended").read_text(encoding="utf-8").strip()
        except (OSError, ValueError):
            return ""

    def note_end(self) -> None:
        """Record that its serving process is about to be ended on purpose, so that followers do not report a failure."""
        if self.runs() and self.met:
            note_ends(str(self.common), [end_words(*self.met)])

    # ---- its presence

    def find(self) -> bool:
        """Return True if it runs, by its note or else by the process that answers at its socket.

        If the note is lost, for example to a cleaner of old files, its processes are known again afterwards.
        """
        if self.runs():
            return True
        self.demand_read()
        process = self.listener(ROLES[self.served].socket)
        process = self.holder() if process is None else process
        if process is None:
            return False
        found: dict[str, int | None] = {self.served: process}
        for role in self.roles:
            if role != self.served:
                with suppress(Fault):
                    found[role] = self.listener(ROLES[role].socket)
        self.state = {"version": WINDOWS_VERSION, **{role: [one, begun(one)] for role, one in found.items() if one}}
        self.is_found = True
        return self.runs()

    def holder(self) -> int | None:
        """Return the serving process from the lock on its folder, for a folder without note and socket; None if it is unlocked."""
        return None

    def demand(self) -> None:
        """Raise Fault unless it runs."""
        if not self.find():
            raise Fault(f"no session {self.name} is running; `mux ls` lists sessions")

    def note_found(self) -> None:
        """Write a lost note again from the processes found at its sockets. The caller has its lock."""
        if self.is_found:
            self.write_note()

    # ---- its processes

    def launch(self, command: Iterable[str] = ()) -> None:
        """Start the session's serving process and the pty host, with a command in place of each shell; all or nothing."""
        raise NotImplementedError

    def demand_ready(self) -> None:
        """Check that the pty host runs, if it was spawned just now."""

    def demand_host(self) -> None:
        """Check that the pty host runs, if it is on this machine."""

    def spawn_client(self) -> None:
        """Spawn the client process of this machine's terminals."""
        self.terminals.unlink(missing_ok=True)
        self.state = self.state or {"version": WINDOWS_VERSION}
        self.spawned("client", client_words(self.folder))

    def demand_room(self) -> None:
        """Raise Fault if the server has accepted its last client."""
        places = self.places(ROOM_ASKED)
        if places and places.is_full():
            raise Fault(f"session {self.name} has used its {MOST_CLIENTS} clients and accepts no more; its programs "
                        f"keep running, and `mux kill {self.name}` ends it")

    def demand_client(self) -> None:
        """Check that the client of this machine's terminals runs, and is ready."""
        before = self.logged()
        if not self.has_client():
            self.demand_room()
            self.spawn_client()
            self.wait_for("client", before, lambda: is_listened(self.terminals))

    def has_client(self) -> bool:
        """Return True if a client process for this machine's terminals runs, by its note or its socket."""
        if is_listened(self.terminals):
            return True
        client = self.process("client")
        # One that runs for long without a socket continues with its terminals, and is found by no other.
        return client is not None and (os.path.lexists(self.terminals) or age_of(client) < START_WAIT)

    def revive(self) -> None:
        """Restart the client process if it has ended, unless somebody else does."""
        with suppress(BlockingIOError), self.locked(may_wait=False):
            if not self.has_client():
                self.spawn_client()

    def owns_host(self) -> bool:
        """Return True if its pty host is restarted here."""
        return False

    def revive_host(self) -> bool:
        """Restart the pty host if it has ended and belongs here, and return True if it runs."""
        return False

    # ---- its end

    def clean(self) -> None:
        """Remove the files of an ended session except its log and the record of its end. If a process still answers, remove nothing."""
        if self.is_served():
            raise Fault(f"a process answers at {self.folder / 'clients'}; nothing was removed there")
        relays = self.folder / "relays"
        notes = [self.folder / name for name in (*SOCKETS, LINK, REMOTE_CLIENTS, HOST_STATE, "session", "session.new", "state.json")]
        for path in [*(relays.iterdir() if relays.is_dir() else ()), *notes]:
            path.unlink(missing_ok=True)

    def end_all(self) -> None:
        """End its processes."""
        self.note_end()
        for role in (self.served, *self.roles):
            self.end(role)

    def kill(self) -> None:
        """End the rest of the session, and remove it. The caller has its lock."""
        self.end_all()
        self.clean()

    def tidy(self) -> None:
        """Remove the rest of an ended session. The caller has its lock, since a starting session looks the same."""
        if not self.find():
            self.kill()
            with suppress(OSError):
                self.leave()

    def leave(self) -> None:
        """Remove the folder of an ended session, unless a front end still has to read how it ended. A log with contents stays for a day."""
        front_ends, ended, relays = self.folder / FRONT_ENDS, self.folder / "ended", self.folder / "relays"
        if has_front_ends(self.common) or is_locked(self.folder):
            return
        if self.log.exists() and (front_ends.exists() or ended.exists()):
            # It has just ended.
            os.utime(self.log)
        for path in [ended, front_ends, *filter(is_half_written, self.folder.iterdir())]:
            path.unlink(missing_ok=True)
        if relays.is_dir():
            relays.rmdir()
        if not self.tells() or time.time() > self.log.stat().st_mtime + LOG_KEPT:
            self.log.unlink(missing_ok=True)
        (self.folder / "lock").unlink(missing_ok=True)
        if not self.log.exists():
            self.folder.rmdir()

    def await_end(self) -> None:
        """Wait for a process that ends soon after the server, if there is one."""

    def drop_ended(self) -> None:
        """Clean up after an ended session, unless somebody starts it anew."""
        with suppress(OSError), self.locked(may_wait=False):
            self.tidy()

    def close(self) -> None:
        """Release it: its processes stay."""

    # ---- its line in `mux ls`

    def is_listed(self) -> bool:
        """Return True if it runs. Clean up an ended one, unless somebody is restarting it."""
        if not self.find():
            self.drop_ended()
        return self.runs()

    def shown_window(self, windows: list[SessionFolder]) -> SessionFolder:
        """Return the window whose size `mux ls` prints."""
        return windows[0]

    def line(self, survey: Survey, windows: list[SessionFolder], width: int = 0) -> str:
        """Return the line of `mux ls` from the answers of its windows' sockets. `width` pads the name."""
        places = [survey.places(window.folder) for window in windows]
        shown = survey.places(self.shown_window(windows).folder) if windows else None
        size = "{} by {}".format(*shown.area()) if shown else "-"
        panes = None if None in places or not places else sum(len(one.rects) for one in places if one)
        terminals = survey.terminals(self.folder)
        named = " ".join(f"{window.number}:{window.title()}" if window.title() else f"{window.number}" for window in windows)
        more = f", {len(windows)} windows: {named}" if len(windows) > 1 else ""
        lacking = self.lacking(terminals is not None) or (NO_ANSWER if terminals is None else "")
        other = self.other_build()
        lacking += f", runs roam {other}, which `mux upgrade` explains" if other else ""
        return f"{listed(self.name, size, panes, terminals, width)}{many_clients(places)}{more}{lacking}"

    def other_build(self) -> str:
        """Return the build of roam with which its processes started, if it differs from this one; "" otherwise, or if unknown."""
        told = (self.state or {}).get(BUILD)
        return printable(told)[:LONGEST_BUILD] if isinstance(told, str) and told != identity() else ""

    def lacking(self, answers: bool) -> str:
        """Return the remark of `mux ls` on a pty host that does not run. One that answers runs, whatever the note says on a full disk."""
        host = self.process("host")
        if answers:
            return ""
        if host is None:
            return ", its pty host is not running"
        return ", the pty host is stopped" if is_stopped(host) else ""


def is_half_written(path: FilePath) -> bool:
    """Return True if a killed process left this file, whose name has a pid after that of its target."""
    stem, _, suffix = path.name.rpartition(".")
    return stem in WRITTEN and suffix.isdigit()


def listed(name: str, size: str, panes: int | None, terminals: int | None, width: int) -> str:
    """Return the columns of `mux ls` that every session has. None marks an unknown value."""
    width = max(width, LEAST_NAME)
    has = "? panes" if panes is None else "1 pane" if panes == 1 else f"{panes} panes"
    return f"{name:{width}} {size:12} {has:8} {'?' if terminals is None else terminals} terminal{'' if terminals == 1 else 's'}"


def many_clients(found: Iterable[Places | None]) -> str:
    """Return the remark of `mux ls` on a server with many clients. Near its limit, it accepts no new client of another machine."""
    places = max((one for one in found if one), key=lambda one: one.clients, default=None)
    if not places or places.clients <= MANY_CLIENTS:
        return ""
    warning = ", only this machine gets new ones" if places.warning() else ""
    return f", {places.clients} of {MOST_CLIENTS} clients{', no more are accepted' if places.is_full() else warning}"
