"""A window at its session's host, the first size of a new one, and its processes.

They are spawned, recorded in its folder, found by its sockets, and ended.
"""
from __future__ import annotations

import os

from roam_live.common.errors import reason, say
from roam_live.common.files import replace_text
from roam_live.common.io import read
from roam_live.common.process import begun, end_words, is_running
from roam_live.common.spawn import forked_apart
from roam_live.common.suppress import suppress
from roam_live.common.tty import size_act
from roam_live.common.unix_socket import SHUT_WR, SocketPeer, connected_now
from roam_live.host.window import WindowHost
from roam_live.protocol.window_lines import NO_NAME, name_in, name_word
from roam_live.session.foreground import PANE
from roam_live.session.names import JOINED, SPARE, SPARE_VARIABLE, WINDOWS_VERSION, window_folder, windows_folder
from roam_live.session.processes import noted_in
from roam_live.session.roles import CLIENT, ROLES, SERVER, client_words, server_words

TYPE_CHECKING = False
if TYPE_CHECKING:
    import socket
    from collections.abc import Callable

    from typing import NoReturn

    from roam_live.common.event_loop import Loop
    from roam_live.common.tty import Size
    from roam_live.host.state import WindowState
    from roam_live.protocol.spawn_request import Begins
    from roam_live.session.processes import State

# The stages of a window: opening, open, and closing.
OPENING, THERE, ENDING = "opening", "there", "ending"

# Seconds for an opened window to be there.
OPENS = 10.0


class HostedWindow:
    """A window: its processes, its panes once they are followed, and a call for its opening."""

    def __init__(self, processes: WindowProcesses, told: Callable[[int, str], object]) -> None:
        self.number: int = processes.number
        self.state: WindowState = processes.state
        self.processes: WindowProcesses = processes
        self.told = told
        self.stage = OPENING
        processes.read_name()
        self.host: WindowHost | None = None
        self.size: Size | None = None
        self.sizes: SizeAct | None = None
        # The folder of its first pane's command; True if an earlier host had it; and True if it has a local client from the start. The
        # launcher spawns the client of a session's first window, and a remote terminal has its own.
        self.begins_in, self.is_again, self.has_client = "", False, True
        # The requested start options, if any.
        self.begins: Begins | None = None
        # True if another process spawns its server, and it is still unknown.
        self.is_given = False
        # The deadline for its opening, or its end.
        self.until = 0.0
        # The earliest moment of the next activity report.
        self.active_at = 0.0

    def has_terminals(self) -> bool:
        """Return True if a terminal is at the window."""
        return self.host is not None and self.host.channel.has_terminals()


class SizeAct:
    """A connection to a client that types a size. It closes once the client has taken the act."""

    def __init__(self, loop: Loop, peer: socket.socket, size: Size) -> None:
        self.loop, self.peer = loop, peer
        # A stopped client takes nothing: the connection is closed then too.
        self.name = f"size {peer.fileno()} is taken"
        loop.add(peer, self.hear, fails=lambda fault: self.close())
        loop.later(self.name, OPENS, self.close)
        try:
            peer.send(f"{size_act(size)}\n".encode())
            peer.shutdown(SHUT_WR)
        except OSError:
            self.close()

    def hear(self) -> None:
        """Discard the painted output until the client has closed the connection."""
        if read(self.peer.fileno()) == b"":
            self.close()

    def close(self) -> None:
        """Close it."""
        if self.peer.fileno() >= 0:
            self.loop.remove(self.peer)
            self.loop.drop(self.name)
            self.peer.close()


# A file with a name has fewer characters.
MOST_NAME = 512


def remove_folder(folder: str) -> None:
    """Remove a folder with its contents; OSError if that fails."""
    for name in os.listdir(folder):
        with suppress(OSError):
            os.unlink(os.path.join(folder, name))
    os.rmdir(folder)


class WindowProcesses:
    """The processes of one window, and their notes in its folder."""

    def __init__(self, common: str, state: WindowState) -> None:
        self.common, self.number = common, state.number
        self.folder = window_folder(common, state.number)
        self.state, self.noted = state, state.processes

    def path(self, name: str) -> str:
        """Return the path of a file in the window's folder."""
        return os.path.join(self.folder, name)

    def make_folder(self) -> None:
        """Create the window's folder, closed to other users."""
        for folder in (windows_folder(self.common), self.folder):
            with suppress(FileExistsError):
                os.mkdir(folder, 0o700)

    # ---- the known state

    def find(self) -> None:
        """Read the note. If it is lost, find the processes that listen at the sockets."""
        self.read()
        for role in (SERVER, CLIENT):
            if not self.is_known(role):
                with suppress(OSError), connected_now(self.path(ROLES[role].socket)) as peer:
                    process = SocketPeer.of(peer).process
                    self.noted[role] = process, begun(process)

    def read(self) -> None:
        """Read the note."""
        with suppress(OSError):
            state = noted_in(self.path("state.json")) or {}
            for role in [role for role in (SERVER, CLIENT) if role in state]:
                self.noted[role] = state[role][0], state[role][1]

    def is_known(self, role: str) -> bool:
        """Return True if a process of a role is known to run."""
        return role in self.noted and is_running(*self.noted[role])

    def runs(self, role: str) -> bool:
        """Return True if a process of a role runs. A front end may have restarted a client and recorded that."""
        if not self.is_known(role) and role == CLIENT:
            self.read()
        return self.is_known(role)

    def server(self) -> int:
        """Return the serving process; 0 if unknown."""
        return self.noted[SERVER][0] if SERVER in self.noted else 0

    def ending(self) -> str:
        """Return the words that record the end of its server."""
        return end_words(*self.noted[SERVER])

    def mark_spare(self, is_spare: bool) -> None:
        """Mark the processes as a spare, or as a window from now on."""
        if is_spare:
            with open(self.path(SPARE), "w", encoding="ascii"):
                return
        os.unlink(self.path(SPARE))
        self.note()

    def is_spare(self) -> bool:
        """Return True if they are only a spare."""
        return os.path.exists(self.path(SPARE))

    def read_name(self) -> None:
        """Read the window's name from its file."""
        with suppress(OSError, ValueError), open(self.path("name"), encoding="utf-8") as file:
            self.state.name = name_in(file.read(MOST_NAME).strip() or NO_NAME) or ""

    def note_name(self) -> None:
        """Write the window's name to its file."""
        replace_text(self.path("name"), f"{name_word(self.state.name)}\n")

    # ---- spawning

    def spawn(self, role: str, words: list[str]) -> int:
        """Spawn a process with a session of its own, and return its pid.

        It records itself before it executes the words, so that it is found even if the host dies.
        """
        process = forked_apart()
        if process == 0:
            self.become(role, words)
        self.noted[role] = process, begun(process)
        return process

    def spawn_server(self) -> int:
        """Spawn the window's server."""
        return self.spawn(SERVER, server_words(self.folder))

    def spawn_client(self) -> int:
        """Spawn the client process of this machine's terminals."""
        with suppress(FileNotFoundError):
            os.unlink(self.path(ROLES[CLIENT].socket))
        return self.spawn(CLIENT, client_words(self.folder))

    def become(self, role: str, words: list[str]) -> NoReturn:
        """Execute the process of a role in place of this one. It keeps this process's output."""
        try:
            os.setsid()
            self.noted[role] = os.getpid(), begun(os.getpid())
            self.note()
            nothing = os.open(os.devnull, os.O_RDONLY)
            os.dup2(nothing, 0)
            os.dup2(2, 1)
            # This variable marks programs in a pane, even of another session in which this one was started.
            environment = {name: value for name, value in os.environ.items() if name not in (PANE, SPARE_VARIABLE)}
            os.execve(words[0], words, {**environment, **({SPARE_VARIABLE: "1"} if self.is_spare() else {})})
        except OSError as fault:
            say(f"window {self.number}: cannot run {words[0]}: {reason(fault)}")
        finally:
            os._exit(127)

    def note(self) -> None:
        """Record the known processes."""
        state: State = {"version": WINDOWS_VERSION, **({} if self.is_spare() else {JOINED: True})}
        for role, one in self.noted.items():
            state[role] = list(one)
        import json

        replace_text(self.path("state.json"), json.dumps(state))

    # ---- their end

    def end(self, number: int, *roles: str) -> None:
        """Send a signal to the running processes of these roles, by default of both."""
        for role in roles or (SERVER, CLIENT):
            if self.runs(role):
                with suppress(OSError):
                    os.kill(self.noted[role][0], number)

    def clean(self) -> None:
        """Remove their files, and the notes of far relays."""
        for folder in (self.path("relays"), self.folder):
            with suppress(OSError):
                remove_folder(folder)
