"""The processes of a session by role: names, sockets, starters, ends, and command lines."""
from __future__ import annotations

import os

from roam_live.common.named_fields import NamedFields
from roam_live.common.process import TOOLS, program

TYPE_CHECKING = False
if TYPE_CHECKING:
    from collections.abc import Iterable

    Folder = str | os.PathLike[str]


class ProcessRole(NamedFields):
    """A role: its word in notes, its name in messages, its socket, its starter, and the moment of its end."""

    name: str
    said: str
    socket: str
    starter: str
    ends: str


ROLES = {role.name: role for role in (
    ProcessRole("server", "the server", "clients", "mux, for the first window; the pty host", "with its window"),
    ProcessRole("client", "the client process", "terminals", "mux, a front end or the pty host", "with its server"),
    ProcessRole("host", "the pty host", "host", "mux, a front end or the far relay", "with the last window"),
    ProcessRole("holder", "the holder", "", "the pty host", "with the last window"),
    ProcessRole("relay", "the relay", "clients", "mux ssh", "an hour after the last terminal, or with the session"),
    ProcessRole("rows", "the scrollback process", "", "the pty host", "with the pty host"),
)}

# The roles of a window's processes.
SERVER, CLIENT = "server", "client"

# The role of the process that keeps a session's programs and starts its pty hosts.
HOLDER = "holder"

# The roles that a note may contain.
NOTED = ("server", "relay", "host", "client", HOLDER)


def server_words(folder: Folder) -> list[str]:
    """Return the words that run the server of a window."""
    return [program(), "serve", "--normalize", "--dir", str(folder)]


def client_words(folder: Folder) -> list[str]:
    """Return the words that run the client process of a window."""
    return [program(), "attach", "--dir", str(folder), "--terminals", os.path.join(folder, ROLES["client"].socket)]


def host_words(folder: Folder, command: Iterable[str], more: Iterable[str] = ()) -> list[str]:
    """Return the words that run the pty host of a session, with a command in place of each shell."""
    return [str(TOOLS / "pane_shells"), "--windows", *more, str(folder), *command]


def relay_words(folder: Folder, log: Folder, alone: int, host: str, command: Iterable[str]) -> list[str]:
    """Return the words that run the near relay of a session, which ends so many seconds after the last terminal."""
    words = [str(TOOLS / "relay"), "--alone", str(alone), "--log", str(log), *([f"--host={host}"] if host else [])]
    return [*words, "--dir", str(folder), "-", *command]
