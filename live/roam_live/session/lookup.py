"""Finds sessions by name or folder, and removes the rest of ended ones."""
from __future__ import annotations

import os

from roam_live.common.errors import Fault
from roam_live.common.file_path import FilePath
from roam_live.common.suppress import suppress
from roam_live.common.unix_socket import is_listened
from roam_live.session.local import LocalSession, Window
from roam_live.session.names import LONGEST_PATH, WINDOWS, base, is_name, is_near_name, is_number
from roam_live.session.remote import RemoteSession
from roam_live.session.roles import ROLES

TYPE_CHECKING = False
if TYPE_CHECKING:
    from roam_live.session.folder import SessionFolder


def session_named(name: str) -> SessionFolder:
    """Return the session of a name: one of this machine, or the local end of a remote one."""
    if not is_near_name(name):
        session = LocalSession.named(name)
        if is_by_hand(session.folder):
            raise Fault(f"{session.folder} belongs to a server that was started by hand; `roam-attach {session.folder}` attaches to it")
        return session
    near = RemoteSession(base() / name, name)
    if near.folder.is_dir():
        return near
    # `mux ssh` with options adds a number to the name.
    others = [path for path in base().iterdir() if path.name.startswith(f"{name}:") and is_near_name(path.name)]
    if len(others) > 1:
        raise Fault(f"{name} may be {' or '.join(sorted(path.name for path in others))}; name one of them")
    if not others:
        raise Fault(f"no session named {name}; `mux ls` lists sessions")
    return RemoteSession(others[0], others[0].name)


def is_by_hand(folder: FilePath) -> bool:
    """Return True if a server was started by hand in a folder: its sockets are in the folder itself."""
    path = folder / ROLES["server"].socket
    return os.path.lexists(path) and is_listened(path)


def sessions_here() -> list[SessionFolder]:
    """Return the sessions with a folder, by name: local ones first, then remote ones."""
    folders = sorted(path for path in base().iterdir() if path.is_dir() and len(str(path / "terminals")) <= LONGEST_PATH)
    own: list[SessionFolder] = []
    for path in folders:
        # A name whose path is too long for its windows' sockets belongs to no session.
        with suppress(Fault):
            own += [LocalSession(path)] if is_name(path.name) and not is_by_hand(path) else []
    return own + [RemoteSession(path) for path in folders if is_near_name(path.name)]


def sweep() -> None:
    """Clean up after local sessions that ended without anybody to do it."""
    for session in sessions_here():
        with suppress(Fault):
            if session.served != RemoteSession.served and not session.find():
                session.drop_ended()


def window_in(folder: str | os.PathLike[str], server: int | None = None) -> Window:
    """Return the window in a folder: one of a session, or one that was started by hand."""
    path = FilePath(os.path.abspath(folder))
    if path.parent.name == WINDOWS and is_number(path.name) and is_name(path.parent.parent.name):
        return LocalSession(path.parent.parent).window_of(int(path.name), server)
    return Window(folder, server)
