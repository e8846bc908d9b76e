"""The name spaces of `roam tmux`: each socket that tmux would use, by -L or -S, has its own sessions, options, buffers and channels.

The default one has the sessions of `mux` too. What belongs to a name space is in a folder `.tmux/NUMBER` beside the sessions. The sessions
of another name space than the default one are folders in it.
"""
from __future__ import annotations

import fcntl
import hashlib
import json
import os
import shutil
import time

from roam_live.common.errors import Fault
from roam_live.common.files import is_own_folder, locked_soon, replace_text
from roam_live.common.json_reader import read_json
from roam_live.common.suppress import suppress
from roam_live.session.names import NAME_SPACES, SPACE_STATE, base, bases, is_name
from roam_live.session.pane_ids import new_id

TYPE_CHECKING = False
if TYPE_CHECKING:
    from collections.abc import Iterator
    from typing import TypedDict

    Values = dict[str, str]

    class ZoomNote(TypedDict):
        """A zoom of a window: the size of the session before, and the one for the zoom, in rows and columns, and the number of the pane."""

        size: list[int]
        to: list[int]
        pane: int

    class WindowNote(TypedDict, total=False):
        """A window: its id and index, the id of its server, its options, those of its panes by id, and its zoom."""

        id: int
        index: int
        server: str
        options: Values
        panes: dict[str, Values]
        zoom: ZoomNote

    class SessionNote(TypedDict, total=False):
        """A session: its id, name, moments and folder; its windows by number; its options, variables and hooks; the number of the current
        window, those before it, and the one that a terminal showed last then; and True if it was started in this name space.
        """

        id: int
        name: str
        created: int
        activity: float
        path: str
        windows: dict[str, WindowNote]
        options: Values
        environment: dict[str, str | None]
        hidden: list[str]
        hooks: dict[str, list[str]]
        current: int
        stack: list[int]
        seen: int
        is_own: bool

    class BufferNote(TypedDict):
        """A buffer: its place in the order, its moment, its bytes, and True if tmux chose its name."""

        order: int
        created: int
        size: int
        is_automatic: bool

    class SpaceState(TypedDict, total=False):
        """The state of a name space. A variable without a value is removed from the environment."""

        sessions: dict[str, SessionNote]
        server: Values
        session_options: Values
        window_options: Values
        environment: dict[str, str | None]
        hidden: list[str]
        buffers: dict[str, BufferNote]
        next_buffer: int
        hooks: dict[str, list[str]]

# The lock of a state, and the folders of buffers and channels.
LOCK, BUFFERS, CHANNELS = "lock", "buffers", "channels"

# Seconds to wait for other calls at the state, and the most characters of a state.
WAITS, MOST_STATE = 10.0, 1 << 24

# The name of the socket without -L and -S.
DEFAULT = "default"


def socket_path(name: str, path: str) -> str:
    """Return the path of the socket that tmux would use for -L NAME or -S PATH."""
    if path:
        return path
    folder = os.environ.get("TMUX_TMPDIR") or "/tmp"
    return os.path.join(os.path.realpath(folder), f"tmux-{os.getuid()}", name or DEFAULT)


class NameSpace:
    """A name space, by the path of its socket."""

    def __init__(self, path: str) -> None:
        self.path, self.own = path, str(base())
        self.is_default = path == socket_path("", "")
        number = hashlib.sha256(os.fsencode(os.path.abspath(path))).hexdigest()[:10]
        self.folder = os.path.join(self.own, NAME_SPACES, number)
        self.sessions = self.own if self.is_default else self.folder

    def enter(self) -> None:
        """Make the sessions of this process those of this name space."""
        bases[:] = [type(base())(self.sessions)]

    def is_known(self) -> bool:
        """Return True if a session was ever started here."""
        return os.path.isdir(self.folder)

    def make(self) -> None:
        """Make its folder; Fault if others may write there."""
        for folder in (os.path.dirname(self.folder), self.folder):
            with suppress(FileExistsError):
                os.mkdir(folder, 0o700)
            if not is_own_folder(folder):
                raise Fault(f"{folder} belongs to another user")
        name = os.path.join(self.folder, "socket")
        if not self.is_default and not os.path.exists(name):
            # Programs in its panes find it by this.
            replace_text(name, self.path)

    # ---- state

    def state(self) -> SpaceState:
        """Return its state, a new one if there is none."""
        found: SpaceState = new_state()
        with suppress(OSError, ValueError, RecursionError):
            with open(os.path.join(self.folder, SPACE_STATE), encoding="utf-8") as file:
                found = filled(read_json(file.read(MOST_STATE)))
        return found

    def changing(self) -> SpaceChange:
        """Return a `with` that locks the state, gives it, and stores it at the end."""
        self.make()
        return SpaceChange(self)

    def reset(self) -> None:
        """Forget options, buffers and channels, as a server of tmux does with its last session."""
        if not os.path.isdir(self.folder):
            return
        for name in (BUFFERS, CHANNELS):
            shutil.rmtree(os.path.join(self.folder, name), ignore_errors=True)
        with suppress(OSError):
            os.unlink(os.path.join(self.folder, SPACE_STATE))

    def new_id(self) -> int:
        """Return an id that no session, window or pane of this user has or had."""
        return new_id(-1, self.own)

    # ---- buffers

    def buffer_path(self, name: str) -> str:
        """Return the path of a buffer's text."""
        return os.path.join(self.folder, BUFFERS, hashlib.sha256(name.encode("utf-8", "surrogateescape")).hexdigest())

    def buffer(self, name: str) -> bytes:
        """Return the text of a buffer; OSError if there is none."""
        with open(self.buffer_path(name), "rb") as file:
            return file.read()

    def store_buffer(self, name: str, text: bytes) -> None:
        """Store the text of a buffer."""
        path = self.buffer_path(name)
        os.makedirs(os.path.dirname(path), 0o700, exist_ok=True)
        with open(f"{path}.{os.getpid()}", "wb", opener=lambda path, flags: os.open(path, flags, 0o600)) as file:
            file.write(text)
        os.replace(f"{path}.{os.getpid()}", path)

    # ---- sessions

    def folder_for(self, name: str, number: int) -> str:
        """Return the name of a new session's folder: its own name if `mux` accepts it, else one with its number."""
        is_free = is_name(name) and not os.path.lexists(os.path.join(self.sessions, name))
        return name if is_free else f"t{number}"

    def folders(self) -> Iterator[str]:
        """Yield the names of the folders that may be sessions."""
        if os.path.isdir(self.sessions):
            yield from sorted(os.listdir(self.sessions))


def new_state() -> SpaceState:
    """Return the state of a name space without sessions."""
    return {"sessions": {}, "server": {}, "session_options": {}, "window_options": {}, "environment": {}, "hidden": [], "buffers": {},
            "next_buffer": 0, "hooks": {}}


def filled(found: SpaceState) -> SpaceState:
    """Return a state that was read, with the parts that it lacks; ValueError if it is none."""
    if not isinstance(found, dict) or not isinstance(found.get("sessions"), dict):
        raise ValueError("no state of a name space")
    state = new_state()
    state.update(found)
    return state


class SpaceChange:
    """A change of a state, in a `with`: other calls wait for it."""

    def __init__(self, space: NameSpace) -> None:
        self.space, self.end, self.state = space, -1, space.state()

    def __enter__(self) -> SpaceState:
        path = os.path.join(self.space.folder, LOCK)
        self.end = os.open(path, os.O_RDWR | os.O_CREAT | os.O_CLOEXEC | os.O_NOFOLLOW, 0o600)
        if not locked_soon(self.end, fcntl.LOCK_EX, WAITS):
            os.close(self.end)
            raise Fault("another command of this name space does not end")
        self.state = self.space.state()
        return self.state

    def __exit__(self, kind: object, *fault: object) -> None:
        try:
            if kind is None:
                replace_text(os.path.join(self.space.folder, SPACE_STATE), json.dumps(self.state))
        finally:
            os.close(self.end)


def moment() -> int:
    """Return the seconds since the epoch."""
    return int(time.time())
