"""The sessions of a name space with their windows and panes, under tmux's ids and indices, as their owners report them."""
from __future__ import annotations

import os
import time

from roam_live.common.errors import Fault
from roam_live.common.file_path import FilePath
from roam_live.common.json_reader import read_json
from roam_live.common.suppress import suppress
from roam_live.common.unix_socket import connected_in
from roam_live.protocol.panes import ASKED, METADATA, AskedPanes, PanesState, Rect, in_order
from roam_live.session.foreground import foreground
from roam_live.session.local import LocalSession
from roam_live.session.names import HOST_STATE, is_name

TYPE_CHECKING = False
if TYPE_CHECKING:
    from typing import TypedDict

    from roam_live.cli.tmux.name_space import NameSpace, SessionNote, WindowNote
    from roam_live.session.folder import SessionFolder

    class PaneNote(TypedDict):
        """A pane in the state of the pty host."""

        id: int
        generation: int
        folder: str
        command: list[str]
        process: int | None
        has_ended: bool

    class HostWindow(TypedDict):
        """A window in the state of the pty host."""

        panes: dict[str, PaneNote]
        focus: int
        history: list[int]

    class HostState(TypedDict):
        """The state of the pty host, as far as it is used here."""

        windows: dict[str, HostWindow]

# Seconds for the pty host to note a new pane, and to follow the focus.
NOTES, FOLLOWS, STEP = 3.0, 0.5, 0.02


class PaneView:
    """A pane: its id, its number and generation at the server, its rectangle, its index, and the note of the pty host."""

    def __init__(self, window: WindowView, number: int, rect: Rect, index: int, note: PaneNote) -> None:
        self.window, self.number, self.rect, self.index, self.note = window, number, rect, index, note
        self.id: int = note["id"]
        self.generation: int = note["generation"]

    @property
    def process(self) -> int:
        """Return the process of its command; 0 if there is none."""
        return self.note["process"] or 0

    def program(self) -> str:
        """Return the name of its foreground program."""
        return foreground(str(self.process)) if self.process else ""

    def folder(self) -> str:
        """Return the working folder of its foreground program; nothing if that is unknown."""
        with suppress(OSError, IndexError, ValueError):
            words = FilePath(f"/proc/{self.process}/stat").read_text(encoding="utf-8", errors="replace").rpartition(")")[2].split()
            return os.readlink(f"/proc/{words[5]}/cwd")
        return ""

    def terminal(self) -> str:
        """Return the path of its terminal; nothing if that is unknown."""
        with suppress(OSError):
            found = os.readlink(f"/proc/{self.process}/fd/0")
            return found if found.startswith("/dev/pts/") else ""
        return ""


class WindowView:
    """A window of a session: its place in `mux`, its note in the name space, and its panes once they are asked for."""

    def __init__(self, session: SessionView, place: SessionFolder, note: WindowNote) -> None:
        self.session, self.place, self.note = session, place, note
        self.id: int = note["id"]
        self.index: int = note["index"]
        self.number = place.number
        self.told: PanesState | None = None
        self.found: list[PaneView] = []
        self.last = 0
        self.has_metadata = False

    @property
    def name(self) -> str:
        """Return its name: the given one, else that of the foreground program of its active pane."""
        title = self.place.title()
        active = None if title else self.active()
        return title or (active.program() if active else "")

    def ask(self, has_metadata: bool = False) -> PanesState:
        """Return what its server reports; without an answer nothing."""
        if self.told and (self.has_metadata or not has_metadata):
            return self.told
        self.told, self.has_metadata = PanesState(), has_metadata
        with suppress(OSError), connected_in(self.place.folder / "panes", ASKED) as peer:
            if has_metadata:
                peer.send(f"{METADATA}\n".encode())
            asked = AskedPanes(peer)
            asked.hear_all(ASKED, (lambda: False) if has_metadata else asked.told.is_whole)
            self.told = asked.told
        return self.told

    def panes(self) -> list[PaneView]:
        """Return its panes in the order of the layout, under the ids that the pty host noted."""
        if not self.found:
            places = self.ask().places()
            rects = places.rects if places else {}
            notes = self.notes(rects)
            numbers = [number for number in in_order(rects) if number in notes]
            self.found = [PaneView(self, number, rects[number], index, notes[number])
                          for index, number in enumerate(numbers, self.pane_base())]
        return self.found

    def notes(self, rects: dict[int, Rect]) -> dict[int, PaneNote]:
        """Return the notes of the pty host about panes, once it has noted all of them."""
        end = time.monotonic() + NOTES
        told = self.ask()
        while True:
            note = self.session.host_state()["windows"].get(str(self.number), {"panes": {}, "focus": 0, "history": []})
            panes = {int(number): pane for number, pane in note["panes"].items()}
            known = {number: pane for number, pane in panes.items() if str(pane["generation"]) == told.generations.get(number)}
            is_current = note["focus"] == told.focus or time.monotonic() > end - NOTES + FOLLOWS
            if rects.keys() <= known.keys() and is_current or time.monotonic() > end:
                self.last = next((number for number in note["history"] if number in rects and number != told.focus), 0)
                return known
            time.sleep(STEP)
            self.session.forget_host()

    def active(self) -> PaneView | None:
        """Return its active pane."""
        focus = self.ask().focus
        return next((pane for pane in self.panes() if pane.number == focus), None)

    def last_pane(self) -> PaneView | None:
        """Return the pane that was active before."""
        return next((pane for pane in self.panes() if pane.number == self.last), None)

    def pane_base(self) -> int:
        """Return the index of its first pane."""
        return int(self.session.model.option("pane-base-index", self.session.note, self.note))

    def area(self) -> Rect:
        """Return the rectangle of all its panes."""
        rects = [pane.rect for pane in self.panes()]
        rows = max((rect.row + rect.rows for rect in rects), default=1) - 1
        return Rect(1, 1, rows, max((rect.col + rect.cols for rect in rects), default=1) - 1)


class SessionView:
    """A session: its place in `mux`, its note in the name space, and its windows by index."""

    def __init__(self, model: Model, place: LocalSession, note: SessionNote, windows: list[SessionFolder]) -> None:
        self.model, self.place, self.note = model, place, note
        self.id: int = note["id"]
        self.name: str = note["name"]
        self.folder = place.name
        found = [WindowView(self, window, note["windows"][str(window.number)]) for window in windows]
        self.found = sorted(found, key=lambda window: window.index)
        self.state: HostState | None = None

    def windows(self) -> list[WindowView]:
        """Return its windows."""
        return self.found

    def numbered(self, number: int) -> WindowView | None:
        """Return its window of a number in `mux`."""
        return next((window for window in self.found if window.number == number), None)

    def current(self) -> WindowView | None:
        """Return its current window: the one chosen here, unless a terminal went to another since."""
        last = self.place.last()
        number = last if last and last != self.note.get("seen") else self.note.get("current")
        return self.numbered(number or 0) or (self.found[0] if self.found else None)

    def last_window(self) -> WindowView | None:
        """Return the window that was current before."""
        here = self.current()
        found = (self.numbered(number) for number in self.note.get("stack", []))
        return next((window for window in found if window and window is not here), None)

    def host_state(self) -> HostState:
        """Return the state of its pty host."""
        if self.state is None:
            self.state = written_by_host(self.place)
        return self.state

    def forget_host(self) -> None:
        """Read the state of the pty host again when it is needed."""
        self.state = None


def written_by_host(place: LocalSession) -> HostState:
    """Return the state that the pty host of a session wrote last; one without windows if the file has none."""
    state: HostState = {"windows": {}}
    with suppress(OSError, ValueError, RecursionError):
        found = read_json(FilePath(place.folder / HOST_STATE).read_text())
        state = found if has_windows(found) else state
    return state


def has_windows(found: object) -> bool:
    """Return True if JSON has the form of a host's state, as far as it is used here."""
    windows = found.get("windows") if isinstance(found, dict) else None
    return isinstance(windows, dict) and all(has_panes(window) for window in windows.values())


def has_panes(window: object) -> bool:
    """Return True if JSON has the form of a window in a host's state."""
    panes = window.get("panes") if isinstance(window, dict) else None
    if not isinstance(window, dict) or not isinstance(panes, dict):
        return False
    is_known = type(window.get("focus")) is int and isinstance(window.get("history"), list)
    return is_known and all(number.isdecimal() and is_pane_note(pane) for number, pane in panes.items())


def is_pane_note(pane: object) -> bool:
    """Return True if JSON has the form of a pane in a host's state."""
    if not isinstance(pane, dict) or not isinstance(pane.get("command"), list):
        return False
    numbers = (pane.get("id"), pane.get("generation"), pane.get("process") or 0)
    texts = (pane.get("folder"), *pane["command"])
    return all(type(one) is int for one in numbers) and all(isinstance(one, str) for one in texts) and "has_ended" in pane


class Model:
    """The sessions of a name space, by name. Those that are new here get ids, and those that ended lose theirs."""

    def __init__(self, space: NameSpace) -> None:
        self.space = space
        live = self.live()
        self.state = space.state()
        if live and self.differs(live):
            with space.changing() as self.state:
                self.adopt(live)
        elif not live and self.state["sessions"]:
            space.reset()
            self.state = space.state()
        self.sessions = sorted((SessionView(self, place, self.state["sessions"][name], windows) for name, (place, windows) in live.items()),
                               key=lambda session: session.name)

    def live(self) -> dict[str, tuple[LocalSession, list[SessionFolder]]]:
        """Return the running sessions of this machine, by folder, with their windows."""
        found: dict[str, tuple[LocalSession, list[SessionFolder]]] = {}
        for name in self.space.folders():
            with suppress(Fault, OSError):
                path = os.path.join(self.space.sessions, name)
                place = LocalSession(path) if is_name(name) and os.path.isdir(path) else None
                windows = place.windows() if place and place.find() else []
                if place and windows:
                    found[name] = place, windows
        return found

    def differs(self, live: dict[str, tuple[LocalSession, list[SessionFolder]]]) -> bool:
        """Return True if the state has other sessions or windows than those that run."""
        notes = self.state["sessions"]
        own = {name: {number: window["server"] for number, window in note["windows"].items()} for name, note in notes.items()}
        return own != {name: {str(window.number): window.id() for window in windows} for name, (_, windows) in live.items()}

    def adopt(self, live: dict[str, tuple[LocalSession, list[SessionFolder]]]) -> None:
        """Bring the state up to date with what runs. A session of the same name, none of whose windows is known, is another one."""
        notes = self.state["sessions"]
        for name in [name for name in notes if name not in live]:
            del notes[name]
        for name, (place, windows) in live.items():
            servers = {str(window.number): window.id() for window in windows}
            note = notes.get(name)
            if not note or note["windows"] and not any(servers.get(number) == one["server"] for number, one in note["windows"].items()):
                note = notes[name] = self.new_note(name)
            for number in [number for number, one in note["windows"].items() if servers.get(number) != one["server"]]:
                del note["windows"][number]
            for window in windows:
                if str(window.number) not in note["windows"]:
                    note["windows"][str(window.number)] = self.new_window(note, window)

    def new_note(self, name: str) -> SessionNote:
        """Return the note of a session that `mux` started."""
        taken = {note["name"] for note in self.state["sessions"].values()}
        number = self.space.new_id()
        now = time.time()
        return {"id": number, "name": name if name not in taken else f"{name}_{number}", "created": int(now), "activity": now, "path": "",
                "windows": {}, "options": {}, "environment": {}, "hooks": {}, "stack": [], "is_own": False}

    def new_window(self, note: SessionNote, window: SessionFolder) -> WindowNote:
        """Return the note of a window, with the first free index."""
        taken = {one["index"] for one in note["windows"].values()}
        index = int(self.option("base-index", note))
        while index in taken:
            index += 1
        return {"id": self.space.new_id(), "index": index, "server": window.id(), "options": {}, "panes": {}}

    # ---- options

    def option(self, name: str, session: SessionNote | None = None, window: WindowNote | None = None) -> str:
        """Return the value of an option for a session and a window: their own, else the global one, else the default."""
        from roam_live.commands.options import DEFAULTS

        scopes = [window["options"] if window else {}, session["options"] if session else {}, self.state["window_options"],
                  self.state["session_options"], self.state["server"], *DEFAULTS.values()]
        return next((found[name] for found in scopes if name in found), "")

    def session_of(self, folder: str) -> SessionView | None:
        """Return the session of a folder's name."""
        return next((session for session in self.sessions if session.folder == folder), None)
