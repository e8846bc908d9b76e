"""A name space of `roam tmux` without processes: sessions, windows and panes from notes, for tests."""
import pathlib
import types

from roam_live.cli.tmux.context import Context
from roam_live.cli.tmux.model import Model, SessionView
from roam_live.cli.tmux.name_space import NameSpace
from roam_live.common.file_path import FilePath
from roam_live.protocol.panes import PanesState
from roam_live.session.names import bases


class PlayedModel(Model):
    """Sessions whose notes and reports are given: for each session its windows, and for each window its panes' rectangles."""

    def __init__(self, space, sessions):
        self.space, self.state = space, space.state()
        self.sessions, number = [], 0
        for name, windows in sessions.items():
            place = types.SimpleNamespace(name=name, folder=FilePath(f"/nowhere/{name}"), last=lambda: 0, process=lambda role: 7)
            notes, places, hosted = {}, [], {}
            for index, (title, rects) in enumerate(windows, 1):
                told = PanesState()
                for pane, rect in enumerate(rects, 1):
                    told.take(" ".join(map(str, (pane, *rect, 5))))
                told.take("focus 1")
                notes[str(index)] = {"id": index - 1, "index": index - 1, "server": "", "options": {}, "panes": {}}
                hosted[str(index)] = {"focus": 1, "history": [], "panes": {
                    str(pane): {"id": number + pane - 1, "generation": 5, "folder": "/tmp", "command": [], "process": None,
                                "has_ended": False} for pane in range(1, len(rects) + 1)}}
                number += len(rects)
                window = types.SimpleNamespace(number=index, folder=FilePath(f"/nowhere/{name}/w/{index}"), title=lambda title=title: title,
                                               told=told, name=name, common=FilePath(f"/nowhere/{name}"))
                places.append(window)
            note = {"id": len(self.sessions), "name": name, "created": 1796125273 + len(self.sessions), "activity": len(self.sessions),
                    "path": "/tmp", "windows": notes, "options": {}, "environment": {}, "hooks": {}, "stack": [], "current": 1, "seen": 0,
                    "is_own": True}
            self.state["sessions"][name] = note
            session = SessionView(self, place, note, places)
            session.state = {"windows": hosted}
            for window, place in zip(session.found, places):
                window.told, window.has_metadata = place.told, True
            self.sessions.append(session)


class PlayedContext(Context):
    """A context whose sessions stay the same."""

    def __init__(self, case, sessions):
        folder = pathlib.Path(case.made_folder())
        case.addCleanup(bases.__setitem__, slice(None), bases[:])
        bases[:] = [FilePath(folder)]
        self.said = []
        super().__init__(NameSpace("/tmp/tmux-0/played"), self.said.append)
        self.known = PlayedModel(self.space, sessions)

    def changed(self):
        """Stay."""

    def change(self, does):
        """Change the state of the model, and store nothing."""
        does(self.known.state)
        for session in self.known.sessions:
            session.name = session.note["name"]
            for window in session.found:
                window.index = window.note["index"]
            session.found.sort(key=lambda window: window.index)

    def printed(self):
        """Return the lines that were printed since the last call."""
        text = b"".join(self.said).decode()
        self.said.clear()
        return text
