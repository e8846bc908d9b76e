"""The variables and options of formats for a session, a window, a pane, a buffer or a terminal of a name space."""
from __future__ import annotations

import os
import pwd
import socket
import time

from roam_live.cli.tmux.model import PaneView, SessionView, WindowView
from roam_live.commands.formats import FormatScope
from roam_live.commands.options import DEFAULTS, KINDS, is_array
from roam_live.commands.targets import FoundTarget
from roam_live.common.errors import Fault
from roam_live.common.suppress import suppress
from roam_live.common.text import printable
from roam_live.frontend.borders import PaneSplit, box_of, row_of, splits_of

TYPE_CHECKING = False
if TYPE_CHECKING:
    from collections.abc import Callable, Iterable, Mapping

    from roam_live.cli.tmux.model import Model

    Table = Mapping[str, Callable[[], object]]

# The version of tmux whose commands, messages and formats these are.
VERSION = "3.3a"

# The variables whose characters roam itself chooses; all others are a program's, a user's or another machine's text.
OWN = frozenset("""
session_id session_created session_activity session_windows session_attached session_many_attached session_grouped session_format
session_stack session_marked window_id window_index window_flags window_raw_flags window_active window_panes window_width window_height
window_layout window_visible_layout window_last_flag window_start_flag window_end_flag window_zoomed_flag window_stack_index window_format
window_linked window_bell_flag window_activity_flag window_silence_flag window_marked_flag window_bigger window_active_clients
window_active_sessions window_linked_sessions window_activity pane_id pane_index pane_active pane_last pane_pid pane_left pane_right
pane_top pane_bottom pane_width pane_height pane_at_left pane_at_right pane_at_top pane_at_bottom pane_tty pane_in_mode pane_dead
pane_synchronized pane_format pane_pipe pane_input_off pane_marked pane_marked_set history_size history_limit history_bytes roam_pane
roam_window version uid pid start_time next_session_id line server buffer_size buffer_created client_height client_width client_created
client_readonly
""".split())


def checksum(layout: str) -> str:
    """Return a layout with its checksum, as in tmux."""
    found = 0
    for letter in layout.encode():
        found = ((found >> 1) + ((found & 1) << 15) + letter) & 0xFFFF
    return f"{found:04x},{layout}"


def layout_of(window: WindowView) -> str:
    """Return the layout of a window in tmux's form."""
    panes = {pane.number: pane for pane in window.panes()}
    rects = {number: pane.rect for number, pane in panes.items()}
    parts = splits_of(rects) if rects else None

    def told(part: int | PaneSplit) -> str:
        rect = box_of(part, rects)
        head = f"{rect.cols}x{rect.rows},{rect.col - 1},{rect.row - 1}"
        if isinstance(part, int):
            return f"{head},{panes[part].id}"
        inner = ",".join(told(one) for one in row_of(part, part.way))
        return f"{head}{{{inner}}}" if part.way == "right" else f"{head}[{inner}]"

    return checksum(told(parts)) if parts is not None else ""


class Variables(FormatScope):
    """The values for formats about a target. `more` has values that the caller knows, such as those of a buffer."""

    def __init__(self, model: Model, found: FoundTarget, more: Mapping[str, str] | None = None) -> None:
        self.model, self.more = model, dict(more or {})
        self.session = found.session if isinstance(found.session, SessionView) else None
        self.window = found.window if isinstance(found.window, WindowView) else None
        self.pane = found.pane if isinstance(found.pane, PaneView) else None

    # ---- options

    def option(self, name: str) -> str | None:
        """Return the value of an option; a switch is 1 or 0."""
        kind = KINDS.get(name.partition("[")[0])
        if not kind and not name.startswith("@") or not name:
            return None
        scopes: list[Mapping[str, str]] = []
        if self.pane and self.window:
            scopes.append(self.window.note["panes"].get(str(self.pane.id), {}))
        scopes += [self.window.note["options"]] if self.window else []
        scopes += [self.session.note["options"]] if self.session else []
        state = self.model.state
        scopes += [state["server"], state["window_options"], state["session_options"], *DEFAULTS.values()]
        if is_array(name):
            found: Mapping[str, str] = next((one for one in scopes if any(key.startswith(f"{name}[") for key in one)), {})
            return " ".join(value for key, value in found.items() if key.startswith(f"{name}["))
        value = next((one[name] for one in scopes if name in one), None)
        return {"on": "1", "off": "0"}.get(value or "", value) if kind and kind.kind[0] == "flag" else value

    # ---- variables

    def is_chosen(self, name: str) -> bool:
        """Return True if somebody else than roam chooses the characters of a variable."""
        return name not in OWN

    def variable(self, name: str) -> str | None:
        """Return the value of a variable; None if there is none."""
        if name in self.more:
            return self.more[name]
        if name.startswith("environment "):
            own = self.session.note["environment"] if self.session else {}
            found = own.get(name[12:], self.model.state["environment"].get(name[12:], os.environ.get(name[12:])))
            return found if isinstance(found, str) else None
        for table in self.tables():
            if name in table:
                value = table[name]()
                return "01"[value] if isinstance(value, bool) else str(value)
        return None

    def tables(self) -> list[Table]:
        """Return the variables by name, of what the target has, without values for the rest."""
        session, window, pane = self.session, self.window, self.pane
        return [self.of_server(), self.of_session(session) if session else SESSION_NAMES,
                self.of_window(window, session) if window and session else WINDOW_NAMES,
                self.of_pane(pane, window) if pane and window else PANE_NAMES]

    def of_server(self) -> Table:
        """Return the variables of the machine, the user and the name space."""
        return {
            "host": socket.gethostname, "host_short": lambda: socket.gethostname().partition(".")[0], "version": lambda: VERSION,
            "socket_path": lambda: self.model.space.path, "uid": os.getuid, "user": lambda: pwd.getpwuid(os.getuid()).pw_name,
            "pid": lambda: min((one.place.process("host") or 0 for one in self.model.sessions), default=0),
            "start_time": lambda: min((int(one.note["created"]) for one in self.model.sessions), default=int(time.time())),
            "config_files": lambda: "", "line": lambda: 0, "current_file": lambda: "", "server": lambda: "",
            "next_session_id": lambda: "", "server_sessions": lambda: len(self.model.sessions),
        }

    def of_session(self, one: SessionView) -> Table:
        """Return the variables of the session."""
        return {
            "session_name": lambda: one.name, "session_id": lambda: f"${one.id}", "session_windows": lambda: len(one.windows()),
            "session_created": lambda: int(one.note["created"]), "session_activity": lambda: int(one.note["activity"]),
            "session_path": lambda: one.note["path"] or "/", "session_attached": lambda: len(self.terminals()),
            "session_many_attached": lambda: len(self.terminals()) > 1, "session_grouped": lambda: 0, "session_marked": lambda: 0,
            "session_format": lambda: not self.window, "session_stack": self.stack, "session_alerts": lambda: "",
            "session_attached_list": lambda: ",".join(self.terminals()), "session_group": lambda: "", "session_group_list": lambda: "",
            "session_group_size": lambda: "", "session_group_attached": lambda: "", "session_last_attached": lambda: "",
            "active_window_index": lambda: (current := one.current()) and current.index or 0,
            "last_window_index": lambda: one.windows()[-1].index if one.windows() else 0,
        }

    def of_window(self, one: WindowView, session: SessionView) -> Table:
        """Return the variables of the window."""
        windows = session.windows()
        return {
            "window_name": lambda: one.name, "window_id": lambda: f"@{one.id}", "window_index": lambda: one.index,
            "window_panes": lambda: len(one.panes()), "window_width": lambda: one.area().cols, "window_height": lambda: one.area().rows,
            "window_layout": lambda: layout_of(one), "window_visible_layout": lambda: layout_of(one), "window_active": self.is_current,
            "window_flags": self.flags, "window_raw_flags": self.flags, "window_last_flag": lambda: session.last_window() is one,
            "window_start_flag": lambda: windows[0] is one, "window_end_flag": lambda: windows[-1] is one,
            "window_zoomed_flag": lambda: bool(one.note.get("zoom")), "window_activity": lambda: int(session.note["activity"]),
            "window_linked": lambda: 0, "window_linked_sessions": lambda: 1, "window_linked_sessions_list": lambda: session.name,
            "window_active_sessions": self.is_current, "window_active_clients": lambda: 0, "window_format": lambda: not self.pane,
            "window_bigger": lambda: 0, "window_offset_x": lambda: "", "window_offset_y": lambda: "", "window_marked_flag": lambda: 0,
            "window_bell_flag": lambda: 0, "window_activity_flag": lambda: 0, "window_silence_flag": lambda: 0,
            "window_stack_index": lambda: session.note["stack"].index(one.number) + 1 if one.number in session.note["stack"] else 0,
            "roam_window": lambda: one.number,
        }

    def of_pane(self, one: PaneView, window: WindowView) -> Table:
        """Return the variables of the pane."""
        rect, area = one.rect, window.area
        return {
            "pane_id": lambda: f"%{one.id}", "pane_index": lambda: one.index, "pane_pid": lambda: one.process, "pane_tty": one.terminal,
            "pane_active": lambda: window.active() is one, "pane_last": lambda: window.last_pane() is one, "pane_title": self.title,
            "pane_width": lambda: rect.cols, "pane_height": lambda: rect.rows, "pane_left": lambda: rect.col - 1,
            "pane_top": lambda: rect.row - 1, "pane_right": lambda: rect.col + rect.cols - 2,
            "pane_bottom": lambda: rect.row + rect.rows - 2, "pane_at_left": lambda: rect.col == 1, "pane_at_top": lambda: rect.row == 1,
            "pane_at_right": lambda: rect.col + rect.cols - 1 == area().cols,
            "pane_at_bottom": lambda: rect.row + rect.rows - 1 == area().rows,
            "pane_current_command": one.program, "pane_current_path": one.folder, "pane_path": lambda: "",
            "pane_start_path": lambda: one.note["folder"] or self.session and self.session.note["path"] or "",
            "pane_start_command": lambda: started(one.note["command"]), "pane_in_mode": lambda: 0, "pane_mode": lambda: "",
            "pane_dead": lambda: bool(one.note["has_ended"]), "pane_dead_status": lambda: "", "pane_dead_signal": lambda: "",
            "pane_dead_time": lambda: "", "pane_synchronized": lambda: self.option("synchronize-panes") == "1",
            "pane_format": lambda: 1, "pane_input_off": lambda: 0, "pane_marked": lambda: 0, "pane_marked_set": lambda: 0,
            "pane_search_string": lambda: "", "pane_fg": lambda: "default", "pane_bg": lambda: "default", "pane_tabs": lambda: "",
            "history_size": lambda: self.rows_stored(), "history_limit": lambda: self.option("history-limit") or "",
            "history_bytes": lambda: 0, "alternate_on": lambda: self.has_mode("other"), "roam_pane": lambda: one.number,
            "mouse_button_flag": lambda: self.has_mode("drags"), "mouse_standard_flag": lambda: self.has_mode("buttons"),
            "mouse_all_flag": lambda: self.has_mode("motion"), "mouse_sgr_flag": lambda: self.has_mode("sgr"),
            "mouse_any_flag": lambda: any(map(self.has_mode, ("buttons", "drags", "motion"))),
            "cursor_x": lambda: self.cursor()[1], "cursor_y": lambda: self.cursor()[0],
            "keypad_flag": lambda: self.has_mode("keypad"), "scroll_position": lambda: "", "search_match": lambda: "",
        }

    # ---- their parts

    def is_current(self) -> bool:
        """Return True if the window is the current one."""
        return self.session is not None and self.session.current() is self.window

    def flags(self) -> str:
        """Return the marks of the window."""
        session, window = self.session, self.window
        if not session or not window:
            return ""
        mark = "*" if session.current() is window else "-" if session.last_window() is window else ""
        return mark + ("Z" if window.note.get("zoom") else "")

    def stack(self) -> str:
        """Return the indices of the windows, the current one first, then those that were current before."""
        session = self.session
        if not session:
            return ""
        numbers = [found.number for found in (session.current(),) if found] + list(session.note["stack"])
        windows = [window for window in (session.numbered(number) for number in dict.fromkeys(numbers)) if window]
        return ",".join(str(window.index) for window in windows)

    def terminals(self) -> list[str]:
        """Return the terminals at the session."""
        from roam_live.cli.windows import WindowsAsked

        session = self.session
        if not session or not session.found:
            return []
        try:
            return [printable(words[2]) for words in WindowsAsked(session.found[0].place).clients()]
        except Fault:
            return []

    def title(self) -> str:
        """Return the title of the pane, by default the name of the machine."""
        if not self.window or not self.pane:
            return ""
        return self.window.ask(True).title_and_shape(self.pane.number)[0] or socket.gethostname()

    def has_mode(self, mode: str) -> bool:
        """Return True if the program of the pane has set a mode."""
        return bool(self.window and self.pane and self.window.ask(True).has_set(self.pane.number, mode))

    def cursor(self) -> tuple[object, object]:
        """Return the row and the column of the cursor, from 0, of a pane that is the active one of its window; two empty ones for another.
        """
        from roam_live.cli.capture import asked_screen
        from roam_live.cli.connection import opened
        from roam_live.cli.targets import ready
        from roam_live.protocol.display_records import screen_of

        if not self.window or not self.pane or self.window.active() is not self.pane:
            return "", ""
        try:
            row, col = screen_of(asked_screen(opened(ready(self.window.place), True), "look")).cursor
        except Fault:
            return "", ""
        return max(row - self.pane.rect.row, 0), max(col - self.pane.rect.col, 0)

    def rows_stored(self) -> int:
        """Return the number of stored rows above the screen of the pane."""
        from roam_live.cli.scrollback import RowsAsked

        if not self.window or not self.pane:
            return 0
        pane = self.pane
        try:
            asked = RowsAsked(self.window.place)
            rows: tuple[int, int] | None = asked.answer(lambda told: asked.link.count(pane.number, pane.generation, told))
        except Fault:
            return 0
        return rows[1] - rows[0] if rows else 0

    # ---- loops, names and commands

    def parts(self, kind: str) -> Iterable[tuple[FormatScope, bool]]:
        """Return the sessions, windows or panes of a loop."""
        if kind == "S":
            return [(Variables(self.model, FoundTarget(one, window, window.active() if window else None)), one is self.session)
                    for one in self.model.sessions for window in (one.current(),)]
        if kind == "W" and self.session:
            current = self.session.current()
            return [(Variables(self.model, FoundTarget(self.session, one, one.active())), one is current) for one in self.session.windows()]
        if kind == "P" and self.window:
            active = self.window.active()
            return [(Variables(self.model, FoundTarget(self.session, self.window, one)), one is active) for one in self.window.panes()]
        return ()

    def has_name(self, name: str, is_window: bool) -> bool:
        """Return True if a window of the session, or a session, has a name."""
        if is_window:
            return self.session is not None and any(one.name == name for one in self.session.windows())
        return any(one.name == name for one in self.model.sessions)

    def ran(self, command: str) -> str:
        """Return the last line that a shell command prints."""
        from roam_live.cli.tmux.shell_commands import last_line

        return last_line(command)


def started(command: list[str]) -> str:
    """Return the command with which a pane began, as tmux prints it, without the variables that `roam tmux` put before it."""
    if command[:1] == ["env"]:
        place = 1
        while command[place : place + 1] == ["-u"] or "=" in "".join(command[place : place + 1]):
            place += 2 if command[place] == "-u" else 1
        command = command[place:] if len(command) > place + 1 else []
    words = command[2:] if command[1:2] == ["-c"] and len(command) == 3 else command
    return f'"{words[0]}"' if len(words) == 1 else " ".join(words)


def names_of(text: str) -> Table:
    """Return variables without values."""
    return {name: lambda: "" for name in text.split()}


SESSION_NAMES = names_of("session_name session_id session_windows session_created session_activity session_path session_attached "
                         "session_stack")
WINDOW_NAMES = names_of("window_name window_id window_index window_panes window_width window_height window_layout window_active "
                        "window_flags")
PANE_NAMES = names_of("pane_id pane_index pane_pid pane_tty pane_active pane_title pane_width pane_height pane_current_command "
                      "pane_current_path")
