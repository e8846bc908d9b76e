"""The effects of a settings file and of typed commands on one front end: the prefix, predictions, and the ends of the last row."""
from __future__ import annotations

import os
import time

from roam_live.common.errors import Fault
from roam_live.common.event_loop import Loop
from roam_live.common.text import printable
from roam_live.config.environment import BY_FILE, STATUS_INTERVAL, chosen_prediction, chosen_prefix, number_of, text_of, wants_mouse
from roam_live.config.styled_text import ROW_STYLE, Styled
from roam_live.config.user_file import NAME, OWN
from roam_live.frontend.commands import Commands
from roam_live.frontend.display import Display
from roam_live.frontend.interpreter import Interpreter
from roam_live.frontend.status_line import columns
from roam_live.frontend.windows_client import WindowsState
from roam_live.protocol.panes_client import PanesSubscriber

TYPE_CHECKING = False
if TYPE_CHECKING:
    from collections.abc import Callable

    from roam_live.config.formats import Format

OPTIONS = ("status-left", "status-right")

# The default of `status-left`.
DEFAULT_LEFT = "[#S] "

# The name of the timer for its clock.
MOMENT = "status"


def format_values(session: str, number: int, told: WindowsState, panes: PanesSubscriber, is_zoomed: bool) -> dict[str, str]:
    """Return the values of the words in formats for a window of a session."""
    name, host = told.names.get(number) or told.runs.get(number, ""), os.uname().nodename
    return {"session": session, "window": name or "", "index": str(number or 1),
            "flags": "*" + "Z" * is_zoomed, "pane": str(panes.places.focus) if panes.places else "", "title": panes.title_and_shape[0],
            "host": host, "short_host": host.partition(".")[0]}


class StatusRow:
    """Both ends of one front end's last row. A call returns the values of the words in formats.

    `name` is the session's name, which the row shows if no settings file sets its left end. A session without windows has none.
    """

    def __init__(self, display: Display, loop: Loop, values: Callable[[], dict[str, str]], name: str = "") -> None:
        self.display, self.loop, self.values, self.name = display, loop, values, name
        self.formats: list[Format] = []

    def choose(self) -> list[str]:
        """Use the current formats, and return a line for each unsupported part."""
        texts = {option: text_of(option) for option in OPTIONS}
        has_default = bool(self.name) and OPTIONS[0] not in BY_FILE
        display, self.formats = self.display, []
        self.loop.drop(MOMENT)
        wrong: list[str] = []
        if any(texts.values()):
            texts[OPTIONS[0]] = DEFAULT_LEFT if has_default else texts[OPTIONS[0]]
            # A user without a settings file does not wait for these.
            from roam_live.config.formats import read_format, unread

            self.formats = [read_format(text) for text in texts.values()]
            wrong = [line for option, text in texts.items() for line in unread(option, text)]
        display.row.status = self.shown if self.formats else self.named if has_default else None
        display.row.line_put = None
        self.tick()
        return wrong

    def tick(self) -> None:
        """Update the row, and again when its clock changes."""
        self.display.row.put()
        if self.formats:
            from roam_live.config.formats import changes_in

            interval, now = number_of("status-interval", STATUS_INTERVAL), time.time()
            waits = [wait for wait in (changes_in(read, now, interval) for read in self.formats) if wait is not None]
            if waits:
                self.loop.later(MOMENT, min(waits), self.tick)

    def named(self) -> tuple[list[Styled], list[Styled]]:
        """Return the session's name for the left end, as in DEFAULT_LEFT, if that takes at most a third of the row."""
        text = f"[{self.name}] "
        return [Styled(ROW_STYLE, text)] if columns(text) * 3 <= self.display.outer.size()[1] else [], []

    def shown(self) -> tuple[list[Styled], list[Styled]]:
        """Return the current texts of both ends."""
        from roam_live.config.formats import filled

        values, now = self.values(), time.time()
        left, right = (filled(read, values, now) for read in self.formats)
        return left, right

    def filled(self, text: str) -> str:
        """Return the current text of a format, without its styles. ValueError names an unsupported part."""
        from roam_live.config.formats import filled, read_format

        read = read_format(text)
        if read.wrong:
            raise ValueError(f"roam does not support {read.wrong[0][:40]}")
        return "".join(one.text for one in filled(read, self.values(), time.time()))


# Seconds for which the message about unsupported settings is shown.
TOLD = 3.0

# The message after the settings are reloaded.
READ = "{} was read"


class FrontSettings:
    """The current settings. A call returns the commands of each window, the current one first."""

    def __init__(self, keyboard: Interpreter, status_row: StatusRow, prefix: str, prediction: str) -> None:
        self.keyboard, self.display, self.status_row = keyboard, keyboard.display, status_row
        self.prefix, self.prediction, self.row = prefix, prediction, text_of("status")
        self.all_commands: Callable[[], list[Commands]] = list
        # Runs commands.
        self.runs: Callable[[list[list[str]]], object] = lambda commands: None
        self.display.part.is_row_hidden = self.row == "off"
        self.bind()

    def bind(self) -> None:
        """Bind keys by the settings."""
        self.keyboard.modes.keymap.own = OWN.found.bindings if OWN.found else {}

    def read(self, path: str = "") -> None:
        """Apply the settings file in its current state, or another file too if named, and run its shell commands. Fault gives the reason if
        that can't be read.
        """
        if path:
            OWN.add(path)
        else:
            OWN.read()
        self.go_by(READ.format(printable(os.path.basename(path)) if path else NAME))
        self.run_file()

    def filled(self, text: str) -> str:
        """Return the current text of a format. ValueError names an unsupported part."""
        return self.status_row.filled(text)

    def run_file(self) -> None:
        """Run the shell commands of the settings file."""
        if OWN.found and OWN.found.runs:
            self.runs([["run-shell", "-b", command] for command in OWN.found.runs])

    def go_by(self, otherwise: str = "") -> None:
        """Apply the current settings."""
        self.bind()
        here, *left = self.all_commands()
        try:
            prefix, self.prediction = chosen_prefix(), chosen_prediction()
            here.pointing.is_on = wants_mouse()
        except Fault as fault:
            self.display.row.tell(str(fault), TOLD)
            return
        if prefix != self.prefix:
            self.prefix = prefix
            self.keyboard.choose(prefix)
        for commands in (here, *left):
            commands.synchronizing.choose_prediction()
        row, self.row = self.row, text_of("status")
        if self.row != row and self.display.part.is_row_hidden != (self.row == "off"):
            here.follower.switch_row()
        here.show_metadata()
        self.tell(otherwise)

    def tell(self, otherwise: str = "") -> None:
        """Update the last row by the settings, and report unsupported parts."""
        wrong = self.status_row.choose()
        told = OWN.line() or "; ".join(wrong[:1]) or otherwise
        if told:
            self.display.row.tell(told, TOLD)
