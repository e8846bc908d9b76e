"""The surroundings of the commands of one call of `roam tmux`: the name space, the caller's place, targets, formats, and output."""
from __future__ import annotations

import os
import sys

from roam_live.cli.tmux.model import Model, PaneView, SessionView, WindowView
from roam_live.cli.tmux.variables import Variables
from roam_live.commands.flags import BadCommand
from roam_live.commands.formats import expanded, is_true
from roam_live.commands.table import read_command
from roam_live.commands.targets import FoundTarget, Targets
from roam_live.session.foreground import own_pane

TYPE_CHECKING = False
if TYPE_CHECKING:
    from collections.abc import Callable, Mapping, Sequence

    from roam_live.cli.tmux.name_space import NameSpace, SpaceState
    from roam_live.commands.flags import Flags
    from roam_live.commands.table import TmuxCommand

    Effect = Callable[["Context", Flags], "int | None"]

NO_SERVER = "no server running on {}"
NO_SOCKET = "error connecting to {} (No such file or directory)"
LACKING = "{}: roam does not support this tmux command"


class Failed(Exception):
    """A command that ends the call with a status, and without a message."""

    def __init__(self, status: int) -> None:
        super().__init__(status)
        self.status = status


class Context:
    """What the commands of a call share."""

    def __init__(self, space: NameSpace, writes: Callable[[bytes], object] | None = None) -> None:
        self.space = space
        self.writes = writes or sys.stdout.buffer.write
        self.known: Model | None = None
        # The place of a command within a command, such as one of if-shell; None for the caller's own.
        self.place: FoundTarget | None = None

    # ---- the model

    def model(self) -> Model:
        """Return the sessions, as they are since the last change."""
        if not self.known:
            self.known = Model(self.space)
        return self.known

    def changed(self) -> None:
        """Read the sessions again when they are needed."""
        self.known = None

    def change(self, does: Callable[[SpaceState], object]) -> None:
        """Change the state of the name space."""
        with self.space.changing() as state:
            does(state)
        self.changed()

    def is_served(self) -> bool:
        """Return True if a session runs here."""
        return bool(self.model().sessions)

    # ---- targets

    def here(self) -> FoundTarget:
        """Return the caller's session, window and pane, or the session that was used last."""
        model = self.model()
        folder, number = own_pane()
        for session in model.sessions if folder else ():
            for window in session.windows():
                if str(window.place.folder) == os.path.abspath(folder):
                    return FoundTarget(session, window, next((pane for pane in window.panes() if pane.number == number), None))
        recent = max(model.sessions, key=lambda session: float(session.note["activity"]), default=None)
        return FoundTarget(recent)

    def find(self, text: str | None, kind: str, may_index: bool = False) -> FoundTarget:
        """Return the target of a text; BadCommand in tmux's words if there is none."""
        sessions = self.model().sessions
        if not sessions and not (text or ""):
            raise BadCommand("no current target")
        here = self.place or self.here()
        return Targets(sessions, here, may_index).find(text, kind)

    def target(self, flags: Flags, kind: str, may_index: bool = False, flag: str = "t") -> FoundTarget:
        """Return the target of a flag."""
        return self.find(flags.value(flag), kind, may_index)

    def session(self, flags: Flags) -> SessionView:
        """Return the target session."""
        return self.of_session(self.target(flags, "session"))

    @staticmethod
    def of_session(found: FoundTarget) -> SessionView:
        """Return the session of a target."""
        if not isinstance(found.session, SessionView):
            raise BadCommand("can't find session")
        return found.session

    def window(self, flags: Flags) -> WindowView:
        """Return the target window."""
        return self.of_window(self.target(flags, "window"))

    @staticmethod
    def of_window(found: FoundTarget) -> WindowView:
        """Return the window of a target."""
        if not isinstance(found.window, WindowView):
            raise BadCommand("can't find window")
        return found.window

    def pane(self, flags: Flags) -> PaneView:
        """Return the target pane."""
        return self.of_pane(self.target(flags, "pane"))

    @staticmethod
    def of_pane(found: FoundTarget) -> PaneView:
        """Return the pane of a target."""
        if not isinstance(found.pane, PaneView):
            raise BadCommand("can't find pane")
        return found.pane

    # ---- formats and output

    def variables(self, found: FoundTarget, more: Mapping[str, str] | None = None) -> Variables:
        """Return the values for formats about a target."""
        return Variables(self.model(), found, more)

    def expand(self, text: str, found: FoundTarget, has_time: bool = False, is_shell: bool = False) -> str:
        """Return a format with the values of a target."""
        return expanded(text, self.variables(found), has_time, is_shell)

    def passes(self, flags: Flags, variables: Variables) -> bool:
        """Return True if the values pass the filter of a list."""
        test = flags.value("f")
        return test is None or is_true(expanded(test, variables))

    def write(self, text: str) -> None:
        """Print a line."""
        self.writes(f"{text}\n".encode("utf-8", "surrogateescape"))

    # ---- commands

    def run(self, commands: Sequence[tuple[TmuxCommand, Flags]]) -> None:
        """Run commands in order. The first that fails ends them."""
        for command, flags in commands:
            if not command.effect:
                self.refuse(command, flags)
            status = self.effect(command)(self, flags)
            if status:
                raise Failed(status)

    def run_words(self, commands: Sequence[Sequence[str]]) -> None:
        """Run commands by their words, once all of them are valid."""
        self.run([read_command([*words]) for words in commands])

    def refuse(self, command: TmuxCommand, flags: Flags) -> None:
        """Refuse a command that roam lacks, as tmux does if its target is not there."""
        if command.target == "client" and not self.here().window:
            raise BadCommand("no current client")
        for flag in "st":
            if command.target not in ("", "client") and flags.value(flag) is not None:
                self.find(flags.value(flag), command.target)
        raise BadCommand(LACKING.format(command.names[0]))

    def effect(self, command: TmuxCommand) -> Effect:
        """Return the function of a command."""
        module, _, name = command.effect.partition(".")
        found: Effect = getattr(__import__(f"roam_live.cli.tmux.{module}", fromlist=(name,)), name)
        return found
