"""The options of a pty host, and the environment of its commands."""
from __future__ import annotations

import os

from roam_live.common import spawn
from roam_live.common.errors import ASKS_WHY
from roam_live.session.environment import AGENT, NAMES, PaneEnvironment, agent_in
from roam_live.session.foreground import PANE

# Variables that describe another terminal.
FOREIGN = ("COLUMNS", "LINES", "TERMCAP", "TMUX", "TMUX_PANE", "STY", "WINDOWID", "VTE_VERSION", "XTERM_VERSION", "KONSOLE_VERSION",
           "TERM_PROGRAM", "TERM_PROGRAM_VERSION")

# The fallback for a pane whose shell fails to run.
LAST_SHELL = "/bin/sh"


class Options:
    """The options of a host for the panes in a folder.

    They are the command, by default the user's shell; the server's process, if known; whether a pane closes with its command; and whether
    an earlier host had the panes. For a window of a session there is its number, and the session's own folder. Another option marks the
    folder of a session with windows, whose launcher spawns the first server.
    """

    def __init__(self, *, folder: str, command: list[str] | None = None, server: int | None = None, close: bool = False,
                 again: bool = False, window: int = 0, common: str = "", has_windows: bool = False,
                 is_first: bool = False) -> None:
        self.dir, self.server, self.close, self.again, self.has_windows = folder, server, close, again, has_windows
        self.is_first = is_first
        self.window, self.common = window, common or folder
        self.command = command or [os.environ.get("SHELL") or LAST_SHELL]
        self.instead = None if command else LAST_SHELL

    def of_window(self, window: int, folder: str, server: int, again: bool) -> Options:
        """Return the same options for the panes of a window."""
        found = Options(folder=folder, server=server, close=True, again=again, window=window, common=self.common)
        found.command, found.instead = self.command, self.instead
        return found

    def named(self, pane: int) -> str:
        """Return a pane's name in words."""
        return f"pane {pane} of window {self.window}" if self.window else f"pane {pane}"


def surroundings(asked: Options, pane: int, pane_environment: PaneEnvironment) -> dict[str, str]:
    """Return the environment of a pane's command, with the values that attaching front ends sent."""
    kept = {name: value for name, value in os.environ.items() if name not in (*FOREIGN, *NAMES, ASKS_WHY)}
    return {**kept, **spawn.names(), **pane_environment.set_values(), AGENT: agent_in(asked.common), PANE: f"{asked.dir}:{pane}"}


class Spare:
    """A descriptor in reserve, for steps that have to succeed even without a free one."""

    def __init__(self) -> None:
        self.end: int | None = None

    def free(self) -> None:
        """Release it."""
        if self.end is not None:
            os.close(self.end)
            self.end = None

    def keep(self) -> None:
        """Reserve the descriptor again; OSError if that fails."""
        if self.end is None:
            self.end = os.open(os.devnull, os.O_RDONLY)


def has_ended(process: int) -> bool:
    """Return True if a child process of this tool has ended."""
    try:
        return os.waitpid(process, os.WNOHANG)[0] != 0
    except ChildProcessError:
        return True
