"""The shell commands of the settings file, which the pty host runs once, at a session's start."""
from __future__ import annotations

import os
import signal

from roam_live.common.errors import reason
from roam_live.common.event_loop import Loop
from roam_live.common.io import read
from roam_live.common.text import one_line
from roam_live.session.foreground import PANE

TYPE_CHECKING = False
if TYPE_CHECKING:
    from collections.abc import Callable

# Commands that run at the same time; the newest bytes of their output that are kept, and the characters of a message.
MOST_RUNS = 8
MOST_HEARD = 4096
LONGEST_TOLD = 200

# Seconds between looks for the end of a command that closed its output.
LOOKS_SECONDS = 0.1


class StartCommands:
    """Shell commands, some at a time. A call takes the message about each that fails."""

    def __init__(self, loop: Loop, commands: list[str], tells: Callable[[str], object], files: int) -> None:
        self.loop, self.waiting, self.tells = loop, list(commands), tells
        # By process, the command, the pipe with its output, and the newest bytes of that.
        self.runs: dict[int, tuple[str, int, bytes]] = {}
        # The limit of open files before this process raised its own.
        self.files = files
        self.begin()

    def begin(self) -> None:
        """Run the next commands."""
        while self.waiting and len(self.runs) < MOST_RUNS:
            command = self.waiting.pop(0)
            try:
                self.spawn(command)
            except (OSError, ValueError) as fault:
                self.tell(command, reason(fault))

    def spawn(self, command: str) -> None:
        """Run a command, in a process group of its own and without a terminal."""
        output, its_output = os.pipe2(os.O_CLOEXEC)
        known = {name: value for name, value in os.environ.items() if name != PANE}
        actions = [(os.POSIX_SPAWN_OPEN, 0, os.devnull, os.O_RDONLY, 0), (os.POSIX_SPAWN_DUP2, its_output, 1),
                   (os.POSIX_SPAWN_DUP2, its_output, 2)]
        try:
            process = os.posix_spawn("/bin/sh", ["sh", "-c", f"ulimit -S -n {self.files}\n{command}"], known, file_actions=actions, setsid=True,
                                     setsigdef=[signal.SIGPIPE, signal.SIGHUP, signal.SIGTERM])
        except BaseException:
            os.close(output)
            raise
        finally:
            os.close(its_output)
        os.set_blocking(output, False)
        self.runs[process] = command, output, b""
        self.loop.add(output, lambda: self.hear(process))

    def hear(self, process: int) -> None:
        """Read the output of a command, and wait for its end once that is over."""
        command, output, heard = self.runs[process]
        chunk = read(output)
        self.runs[process] = command, output, (heard + (chunk or b""))[-MOST_HEARD:]
        if chunk == b"":
            self.loop.remove(output)
            os.close(output)
            self.reap(process)

    def reap(self, process: int) -> None:
        """Report the failure of a command once it has ended, and run the next one."""
        try:
            ended, status = os.waitpid(process, os.WNOHANG)
        except ChildProcessError:
            ended, status = process, 0
        if not ended:
            self.loop.later(f"start command {process}", LOOKS_SECONDS, lambda: self.reap(process))
            return
        command, _, heard = self.runs.pop(process)
        code = os.waitstatus_to_exitcode(status)
        if code:
            said = heard.decode("utf-8", "replace").strip().rpartition("\n")[2].strip()
            ends = f"returned {code}" if code > 0 else f"ended by signal {-code}"
            self.tell(command, f"{said}; it {ends}" if said else ends)
        self.begin()

    def tell(self, command: str, why: str) -> None:
        """Report that a command failed."""
        self.tells(one_line(f"run-shell {command[:60]!r}: {why}")[:LONGEST_TOLD])
