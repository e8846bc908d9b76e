"""A shell command that gets a copy of a pane's output, as by `pipe-pane` of tmux. It never delays the pane.

The holder keeps its pipe, so it goes on with the next pty host. Bytes that waited here are lost if the host is killed.
"""
from __future__ import annotations

import os
import signal

from roam_live.common.event_loop import Loop
from roam_live.common.io import write
from roam_live.session.foreground import PANE

TYPE_CHECKING = False
if TYPE_CHECKING:
    from collections.abc import Callable

# The most bytes that wait for a command. What comes above that is lost to it.
MOST_WAITING = 1 << 16

LOST = "pipe-pane: {} bytes were lost, since {!r} did not read them"


class PanePipe:
    """A running command with the bytes that wait for it. A call takes a message about lost ones."""

    def __init__(self, loop: Loop, command: str, tells: Callable[[str], object], end: int, process: int = 0) -> None:
        self.loop, self.command, self.tells, self.end, self.process = loop, command, tells, end, process
        self.waiting, self.lost = bytearray(), 0
        os.set_blocking(end, False)
        # A pipe reports only that nobody reads it any more.
        loop.add(end, self.close, self.write, has_more=lambda: bool(self.waiting))

    @classmethod
    def spawned(cls, loop: Loop, command: str, tells: Callable[[str], object], files: int) -> PanePipe:
        """Run a command with a pipe, and so many open files at most."""
        its_input, end = os.pipe2(os.O_CLOEXEC)
        known = {name: value for name, value in os.environ.items() if name != PANE}
        actions = [(os.POSIX_SPAWN_DUP2, its_input, 0), (os.POSIX_SPAWN_OPEN, 1, os.devnull, os.O_WRONLY, 0),
                   (os.POSIX_SPAWN_OPEN, 2, os.devnull, os.O_WRONLY, 0)]
        try:
            process = os.posix_spawn("/bin/sh", ["sh", "-c", f"ulimit -S -n {files}\n{command}"], known, file_actions=actions,
                                     setsid=True, setsigdef=[signal.SIGPIPE, signal.SIGHUP, signal.SIGTERM])
        except BaseException:
            os.close(end)
            raise
        finally:
            os.close(its_input)
        return cls(loop, command, tells, end, process)

    def feed(self, data: bytes) -> None:
        """Take a copy of output, as far as there is room."""
        if self.end < 0:
            return
        room = MOST_WAITING - len(self.waiting)
        self.lost += max(0, len(data) - room)
        self.waiting += data[:room]
        self.loop.changed(self.end)

    def write(self) -> None:
        """Hand the command what waits, as far as it reads."""
        if not write(self.end, self.waiting):
            self.close()

    def close(self) -> None:
        """End the command's input, and report lost bytes. The command may go on."""
        if self.end < 0:
            return
        # What fits into the pipe is still read.
        write(self.end, self.waiting)
        self.lost += len(self.waiting)
        self.loop.remove(self.end)
        os.close(self.end)
        self.end = -1
        if self.lost:
            self.tells(LOST.format(self.lost, self.command[:40]))
