"""The entries of a pane at the holder, by the pane's id: its terminal with the program's pidfd, its socket, the logs of the pump, and the pipe
of a command that gets a copy of its output.
"""
from __future__ import annotations

from roam_live.host.holder_link import HolderLink, Kept
from roam_live.host.pump import ByteLog, Transit

TYPE_CHECKING = False
if TYPE_CHECKING:
    from collections.abc import Callable

    from roam_live.common.tty import Size

# The names at the holder: those of a pane, without its id, and that of the pump's pipe.
TERMINAL, SOCKET, LOGS, PIPE = "terminal", "socket", "logs", "pipe"
TRANSIT = "transit"

# The directions of a pane, in the order of its logs.
OUTPUT, TYPED = "output", "typed"


class PaneHold:
    """The part of a pane that outlives the pty host."""

    def __init__(self, link: HolderLink, transit: Transit, number: int) -> None:
        self.link, self.transit = link, transit
        self.id = f"%{number}"
        self.terminal, self.socket, self.logs, self.pipe = (f"{kind}:{self.id}" for kind in (TERMINAL, SOCKET, LOGS, PIPE))

    def opened_logs(self) -> list[ByteLog]:
        """Return the logs of output and of input, those of an earlier host or new ones; OSError without a free descriptor."""
        kept = self.link.claim(self.logs)
        if kept:
            return logs_of(self.id, kept)
        logs = [ByteLog(f"{self.id} {OUTPUT}")]
        try:
            logs.append(ByteLog(f"{self.id} {TYPED}"))
        except OSError:
            logs[0].close()
            raise
        self.link.put(self.logs, [log.end for log in logs])
        return logs

    def spawn(self, size: Size, text: bytes, started: Callable[[Kept | None, str], object], ended: Callable[[str], object]) -> None:
        """Run a command on a new terminal. One call takes the program, or a reason, and one its end."""
        self.link.hears_end[self.terminal] = ended
        self.link.spawn(self.terminal, size, text, started)

    def claimed_program(self, ended: Callable[[str], object]) -> Kept | None:
        """Return the program of an earlier host here, if any."""
        self.link.hears_end[self.terminal] = ended
        return self.link.claim(self.terminal)

    def close(self, name: str) -> None:
        """Keep a program's pidfd, and its terminal no longer."""
        self.link.close(name)

    def drop(self, name: str) -> None:
        """Keep something of it no longer."""
        self.link.drop(name)


def logs_of(pane: str, kept: Kept) -> list[ByteLog]:
    """Return the logs of a pane that the holder keeps."""
    return [ByteLog(f"{pane} {way}", end) for way, end in zip((OUTPUT, TYPED), kept.ends)]


def transit_of(link: HolderLink) -> Transit:
    """Return the pump's pipe, that of an earlier host or a new one. The bytes in it go to their log."""
    kept = link.claim(TRANSIT)
    if not kept:
        transit = Transit.made()
        link.put(TRANSIT, transit.ends())
        return transit
    transit = Transit(*kept.ends)
    panes = [(name.partition(":")[2], one) for name, one in link.left.items() if name.startswith(f"{LOGS}:")]
    transit.empty({log.name: log for pane, one in panes for log in logs_of(pane, one)})
    return transit


def drop_left(link: HolderLink, number: int) -> int:
    """Drop the entries of a pane of an earlier host, and return its running process; 0 if there is none."""
    return max(link.drop_left(f"{kind}:%{number}") for kind in (TERMINAL, SOCKET, LOGS, PIPE))
