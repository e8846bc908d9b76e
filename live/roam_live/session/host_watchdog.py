"""Watches the pty host: restarts it after it ends, and warns users who type while it is stopped."""
from __future__ import annotations

import os
import time

from roam_live.common.errors import Fault, reason
from roam_live.common.event_loop import Loop
from roam_live.common.process import is_stopped, opened_process
from roam_live.common.retry import Retry

TYPE_CHECKING = False
if TYPE_CHECKING:
    from collections.abc import Callable

    from roam_live.protocol.session_interface import HostedSession

# The pauses before an ended pty host is restarted. The first one shows if the session itself has ended.
PAUSES = (0.3, 1, 2, 4, 8, 15)

# Seconds after which the end of a host is no failure.
SOUND = 1.0

REPLACED = "the pty host was replaced; the programs continue"
ANEW = "the pty host was restarted: the shells are new, and input typed in between was dropped"

# Seconds from typed input to the check for a stopped host, and between later checks. A user who types needs the reason for the silence.
LOOKS = 4.0
LOOKED = "host is stopped"
STOPPED = "the pty host is stopped; input waits for it"


class HostWatchdog:
    """The pty host of a session, if known. A call takes each line for the user."""

    def __init__(self, session: HostedSession, loop: Loop, tells: Callable[[str], object] = lambda line: None) -> None:
        self.session, self.loop, self.tells = session, loop, tells
        self.file: int | None = None
        # The number of early ends, or failed starts, in a row.
        self.retry = Retry(PAUSES, SOUND)
        self.follow()

    def follow(self) -> bool:
        """Watch the current process, and return True. Without one, schedule a restart if the host belongs here."""
        process = self.session.process("host")
        self.retry.begins(time.monotonic())
        if not process:
            if self.session.owns_host():
                self.wait()
            return False
        try:
            self.file = opened_process(process)
        except Fault:
            # It ended just now.
            self.wait()
            return False
        self.loop.add(self.file, self.ended)
        return True

    def wait(self) -> float:
        """Schedule a retry after a pause that grows with each failure, and return that pause."""
        pause = self.retry.fails()
        self.loop.later("host", pause, self.revive)
        return pause

    def stop(self) -> None:
        """Stop restarting and checking."""
        self.loop.drop("host")
        self.loop.drop(LOOKED)

    def typed(self) -> None:
        """Record that something was typed."""
        if LOOKED not in self.loop.due:
            self.loop.later(LOOKED, LOOKS, self.look)

    def look(self) -> None:
        """Report that the host is stopped, for as long as it is."""
        process = self.session.process("host")
        if process and is_stopped(process):
            self.tells(STOPPED)
            self.loop.later(LOOKED, LOOKS, self.look)

    def revive(self) -> None:
        """Restart the pty host, if no holder does."""
        has_holder = bool(self.session.process("holder"))
        try:
            if self.session.revive_host():
                if self.follow():
                    self.tells(REPLACED if has_holder else ANEW)
                return
        except (Fault, OSError) as fault:
            why = reason(fault).removeprefix(f"session {self.session.name}: ")
            self.tells(f"the shells have ended: {why}; next try in {self.wait()} s")
            return
        # Another process is restarting it, or the session has ended.
        self.loop.later("host", PAUSES[1], self.revive)

    def ended(self) -> None:
        """Record an end, and report one that came soon after the start."""
        if self.file is not None:
            self.loop.remove(self.file)
            os.close(self.file)
            self.file = None
        self.retry.ends(time.monotonic())
        pause = self.wait()
        if self.retry.faults > 1:
            self.tells(f"the pty host ended again; it is restarted in {pause} s")
