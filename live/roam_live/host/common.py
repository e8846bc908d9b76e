"""The parts that all windows of a pty host share: its loop, the scrollback, the socket, and processes after a hangup."""
from __future__ import annotations

import os

from roam_live.common.errors import reason, say
from roam_live.common.event_loop import Loop
from roam_live.common.fault_log import FaultLog
from roam_live.common.io import read
from roam_live.common.signals import signal
from roam_live.common.suppress import suppress
from roam_live.host.handed_rows import SCROLLBACK, handed_in
from roam_live.host.kept_state import KeptState
from roam_live.host.options import Spare, has_ended
from roam_live.host.pane_hold import transit_of
from roam_live.host.scrollback import Scrollback, pane_of_key
from roam_live.host.socket_server import HostSocket
from roam_live.protocol.panes import OTHER
from roam_live.session.tmp_keepalive import LOOKS

TYPE_CHECKING = False
if TYPE_CHECKING:
    from collections.abc import Callable

    from roam_live.host.window import WindowHost

# Seconds until a retry after the system refused something.
AGAIN = 0.25

# The signals that end the host. Its shells then get a hangup.
LEAVING = (signal.SIGTERM, signal.SIGHUP)

# The name at the holder of the stored rows for a host of another build, and seconds until its panes have claimed theirs.
ROWS = "rows"
HANDED_SECONDS = 15.0

# Seconds for log readers to take the last rows at the session's end.
LOGS_END = 1.0


class Common:
    """The parts that all windows of a host share.

    Those are its loop, the scrollback, the socket `host`, the processes after a hangup, and reserved descriptors.
    """

    def __init__(self, wakeup: int, kept: KeptState) -> None:
        self.wakeup, self.loop, self.kept, self.link = wakeup, kept.loop, kept, kept.link
        self.faults = FaultLog(self.loop.clock)
        # Servers and clients that this host has started and that may have ended.
        self.hung: list[int] = []
        self.is_over = False
        # The refusals of the system that were already reported.
        self.refused: set[str] = set()
        self.loop.add(wakeup, self.reap)
        # One descriptor to start a pane, and one by which a failed pane reports the reason.
        self.spare, self.voice = Spare(), Spare()
        with suppress(OSError):
            self.voice.keep()
            self.spare.keep()
        self.transit = transit_of(self.link)
        self.state = kept.state
        self.socket = HostSocket(self.loop, state=self.state, link=self.link)
        self.socket.changed, self.socket.stores = kept.touch, kept.write
        handed = handed_in(self.link.claim(SCROLLBACK))
        self.link.drop(SCROLLBACK)
        self.rows = Scrollback(self.loop, self.tell, handed=handed)
        self.rows.is_other = self.shows_other
        self.take_rows()
        self.socket.offer_rows(self.rows)
        self.loop.faults = self.take_fault
        self.rows.hears_changed = self.see_to_panes
        # Called once a minute to protect folders.
        self.lasting: list[Callable[[], object]] = []
        self.loop.later("folders", LOOKS, self.look_at_folders)

    def take_rows(self) -> None:
        """Take the stored rows that a host of another build has handed over. The rows of panes that do not come back go soon."""
        kept = self.link.claim(ROWS)
        if not kept:
            return
        self.rows.room.take_handed(os.pread(kept.ends[0], os.fstat(kept.ends[0]).st_size, 0))
        self.link.drop(ROWS)
        os.close(kept.ends[0])
        self.loop.later(ROWS, HANDED_SECONDS, self.rows.drop_handed)

    def take_children(self) -> None:
        """Take the servers and clients that the host before this one has started, which are children of this process too."""
        from roam_live.session.processes import children_of

        own = (self.link.process, self.rows.process.process if self.rows.process else 0)
        self.hung += [process for process in children_of(os.getpid()) if process not in own]

    def windows(self) -> list[WindowHost]:
        """Return the windows whose panes are followed."""
        return [channel.host for channel in self.socket.channels.values() if channel.host]

    def take_fault(self, fault: Exception) -> None:
        """Log an unexpected exception. If memory is short, drop scrollback rows first: they matter least."""
        if isinstance(fault, MemoryError):
            self.rows.shed()
        self.faults.take(fault)

    def see_to_panes(self) -> None:
        """Check for all panes if they are read now."""
        for window in self.windows():
            for pane in window.panes.values():
                pane.see_to_ends()

    def see_to(self, lasts: Callable[[], object]) -> None:
        """Call something before the next wait, and then once a minute, to protect a folder."""
        self.lasting.append(lasts)
        self.loop.soon(lasts)

    def see_no_more(self, lasts: Callable[[], object]) -> None:
        """Stop calling it."""
        if lasts in self.lasting:
            self.lasting.remove(lasts)

    def look_at_folders(self) -> None:
        """Protect all folders."""
        for lasts in list(self.lasting):
            self.loop.is_done(lasts)
        self.loop.later("folders", LOOKS, self.look_at_folders)

    def tell(self, text: str) -> None:
        """Log a message for the user, and send it to the terminals at all windows."""
        say(text)
        for window in self.windows():
            window.channel.notify(text)

    def shows_other(self, key: int) -> bool:
        """Return True if a pane's program is known to show the alternate screen."""
        number, pane = pane_of_key(key)
        channel = self.socket.channels.get(number)
        return channel is not None and channel.host is not None and channel.host.panes_state.has_set(pane, OTHER)

    def keep_spares(self) -> None:
        """Reserve the spare descriptors as soon as possible, first the one for a failed pane's message."""
        try:
            for spare in (self.voice, self.spare):
                spare.keep()
        except OSError as fault:
            self.refuse("a spare descriptor", fault)

    def refuse(self, what: str, fault: OSError) -> None:
        """Record a refusal of the system, log it once until all works again, and schedule a retry."""
        if what not in self.refused:
            self.refused.add(what)
            self.tell(f"{what}: {reason(fault)}; tried again")
        self.loop.later("again", AGAIN, self.try_again)

    def try_again(self) -> None:
        """Retry the refused steps."""
        for window in self.windows():
            window.begin_again()
        self.keep_spares()
        if "again" not in self.loop.due:
            self.refused.clear()

    def reap(self) -> None:
        """Handle ended commands, and a signal to end."""
        if any(number in LEAVING for number in read(self.wakeup) or b""):
            self.is_over = True
        self.hung = [process for process in self.hung if not has_ended(process)]

    def turn(self) -> None:
        """Wait until something is ready, and handle it."""
        self.loop.turn()

    def run(self) -> int:
        """Run the shells of a session of one window until it ends. After a failure they go on, and another host takes them over."""
        self.link.guarded()
        try:
            while not self.is_over and not any(window.is_over for window in self.windows()):
                self.turn()
        except KeyboardInterrupt:
            self.close()
            raise
        self.close()
        return 0

    def end_logs(self) -> None:
        """Send log readers the last screens of the panes, as far as they soon take them."""
        end = self.loop.clock() + LOGS_END
        self.loop.at("end logs", end, lambda: None)
        while self.rows.leaving and self.loop.clock() < end:
            self.loop.turn()

    def close(self) -> None:
        """End the remaining parts: the shells first, whose last rows log readers get."""
        windows = self.windows()
        for window in windows:
            window.hang_up()
        self.end_logs()
        for window in windows:
            window.close()
        self.socket.close()
        self.rows.close()
        self.link.bye()
        with suppress(OSError):
            os.unlink(self.kept.path)
