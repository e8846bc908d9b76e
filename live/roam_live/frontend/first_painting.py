"""Shows a window on a user's terminal before the rest of the front end is loaded.

It takes the terminal, requests the window from the client process, and writes the painting. The front end adopts the terminal and the
connection.
"""
from __future__ import annotations

import time

from roam_live.common.errors import all_done
from roam_live.common.event_loop import READ, Loop, ready
from roam_live.common.process import woken
from roam_live.common.signals import signal
from roam_live.config.environment import text_of
from roam_live.frontend.display import Display
from roam_live.frontend.sizes import NO_SIZE
from roam_live.protocol.client_link import ClientLink

TYPE_CHECKING = False
if TYPE_CHECKING:
    from collections.abc import Callable

    from roam_live.protocol.display_records import DisplayRecord
    from roam_live.protocol.session_interface import AnySession

LEAVING = (signal.SIGTERM, signal.SIGHUP, signal.SIGINT)


class FirstPainting:
    """A user's terminal, and the connection to the client process of the first window.

    `says` takes the lines by which the display requests views from the client. The front end sets it when it adopts the display.
    """

    def __init__(self, session: AnySession, is_read_only: bool, prefix: str, prediction: str, is_whole: bool = False,
                 loop: Loop | None = None) -> None:
        self.session, self.loop, self.is_whole = session, loop or Loop(), is_whole
        # Signals are queued from here on, since the terminal has to be restored.
        self.wakeup = woken(signal.SIGWINCH, signal.SIGCONT, signal.SIGTSTP, *LEAVING)
        self.link = ClientLink(session.terminals, is_read_only, prediction)
        self.says: Callable[[str], object] = self.link.say
        self.display = Display(self.loop, lambda line: self.says(line))
        self.display.part.is_row_hidden = text_of("status") == "off"
        self.display.row.name_keys(prefix, is_read_only)
        # The client's records so far, without the bytes of paintings.
        self.records: list[DisplayRecord] = []

    def begin(self) -> None:
        """Take the terminal, and request the window from the client, if there is one."""
        self.display.outer.enter()
        self.display.outer.put()
        try:
            self.link.connect(lambda process: self.session.is_peer("terminals", process))
        except OSError:
            # The front end retries, and reports the reason of a failure.
            return
        self.display.begin()
        self.display.know(NO_SIZE, "", self.is_whole)
        self.link.send()

    def show(self, seconds: float) -> None:
        """Wait up to so many seconds for a painting, and write it."""
        end = time.monotonic() + seconds
        while self.link.peer and self.display.part.is_stale and not self.display.notice:
            if not ready(self.link, READ, end - time.monotonic()):
                break
            records = self.link.read_events()
            if records is None:
                # The end of the connection is read again later.
                break
            for record in records:
                self.display.take(record)
                self.records.append(record._replace(data=b""))
        self.display.outer.put()

    def leave(self) -> None:
        """Restore the terminal."""
        all_done(lambda: self.display.outer.leave(None), self.link.close)
