"""The windows of a session at the far end of a relay: their numbers from the host, for a near end that asked, and their folders."""
from __future__ import annotations

import contextlib
import os
import re
import socket
from collections.abc import Callable, Sequence

from roam_live.common.errors import Fault
from roam_live.common.event_loop import Loop
from roam_live.common.unix_socket import connected_now
from roam_live.protocol.host_lines import SESSION, led, parted
from roam_live.protocol.panes_client import HOST, Subscription
from roam_live.protocol.presence import number_in
from roam_live.protocol.server_address import is_id
from roam_live.protocol.window_lines import GONE, MOST_WINDOWS, WINDOW, WINDOWS
from roam_live.relay.frames import WINDOWS as LEADS

TYPE_CHECKING = False
if TYPE_CHECKING:
    from roam_live.session.folder import SessionFolder

# The high byte of a peer's number is its window, 0 for the relay's own.
WINDOW_SHIFT = 8
MOST_IN_WINDOW = (1 << WINDOW_SHIFT) - 1

# The prefix of a forwarded socket's name for a window other than the relay's own.
LED = re.compile(r"w/([1-9]\d?)/(?=.)", re.ASCII)

# All windows, each by its number and its session's id, the relay's own first.
TOLD = re.compile(rb"n(?:[1-9]\d? [0-9a-f]{1,16}(?: (?!$)|$)){1,99}")


def leads_of(number: int) -> str:
    """Return the prefix of a window's socket names."""
    return f"w/{number}/"


def windows_text(windows: list[tuple[int, str]]) -> bytes:
    """Return the text that reports the windows."""
    return LEADS + " ".join(f"{number} {name}" for number, name in windows).encode()


def windows_in(text: bytes) -> dict[int, str]:
    """Return the windows in a text, in its order; none if it is invalid."""
    if not TOLD.fullmatch(text):
        return {}
    words = text[1:].decode().split(" ")
    return {int(number): name for number, name in zip(words[::2], words[1::2])}


class FarWindows:
    """The windows of a session, once the near end asked. A call reports all of them after each change."""

    def __init__(self, place: SessionFolder | None, loop: Loop, tells: Callable[[bytes], object]) -> None:
        self.place, self.loop, self.tells = place, loop, tells
        # True if the near end supports windows; and its last report.
        self.is_used = False
        self.told = b""
        # The windows in the host's complete list: the server of one that is gone may still run.
        self.named: set[int] = set()
        self.is_whole = False
        self.following: Subscription | None = None
        # Those that ran at the last check.
        self.ran: Sequence[SessionFolder] = ()

    def running(self) -> Sequence[SessionFolder]:
        """Return the windows that run; those of the last time if the lookup fails now."""
        with contextlib.suppress(Fault):
            self.ran = self.place.windows() if self.place else ()
        return self.ran

    def use(self) -> None:
        """Report the windows to the near end from now on. A repeated request gets all of them anew."""
        if not self.place or not self.place.number:
            return
        self.told = b""
        self.is_used = True
        if not self.following:
            self.following = Subscription(self.connected, self.loop, self.hear, self.lose)
            self.following.again = "follow windows"
            self.following.want(led(SESSION, WINDOWS))
            self.following.connect()
        self.tell()

    def there(self) -> list[tuple[int, str]]:
        """Return the running windows with their sessions' ids, the relay's own first. That one exists until its server has ended."""
        if not self.place:
            return []
        there = [window for window in self.running() if not self.is_whole or window.number in self.named | {self.own()}]
        found = [(window.number, window.id()) for window in there]
        return sorted(((number, name) for number, name in found if is_id(name)), key=lambda one: (one[0] != self.own(), one[0]))

    def own(self) -> int:
        """Return the number of the relay's own window."""
        return self.place.number if self.place else 0

    def connected(self) -> socket.socket:
        """Return a connection to the session's host."""
        if not self.place:
            raise ConnectionRefusedError("no session is there")
        return connected_now(self.place.common / "host")

    def hear(self, lines: list[str]) -> None:
        """Handle the news of windows."""
        found = [parted(line)[1].split(" ") for line in lines if parted(line)[0] == SESSION]
        told = [words for words in found if words[0] in (WINDOW, WINDOWS, GONE)]
        for word, *rest in told:
            number = number_in(rest[0], MOST_WINDOWS) if rest else 0
            self.is_whole = self.is_whole or word == WINDOWS
            if word == GONE:
                self.named.discard(number)
            elif word == WINDOW:
                self.named.add(number)
        if told:
            self.tell()

    def lose(self) -> None:
        """Wait until the host reports all windows anew."""
        self.named.clear()
        self.is_whole = False

    def tell(self) -> None:
        """Report all windows if they have changed."""
        there = self.there()
        text = windows_text(there) if there else b""
        if self.is_used and text and text != self.told:
            self.told = text
            self.tells(text)

    def folder(self, number: int) -> str:
        """Return the folder of a window; the relay's own for 0, and nothing if unknown."""
        if not self.place:
            return ""
        return str(self.place.common / leads_of(number)) if number and self.is_used else str(self.place.folder)

    def path(self, name: str) -> str:
        """Return the path of a socket from its forwarded name."""
        of_window = LED.match(name)
        if of_window and not self.is_used:
            return ""
        if of_window:
            return os.path.join(self.folder(int(of_window[1])), name[of_window.end() :])
        return os.path.join(self.place.common if self.place and name == HOST else self.folder(0), name)

    def heir(self) -> SessionFolder | None:
        """Return another window of the session after the end of the relay's own; None if there is none, or the near end knows none."""
        others = [window for window in self.running() if window.number != self.own()] if self.is_used else []
        if others:
            self.place = others[0]
            self.tell()
        return others[0] if others else None
