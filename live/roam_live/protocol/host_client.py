"""A front end's connection to the pty host, and its knowledge of each window."""
from __future__ import annotations

from roam_live.common.io import write
from roam_live.protocol.host_link import HostLink
from roam_live.protocol.presence import HERE, WHO, OtherTerminals, Presence
from roam_live.protocol.scrollback_client import ScrollbackClient
from roam_live.protocol.zoom_record import NONE, ZOOM, ZOOMED, ZoomNote, zoomed_in

TYPE_CHECKING = False
if TYPE_CHECKING:
    import socket
    from collections.abc import Callable

# The word of the host's notices: a line for the user, with its most characters, in printable ASCII.
SAY, LONGEST_NOTICE = "say", 200

# Seconds for the host to report the other terminals. A host on another machine needs a round trip.
KNOWS = 2.0


class HostClient:
    """A front end's view of one window at the host, and its requests there. A call reports that the other terminals are known."""

    def __init__(self, link: HostLink, number: int, knows: Callable[[], object]) -> None:
        self.link, self.number, self.knows = link, number, knows
        # The line sent about this terminal, the start of the wait for the others, and the reports about them.
        self.said, self.since = "", 0.0
        self.others = OtherTerminals()
        # Requests scrollback rows, and buffers.
        self.scrollback = ScrollbackClient(self.ask_with)
        # Called with the fate of a text stored here: the host's word, and more words or none. Also called with the fate of a command that
        # was sent, and with a notice for the user.
        self.answers: Callable[[str, str, str], object] = lambda name, word, more: None
        self.ran: Callable[[str], object] = lambda told: None
        self.notices: Callable[[str], object] = lambda words: None
        # The zoom of this terminal. Then the reported one with the number of its front end, 0 once that has left.
        self.zoom: ZoomNote | None = None
        self.zoomed: tuple[int, ZoomNote | None] = (0, None)

    # ---- the connection

    @property
    def peer(self) -> socket.socket | None:
        """Return the connection; None if there is none."""
        return self.link.peer

    @property
    def is_there(self) -> bool:
        """Return True if a host is connected."""
        return self.link.is_there

    @property
    def is_known(self) -> bool:
        """Return True if a host has reported the terminals of a session."""
        return self.link.is_known

    @property
    def waiting(self) -> bytearray:
        """Return the bytes that wait for the host."""
        return self.link.waiting

    def is_connecting(self) -> bool:
        """Return True if a connection may succeed soon."""
        return self.link.is_connecting()

    def ask(self, line: str) -> None:
        """Send a line about this window."""
        self.link.ask(line, self.number)

    def ask_with(self, line: str, data: bytes) -> bool:
        """Send a line and the data after it, and return True if a connected host accepts them."""
        return self.link.ask_with(line, data, self.number)

    def come(self) -> None:
        """Report that this terminal is at the window, and ask for the others there."""
        self.said, self.since = "", self.link.loop.clock()
        self.say_here()
        self.ask(WHO)

    def left(self) -> None:
        """Forget the terminals at the window, since the user has moved to another."""
        self.others, self.zoomed = OtherTerminals(), (0, None)

    def end(self) -> None:
        """Forget the window."""
        if self.link.clients.get(self.number) is self:
            del self.link.clients[self.number]

    def forget(self) -> None:
        """Forget it while no host is connected."""
        self.left()
        self.scrollback.forget()

    def say_here(self) -> None:
        """Report this terminal, if it or its size is still unreported."""
        line = f"{HERE} {Presence(self.link.name, *self.link.size(), self.link.kind)}"
        if line != self.said and self.link.here is self:
            self.said = line
            self.ask(line)

    def take(self, line: str) -> None:
        """Take a line about the window. If the user has left it, drop late lines: the host reports anew on return."""
        word, _, notice = line.partition(" ")
        if word == SAY and 0 < len(notice) <= LONGEST_NOTICE and notice.isascii() and notice.isprintable():
            self.notices(notice)
        elif self.link.here is self:
            self.take_state(line)

    def take_state(self, line: str) -> None:
        """Take a line about the state of the user's window."""
        word, _, rest = line.partition(" ")
        if word == ZOOMED:
            self.zoomed = zoomed_in(rest.split(" ")) or self.zoomed
        else:
            self.others.take(line)
        if self.others.is_whole:
            self.link.is_known = True
            self.knows()

    # ---- the zoom, and the others

    def note_zoom(self, note: ZoomNote | None) -> None:
        """Report this terminal's zoom, or its end, to the host: at once if possible, since its effects go elsewhere."""
        self.zoom = note
        if self.is_there and self.peer:
            self.ask(f"{ZOOM} {note or NONE}")
            write(self.peer.fileno(), self.waiting)

    def is_awaited(self) -> bool:
        """Return True if the other terminals are still unknown, and the host may report them or connect soon."""
        is_asked = self.peer is not None and self.link.loop.clock() < self.since + KNOWS
        return self.is_connecting() or is_asked and not self.others.is_whole

    def has_others(self) -> bool | None:
        """Return True if somebody else types at the session; None if unknown."""
        return self.others.has_typing()

    # ---- common to all windows

    def tell_colour(self, text: str) -> None:
        """Take the terminal's answer about a colour."""
        self.link.tell_colour(text)

    def takes_texts(self) -> bool:
        """Return True if a host accepts texts, as far as is known: one was there, or is connected or expected and may report soon."""
        return self.is_known or (self.peer is not None or self.link.is_expected) and self.is_awaited()

    def has_room(self, length: int) -> bool:
        """Return True if a text of so many bytes may wait here."""
        return self.link.has_room(length)

    def store(self, name: str, data: bytes | int) -> None:
        """Store a text at the host, or one of its buffers as a text."""
        self.link.store(name, data, self)

    def cancel(self, name: str) -> None:
        """Cancel a text."""
        self.link.cancel(name)
