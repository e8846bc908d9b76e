"""The size of a window's session, as one terminal requests it, and the terminal that it follows."""
from __future__ import annotations

from roam_live.common import tty
from roam_live.frontend import sizes
from roam_live.frontend.sizes import NO_SIZE
from roam_live.frontend.window_acts import WindowActs

TYPE_CHECKING = False
if TYPE_CHECKING:
    from collections.abc import Callable

# Seconds for which the message about fitting the session to the terminal is shown.
FITS_TOLD = 3.0

# Seconds after which an accepted size that the session hasn't reached is too small for its panes.
REFUSES = 2.5


class SessionSize:
    """The session's size, and the last one that this terminal requested. A call reports that a size is set or refused."""

    def __init__(self, acts: WindowActs, told: Callable[[bool], object]) -> None:
        self.acts, self.told = acts, told
        # The last requested size, while the session may still get it.
        self.requested: tty.Size | None = None

    def now(self) -> tty.Size:
        """Return the session's rows and columns, as reported or painted; NO_SIZE if unknown."""
        places = self.acts.panes.places
        return places.size() if places else self.acts.display.part.whole_size

    def coming(self) -> tty.Size:
        """Return the session's size, or the requested one that it may still get."""
        return self.requested or self.now()

    def ask(self) -> None:
        """Set the session to this terminal's size, if permitted."""
        size = self.acts.display.part.room()
        if self.acts.link.is_read_only:
            return
        if not tty.is_large_enough(size):
            self.acts.display.row.tell("a session has at least {} rows and {} columns".format(*tty.LEAST))
            return
        self.request(tty.largest(size))

    def request(self, size: tty.Size) -> None:
        """Request a size of the session."""
        self.acts.act(tty.size_act(size))
        self.expect(size)

    def expect(self, size: tty.Size) -> None:
        """Expect that the session gets a requested size."""
        self.requested = size
        self.acts.loop.later("requested size", REFUSES, self.refused)
        self.told(True)

    def forget(self) -> None:
        """Stop waiting for a requested size."""
        self.requested = None
        self.acts.loop.drop("requested size")
        self.acts.display.release()

    def refused(self) -> None:
        """Report a refusal if the session has taken all input without getting the requested size."""
        if not self.acts.link.is_done():
            self.acts.loop.later("requested size", REFUSES, self.refused)
            return
        requested, size = self.requested, self.now()
        self.forget()
        self.told(False)
        if requested and size not in (requested, NO_SIZE):
            self.acts.display.row.tell("{} by {} is too small for its panes".format(*requested), FITS_TOLD)

    def panes_changed(self) -> None:
        """Handle a report about the panes."""
        if self.requested == self.now():
            self.forget()
            # In a session that shrank, the view may begin too far down, or too far right.
            self.acts.display.choose(is_anew=self.acts.display.part.place != (0, 0))

    def has_others(self) -> bool | None:
        """Return True if somebody else types at the session, False if nobody is known to, and None if that is unknown.

        The pty host knows. In a local session without a host, nobody announces a presence.
        """
        host, told = self.acts.host, self.acts.host.has_others()
        is_unknown = self.acts.session.served == "relay" or host.is_known or host.is_there
        return told if told is not None or is_unknown else False

    def follows(self, size: tty.Size, own: tty.Size, showed_all: bool) -> bool:
        """Return True if the session follows this terminal."""
        return sizes.follows(size, own, showed_all, self.has_others(), self.acts.host.has_others() is not None)
