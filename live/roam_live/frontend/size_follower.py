"""The terminal whose size a window's session follows: a session is fitted to it unless that cuts something that others see."""
from __future__ import annotations

import time

from roam_live.common import tty
from roam_live.config.environment import follows_latest
from roam_live.frontend import sizes
from roam_live.frontend.session_size import FITS_TOLD, SessionSize
from roam_live.frontend.sizes import NO_SIZE
from roam_live.frontend.window_acts import WindowActs
from roam_live.frontend.zoom import LeftZoom, Zooming
from roam_live.protocol.panes import Places

TYPE_CHECKING = False
if TYPE_CHECKING:
    from collections.abc import Callable

# Seconds until the next check for reported panes, before the session is fitted to the terminal.
FITS_AGAIN = 0.3

# The message after the session takes this terminal's size because of input here.
LATEST_TOLD = "resized to this terminal (window-size latest)"
SIZED_TOLD = 2.0

# A session is new for so many seconds, and takes any size of its terminal. A window may get its size only then.
NEW = 2.0


class SizeFollower:
    """Fits the session to one terminal, as far as permitted."""

    def __init__(self, acts: WindowActs, size: SessionSize, zooming: Zooming, left_zoom: LeftZoom,
                 is_new: Callable[[Places | None], bool]) -> None:
        self.acts, self.size, self.zooming, self.left_zoom, self.loop = acts, size, zooming, left_zoom, acts.loop
        # True if the session is new, and True once it and this terminal were fitted to each other.
        self.is_new, self.is_fitted, self.new_until = is_new, False, 0.0
        # True if this terminal showed the whole session before its own size changed; and the size of this window when the user left it, if
        # it was shown whole. Unless somebody changed that size, it follows the terminal.
        self.showed_all = False
        self.left_size = NO_SIZE

    def begin_window(self, left_size: tty.Size) -> None:
        """Reset the state for a new window, except for the size with which the user left it."""
        self.is_fitted, self.showed_all, self.left_size = False, False, left_size

    def is_fresh(self) -> bool:
        """Return True while the session is so new that it takes this terminal's size."""
        return time.monotonic() < self.new_until

    def fit_first(self) -> None:
        """Fit the session to this terminal, once something is known of it: a new one has nothing that could be cut."""
        if self.is_fitted:
            return
        panes = self.acts.panes
        step = sizes.first_step(self.is_new(panes.places), panes.is_awaited())
        if step == sizes.IS_NEW:
            self.is_fitted, self.new_until = True, time.monotonic() + NEW
        elif step == sizes.LATER:
            # A report may soon give another size than the painting so far.
            self.loop.later("fit", FITS_AGAIN, self.fit_first)
            return
        else:
            self.is_fitted = self.size.now() != NO_SIZE or not tty.is_large_enough(self.acts.display.part.room())
        self.fit()

    def resized(self) -> None:
        """Record the view before the terminal's size changed, which in a resize by mouse is the first of many changes."""
        self.acts.modes.keymap.rows = self.acts.display.outer.size()[0]
        if not self.loop.due.keys() & {"size", "others"}:
            shows_all = self.zooming.showed_all if self.zooming.is_on() else self.acts.display.part.shows_all()
            self.showed_all = self.size.requested is not None or shows_all

    def fit(self) -> None:
        """Fit the session to this terminal. A new session takes each size.

        Otherwise the other terminals have to be known, and a report of them may come soon.
        """
        host, size, own = self.acts.host, self.size.coming(), tty.largest(self.acts.display.part.room())
        self.showed_all = self.showed_all or size == self.left_size != NO_SIZE
        host.say_here()
        step = sizes.fit_step(size, own, self.acts.link.is_read_only, self.zooming.is_on(), self.is_fresh(), host.is_awaited())
        if step == sizes.ZOOMS:
            self.zooming.resized()
        elif step == sizes.TAKES:
            self.size.ask()
        elif step == sizes.WAITS:
            self.loop.later("others", FITS_AGAIN, self.fit)
            return
        elif step == sizes.FOLLOWS:
            if not self.left_zoom.mend():
                self.follow(size, own)
                return
            self.fit()
        self.showed_all, self.left_size = False, NO_SIZE if size != NO_SIZE else self.left_size

    def follow(self, size: tty.Size, own: tty.Size) -> None:
        """Make the session follow this terminal from its size to another, if it does."""
        if self.size.follows(size, own, self.showed_all):
            self.size.ask()
        elif not sizes.is_smaller(own, size):
            key = f"{self.acts.modes.keymap.name} r"
            self.acts.display.row.tell(f"{size[0]} by {size[1]}, the size of another terminal; {key} fits this one", FITS_TOLD)
        self.showed_all, self.left_size = False, NO_SIZE

    def follow_latest(self) -> None:
        """Set the session to this terminal's size after input here, by `window-size latest`, whatever that cuts."""
        acts = self.acts
        if not follows_latest() or acts.link.is_read_only or self.size.requested or acts.paused or self.zooming.is_on():
            return
        if sizes.takes_latest(self.size.now(), acts.display.part.room()):
            self.size.ask()
            acts.display.row.tell(LATEST_TOLD, SIZED_TOLD)

    def request_again(self) -> None:
        """Repeat the last size request: with a connection that act may be lost."""
        size = self.zooming.awaited_size() or self.size.requested
        if size and not self.acts.link.is_read_only:
            self.acts.type_together(tty.size_act(size))

    def mend(self, is_late: bool = False) -> None:
        """Restore the session's size from before a departed front end's zoom, and then fit it to this terminal."""
        if self.left_zoom.mend(is_late):
            self.fit()

    def others_told(self) -> None:
        """Carry out the actions that waited for a report of the other terminals."""
        if "others" in self.loop.due:
            self.loop.drop("others")
            self.fit()
        if self.zooming.waits:
            self.zooming.panes_changed()
        self.mend()

    def switch_row(self) -> None:
        """Toggle the last row: the session gets or loses the row, like at another size of the terminal."""
        self.resized()
        self.acts.display.switch_row()
        self.fit()

    def repaint(self) -> None:
        """Fit the session to this terminal, and repaint everything."""
        self.zooming.overrule_own()
        self.size.ask()
        self.acts.display.resettle()
