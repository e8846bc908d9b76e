"""The part of a session that a terminal shows, as it is requested from the client process."""
from __future__ import annotations

from roam_live.common import tty
from roam_live.common.event_loop import Loop
from roam_live.frontend import sizes
from roam_live.frontend.outer_terminal import OuterTerminal
from roam_live.frontend.popup import Popup
from roam_live.frontend.sizes import NO_SIZE, has_all
from roam_live.protocol.panes import Rect

TYPE_CHECKING = False
if TYPE_CHECKING:
    from collections.abc import Callable

# A part that the client chose on an outdated screen is requested again after so many seconds, each time after twice as many, until the
# client has the new screen.
CHOSEN_AGAIN = 0.05
MOST_CHOSEN = 8


class ShownPart:
    """The visible part of one terminal. Calls send a line to the client, and choose the view, anew on request."""

    def __init__(self, outer: OuterTerminal, loop: Loop, says: Callable[[str], object], chooses: Callable[[bool], object]) -> None:
        self.outer, self.loop, self.says, self.chooses = outer, loop, says, chooses
        # The session's size, as reported with its panes, and as painted whole; NO_SIZE if unknown.
        self.told_size = self.whole_size = NO_SIZE
        # True if the whole is shown if it fits; the requested part, if any; the size of the next painting, and the first row and column of
        # the painted part.
        self.may_be_whole = False
        self.asked: tty.Size | None = None
        self.painted_size, self.place = NO_SIZE, (0, 0)
        # The rectangle of a zoomed pane, which is shown alone, and the requested corner; and True while nothing new is shown until the
        # session has its expected size.
        self.zoomed: Rect | None = None
        self.corner: tuple[int, int] | None = None
        self.is_held = False
        # True if the whole session is requested from its first row and column, since the view began elsewhere. True if the position of the
        # last requested part is reported. Then the number of repeated requests in a row.
        self.is_from_first = self.is_placed = False
        self.chosen = 0
        # True while no painting may reach the terminal until everything is repainted.
        self.is_stale = True
        # True if the last row is hidden without a popup, and the popup over the part.
        self.is_row_hidden = False
        self.popup: Popup | None = None

    def begin(self) -> None:
        """Reset the state for a new client connection. It paints the whole session unless asked for a part."""
        self.asked, self.painted_size, self.place = None, NO_SIZE, self.place if self.popup else (0, 0)
        self.corner, self.is_from_first, self.is_stale = None, False, True

    def begin_window(self) -> None:
        """Reset the state for a new window."""
        self.told_size = self.whole_size = NO_SIZE
        self.place, self.zoomed, self.is_held = (0, 0), None, False

    # ---- its state

    def size(self) -> tty.Size:
        """Return the session's size, as far as known."""
        return self.told_size if self.told_size != NO_SIZE else self.whole_size

    def has_row(self) -> bool:
        """Return True if the last row is the front end's own; a hidden one is so only under a popup."""
        return not self.is_row_hidden or self.popup is not None

    def room(self) -> tty.Size:
        """Return the size of a session that this terminal shows whole. The session's own status row needs no room."""
        rows, cols = self.outer.size()
        return rows + self.is_row_hidden, cols

    def wanted(self) -> tty.Size | None:
        """Return the size of the part to show, None for the whole session."""
        return sizes.part_for(self.outer.size(), self.has_row(), self.size(), self.zoomed, self.may_be_whole)

    def shows_all(self) -> bool:
        """Return True if all of the session is visible, as far as its size is known, with or without its status row."""
        size = self.size()
        return self.zoomed is not None or self.asked is None or size == NO_SIZE or has_all(size, self.asked)

    def fits(self) -> bool:
        """Return True if the painting fits, above the last row or with it."""
        rows, cols = self.outer.size()
        return self.painted_size[0] <= rows - (self.asked is not None and self.has_row()) and self.painted_size[1] <= cols

    def begins_at(self) -> tuple[int, int]:
        """Return the first row and column of the view."""
        return self.place if self.asked else (0, 0)

    def visible(self, rect: Rect) -> Rect | None:
        """Return the visible part of a session's rectangle, as a rectangle of the terminal; None if there is none."""
        return sizes.visible(rect, self.begins_at(), self.asked or self.painted_size)

    # ---- requests

    def choose(self, is_anew: bool) -> bool:
        """Request the wanted view if it differs from the last request, or if `is_anew`. Return True if it does."""
        part = self.wanted()
        self.is_from_first = not self.zoomed and has_all(self.size(), part) and (self.is_from_first or self.place != (0, 0))
        corner = (self.zoomed.row - 1, self.zoomed.col - 1) if self.zoomed else (0, 0) if self.is_from_first else None
        if (part, corner) == (self.asked, self.corner) and not is_anew:
            return False
        self.corner = corner
        self.ask(part)
        return True

    def ask(self, part: tty.Size | None) -> None:
        """Request a part of the session, or all of it.

        The part contains the cursor and is nearest to the first row and column. Under a popup it is the visible one.
        """
        self.asked, self.is_stale, self.is_placed = part, True, False
        if part and (self.corner or self.popup):
            self.place = self.corner or sizes.kept_place(self.size(), part, self.place)
            self.says("part {} {} {} {}".format(*self.place, *part))
        else:
            self.says("part {} {}".format(*part) if part else "whole")

    def ask_again(self) -> None:
        """Request the wanted part again, if one was requested."""
        if self.asked:
            self.ask(self.wanted())

    def repaint(self) -> None:
        """Request a full repaint."""
        self.is_stale = True
        self.says("repaint")

    def mend_place(self) -> None:
        """Request another part if the visible one has the session's own status row.

        The client chooses a part on its own screen, which may be outdated after the session shrank. A part with all panes begins at the
        first row and column, whatever screen the client has. For another part the client has to choose again.
        """
        if not self.asked or self.corner or self.is_held or not self.is_beyond(self.asked):
            self.chosen = 0
        elif has_all(self.size(), self.asked):
            self.chooses(False)
        elif "part" not in self.loop.due and self.chosen < MOST_CHOSEN:
            self.loop.later("part", CHOSEN_AGAIN * 2 ** self.chosen, self.choose_again)

    def is_beyond(self, part: tty.Size) -> bool:
        """Return True if the part's position is reported, and it extends beyond the panes."""
        return self.is_placed and sizes.is_beyond(self.size(), part, self.place)

    def choose_again(self) -> None:
        """Let the client choose the part again, if that is still necessary."""
        if self.asked and not self.corner and not self.is_held and self.is_beyond(self.asked):
            self.chosen += 1
            self.chooses(True)

    def hold(self) -> None:
        """Show nothing new until the session has its expected size. The current contents stay."""
        self.is_held = self.is_stale = True
