"""A pane that fills a user's terminal: the session grows, only the pane's part is shown, and later the session gets its old size back."""
from __future__ import annotations

from roam_live.common import tty
from roam_live.frontend import sizes
from roam_live.frontend.session_size import SessionSize
from roam_live.frontend.sizes import NO_SIZE, places_at
from roam_live.frontend.window_acts import WindowActs
from roam_live.protocol.panes import Places, Rect
from roam_live.protocol.zoom_record import LEFT, ZoomNote

TYPE_CHECKING = False
if TYPE_CHECKING:
    from collections.abc import Callable

# Seconds after which an accepted larger size without a report counts as refused.
REFUSES = 2.5

# Seconds for a report of the focus that this user moves, or of another user's zoom.
FOCUS_WAIT = 1.0

# Seconds for which the reason of a failed zoom is shown.
TOLD = 3.0
REFUSED = "cannot zoom: the session did not take the new size"
OTHERS = "the zoom ended: the session has another size now"

# Acts that end a zoom, besides those that focus another pane.
ENDS = ("split", "close", "next", "grow", "size")


class Zooming:
    """The zoom of one user, if there is one."""

    def __init__(self, acts: WindowActs, size: SessionSize) -> None:
        self.acts, self.size, self.loop = acts, size, acts.loop
        # The zoomed pane, 0 for none; the positions without the zoom, and the session's old and requested size.
        self.pane = 0
        self.before: Places | None = None
        self.note = ZoomNote((0, 0), ())
        # The positions at the last size request, while its effect may come; and those at which the pane was shown.
        self.awaited: Places | None = None
        self.rects: dict[int, Rect] = {}
        # True if this terminal showed the whole session.
        self.showed_all = False
        # True if the focused pane will be zoomed after the reports of the focus and of another user's zoom.
        self.waits = False

    def is_on(self) -> bool:
        """Return True if a pane is zoomed, or will be soon."""
        return self.pane > 0

    def awaited_size(self) -> tty.Size | None:
        """Return the requested size of the session, while it may come."""
        return self.note.asked[-1] if self.awaited else None

    def area(self) -> tty.Size:
        """Return the rows and columns that a pane has to fill."""
        rows, cols = tty.largest(self.acts.display.part.room())
        return rows - 1, cols

    def unzoomed(self, places: Places | None) -> Places | None:
        """Return the positions of the panes without the zoom."""
        return places._replace(rects=self.before.rects) if places and self.before else places

    # ---- begin and end

    def switch(self) -> None:
        """Toggle the zoom of the focused pane."""
        if self.pane:
            self.end()
            return
        places = self.acts.places()
        if places and not self.waits and not self.is_told(places):
            self.waits = True
            self.loop.later("zoom waits", FOCUS_WAIT, self.switch)
            return
        self.waits = False
        self.loop.drop("zoom waits")
        places = self.acts.panes.places if places and not places.focus else places
        size = sizes.unzoomed_size(self.size.requested or (places.size() if places else NO_SIZE), self.acts.host.zoomed[1])
        before = places_at(places, size) if places and places.focus and places.is_covered() else None
        why = sizes.zoom_refusal(before, self.area())
        if why or not places:
            self.acts.display.row.tell(why, TOLD)
            return
        self.pane, self.before, self.showed_all = places.focus, before, self.acts.display.part.shows_all()
        self.note = ZoomNote(size, ())
        self.ask(places)

    def is_told(self, places: Places | None) -> bool:
        """Return True if the focus is reported, and, if a host is about to report another user's zoom, that too."""
        return bool(places and places.focus) and not self.acts.host.is_awaited()

    def ask(self, places: Places) -> None:
        """Request the size at which the pane fills the terminal, and show the pane once the session has it."""
        size = sizes.zoom_size(places, self.pane, self.area(), self.note)
        if not size:
            self.show(places)
            return
        self.note = self.note._replace(asked=(*self.note.asked, size))
        self.tell_host()
        self.awaited = places
        self.loop.later("zoom", REFUSES, self.give_up)
        self.acts.display.part.hold()
        self.acts.type_together(tty.size_act(size))

    def show(self, places: Places) -> None:
        """Show the pane alone."""
        self.awaited, self.rects = None, places.rects
        self.loop.drop("zoom")
        self.acts.display.zoom(places.rects[self.pane])

    def stop(self) -> list[str]:
        """End it, and return the acts that restore the session's size."""
        note, self.pane = self.note, 0
        self.forget()
        if not note.asked:
            self.acts.display.zoom(None)
            return []
        self.acts.display.part.zoomed = None
        self.acts.display.part.hold()
        self.size.expect(note.size)
        return [tty.size_act(note.size)]

    def end(self) -> None:
        """End the zoom."""
        acts = self.stop()
        if acts:
            self.acts.type_together(*acts)

    def forget(self) -> None:
        """Forget it, except for the report to the host."""
        self.pane, self.before, self.awaited, self.rects = 0, None, None, {}
        self.loop.drop("zoom")

    def give_up(self) -> None:
        """End it if the session has taken all input without getting the size."""
        if not self.acts.link.is_done():
            self.loop.later("zoom", REFUSES, self.give_up)
            return
        self.acts.display.row.tell(REFUSED, TOLD)
        self.end()

    def ended_by(self, acts: tuple[str, ...]) -> tuple[str, ...]:
        """Return acts, with those before them that restore the session's size if they end the zoom."""
        if self.pane and any(act.split(" ")[0] in ENDS or act.startswith("focus ") and act != f"focus {self.pane}" for act in acts):
            return *self.stop(), *acts
        return acts

    # ---- reports

    def panes_changed(self) -> None:
        """Handle a report about the panes. The zoom is over if the focus, the panes, or the session's size are others than expected."""
        places = self.acts.places()
        if self.waits and self.is_told(places):
            self.switch()
            return
        if not places or not self.pane:
            self.tell_over()
            return
        step = sizes.zoom_step(self.pane, self.before, self.note, self.awaited, self.rects, places)
        if step == sizes.ENDS:
            self.end()
        elif step == sizes.LOST:
            self.lose()
        elif step == sizes.ASKS:
            self.ask(places)

    def lose(self) -> None:
        """End it after somebody gave the session another size, which stays."""
        self.forget()
        self.acts.display.zoom(None)
        self.acts.display.row.tell(OTHERS, TOLD)
        self.tell_over()

    def resized(self) -> None:
        """Handle another size of the terminal, and the size that the session would have there without a zoom."""
        places, own = self.acts.panes.places, tty.largest(self.acts.display.part.room())
        if not places or not self.before or not places.is_covered() or not tty.is_large_enough(own):
            return
        size = own if self.size.follows(self.note.size, own, self.showed_all) else self.note.size
        self.before, self.note = places_at(self.before, size), ZoomNote(size, self.note.asked[-1:])
        why = sizes.zoom_refusal(self.before._replace(focus=self.pane), self.area())
        if why:
            self.acts.display.row.tell(why, TOLD)
            self.end()
            return
        self.tell_host()
        self.ask(places)

    def overrule_own(self) -> None:
        """End it after this user gave the session another size, which stays."""
        if self.pane:
            self.forget()
            self.drop_note()
            self.acts.display.zoom(None)

    # ---- the host's record

    def tell_host(self) -> None:
        """Report this zoom to the host, before the session's size is requested."""
        self.acts.host.note_zoom(self.note)

    def tell_over(self) -> None:
        """Report the end of a zoom to the host, once the session no longer has one of its sizes."""
        host, places = self.acts.host, self.acts.panes.places
        if host.zoom and not self.pane and places and places.is_covered() and places.size() not in host.zoom.asked:
            host.note_zoom(None)

    def drop_note(self) -> None:
        """Report the end of a zoom to the host, whatever size the session has."""
        if self.acts.host.zoom and not self.pane:
            self.acts.host.note_zoom(None)

    def leave(self) -> None:
        """End it when the user detaches, and withdraw the report."""
        if self.pane:
            self.end()


class LeftZoom:
    """Another user's zoom, as the host reports it.

    Calls return True while this user has a zoom, and restore the size once nothing else can have requested it.
    """

    def __init__(self, acts: WindowActs, size: SessionSize, is_zoomed: Callable[[], bool], mends_late: Callable[[], object]) -> None:
        self.acts, self.size, self.is_zoomed, self.mends_late, self.loop = acts, size, is_zoomed, mends_late, acts.loop
        # The handled one, and one without whose sizes the session was seen since.
        self.mended: ZoomNote | None = None
        self.unseen: ZoomNote | None = None

    def left_by(self) -> ZoomNote | None:
        """Return the zoom of a departed front end, such as a killed one, that is still unhandled; None if there is none."""
        maker, note = self.acts.host.zoomed
        if maker or not note:
            self.mended = self.unseen = None
        return None if maker or self.is_zoomed() or self.acts.link.is_read_only or note == self.mended else note

    def mend(self, is_late: bool = False) -> bool:
        """Restore the session's size after a departed front end's zoom, and return True if so. Its last input may be pending.

        If somebody else types, or the session had another size meanwhile, the size may belong to that user's zoom. The host's report of it
        may follow that of the panes by a moment, which is early enough.
        """
        note, size = self.left_by(), self.size.coming()
        step = sizes.left_zoom(note, size, note == self.unseen, self.size.has_others() if note else None, is_late)
        if step == sizes.UNSEEN:
            self.unseen = note
            self.loop.drop("zoom comes")
            self.loop.later("zoom left", LEFT, self.overrule_late)
        elif step == sizes.GIVES and note:
            self.loop.drop("zoom comes")
            self.size.request(note.size)
        elif step == sizes.AWAITS and "zoom comes" not in self.loop.due:
            self.loop.later("zoom comes", LEFT, self.mends_late)
        return step == sizes.GIVES

    def overrule_late(self) -> None:
        """Report the end of such a zoom to the host, if nothing has come of it."""
        note, size = self.left_by(), self.size.coming()
        if note and size != NO_SIZE and size not in note.asked:
            self.overrule()

    def overrule(self) -> None:
        """Report the end of a departed front end's zoom to the host: the session's size has another reason."""
        note = self.left_by()
        if note:
            self.mended = note
            self.acts.host.note_zoom(None)
