"""The parts of a front end that serve one window, and their cooperation."""
from __future__ import annotations

from roam_live.common import tty
from roam_live.common.event_loop import Loop
from roam_live.frontend.display import Display
from roam_live.frontend.lists import Lists
from roam_live.frontend.modes import CopyPasteMode, ModeStack, PastingMode, ScrollMode
from roam_live.frontend.mouse import Pointing
from roam_live.frontend.pane_actions import PaneActions
from roam_live.frontend.session_size import SessionSize
from roam_live.frontend.size_follower import SizeFollower
from roam_live.frontend.sizes import NO_SIZE
from roam_live.frontend.synchronize_panes import Synchronizing
from roam_live.frontend.window_acts import WindowActs
from roam_live.frontend.zoom import LeftZoom, Zooming
from roam_live.input.extended_keys import form_for
from roam_live.input.keys import INTERRUPT, Key, acts_of
from roam_live.protocol.client_link import TYPES, ClientLink
from roam_live.protocol.host_client import HostClient
from roam_live.protocol.panes import Places
from roam_live.protocol.panes_client import PanesSubscriber

TYPE_CHECKING = False
if TYPE_CHECKING:
    from collections.abc import Callable

    from roam_live.frontend.copymode.controller import Copying
    from roam_live.frontend.interfaces import OtherWindows
    from roam_live.frontend.resize_keys import BorderKeys
    from roam_live.frontend.spawn_commands import Handing
    from roam_live.protocol.session_interface import AnySession

# The message for a paste that was begun in a window that is gone before its end.
WINDOW_GONE = "not pasted: its window is gone"

# Timers that belong to one window, and mean nothing in another.
OF_WINDOW = ("fit", "others", "size", "requested size", "motion", "border", "untold", "even", "zoom", "zoom left", "zoom comes",
             "synchronize")

# The message after a module failed to import, and its duration in seconds.
REPLACED = "roam was replaced; detach and attach"
REPLACED_TOLD = 3.0


class Commands:
    """The actions of one user in a window of a session."""

    def __init__(self, session: AnySession, panes: PanesSubscriber, link: ClientLink, display: Display, loop: Loop,
                 leave: Callable[[str | None], None], modes: ModeStack, gives_back: Callable[[Key], object],
                 windows: Callable[[], OtherWindows], host: HostClient,
                 is_new: Callable[[Places | None], bool] = lambda places: False, is_whole: bool = False) -> None:
        self.session, self.link, self.display, self.loop, self.leave, self.modes = session, link, display, loop, leave, modes
        self.windows, self.gives_back = windows, gives_back
        # True if the session is shown whole if it fits, with its own status row.
        self.is_whole = is_whole
        self.acts = acts = WindowActs(session, panes, link, display, loop, modes, host)
        self.size = SessionSize(acts, self.size_told)
        self.zooming = Zooming(acts, self.size)
        self.left_zoom = LeftZoom(acts, self.size, self.zooming.is_on, lambda: self.follower.mend(is_late=True))
        self.follower = SizeFollower(acts, self.size, self.zooming, self.left_zoom, is_new)
        self.panes = PaneActions(acts, self.zooming, windows)
        # Copy mode, the border keys, and the uploads of start options, once they were used here.
        self.copy_mode: Copying | None = None
        self.border_mover: BorderKeys | None = None
        self.spawner: Handing | None = None
        self.pointing = Pointing(acts, lambda: self.copying.pointing, self.is_copying, self.show_metadata,
                                 lambda place: windows().go_to_shown(place))
        self.lists = Lists(acts, self.is_copying)
        self.synchronizing = Synchronizing(acts, self.zooming.is_on, self.show_known)
        # The session's size and the labels of its panes, as last reported.
        self.known: tuple[tty.Size, str] = (NO_SIZE, "")
        acts.settles = lambda: self.synchronizing.settle(is_last=True)
        acts.ends_zoom, acts.focus_moves, acts.borders_move = self.zooming.ended_by, self.focus_moves, self.borders_move
        acts.intake.spreads = self.synchronizing.pasted_in
        display.moved = self.fit_drawn

    # ---- loaded on first use, since few attached users need them

    @property
    def handing(self) -> Handing:
        """Return the uploads of start options for new panes."""
        if not self.spawner:
            from roam_live.frontend.spawn_commands import Handing

            self.spawner = Handing(self.acts, self.zooming, self.windows)
        return self.spawner

    @property
    def border_keys(self) -> BorderKeys:
        """Return the borders that keys move."""
        if not self.border_mover:
            from roam_live.frontend.resize_keys import BorderKeys

            self.border_mover = BorderKeys(self.acts, self.size, self.zooming)
        return self.border_mover

    @property
    def copying(self) -> Copying:
        """Return copy mode."""
        if not self.copy_mode:
            from roam_live.frontend.copymode.controller import Copying

            self.copy_mode = Copying(self.acts, self.gives_back, self.lists.close)
        return self.copy_mode

    def is_copying(self) -> bool:
        """Return True if copy mode is open, or will be soon."""
        return self.copy_mode is not None and self.copy_mode.state.is_on()

    def end_copying(self) -> None:
        """Close copy mode, if it is open."""
        if self.copy_mode:
            self.copy_mode.close()

    def ask_buffers(self, is_newest: bool) -> None:
        """Paste the newest buffer, or open a list of buffers, in place of copy mode."""
        self.end_copying()
        self.lists.ask_buffers(is_newest)

    # ---- cooperation of the parts

    def size_told(self, is_given: bool) -> None:
        """Handle a size that the session got, or refused."""
        if is_given:
            self.left_zoom.overrule()
        else:
            self.zooming.drop_note()
        self.show_known()

    def focus_moves(self, acts: tuple[str, ...]) -> None:
        """Handle this user's acts that move the focus."""
        if self.copy_mode:
            self.copy_mode.focus_moved(acts)
        self.lists.close()

    def borders_move(self) -> bool:
        """Return True if a border that this user moves is on its way: it changes the sizes of panes, but not the focus."""
        drags = (self.border_mover.drag if self.border_mover else None, self.pointing.border)
        return any(drag is not None and drag.grown for drag in drags)

    def fit_drawn(self) -> None:
        """Move everything drawn over a pane to the pane's current rectangle."""
        if not self.display.part.is_held:
            if self.copy_mode:
                self.copy_mode.fit()
            self.lists.fit()

    def tell_replaced(self) -> None:
        """Report that a module of this roam no longer imports, and continue without the feature."""
        if self.copy_mode:
            self.copy_mode.give_up()
        self.display.row.tell(REPLACED, REPLACED_TOLD)

    # ---- input

    def type_key(self, acts: list[str], key: Key = Key("", "")) -> None:
        """Type the acts of a key. While keys go to all panes, only its typed acts do."""
        keys = [act for act in acts if act.startswith(TYPES)]
        if keys and key.name == INTERRUPT and not self.link.is_read_only:
            # A program may get it in another form than an interrupt.
            self.acts.pastes.interrupt()
        if not keys or not self.synchronizing.is_working():
            places = self.acts.places() if key.extended else None
            self.acts.act(*(self.formed(acts, key, places.focus) if places else acts))
            return
        self.acts.act(*acts[: -len(keys)])
        if key.extended:
            self.synchronizing.keys.append(lambda pane: self.formed(keys, key, pane))
        else:
            self.synchronizing.add(keys)

    def formed(self, acts: list[str], key: Key, pane: int) -> list[str]:
        """Return acts, with those of the key at their end in the form that a pane's program requested."""
        typed = acts_of(key)
        form = form_for(key.extended, self.acts.panes.modes(pane)) if key.extended and typed and acts[-len(typed) :] == typed else ""
        return [*acts[: -len(typed)], *acts_of(Key("text", form))] if form else acts

    def end_paste(self) -> None:
        """Take the end of a paste."""
        self.synchronizing.settle(is_last=True)
        self.acts.intake.end()
        self.acts.note_key()

    def is_full(self) -> bool:
        """Return True if too much input waits for rows, for the focus or for a window to accept more.

        Input after a paste blocks nothing: C-c and the prefix are read anyway.
        """
        if not (self.synchronizing.keys or self.copy_mode or self.modes.pushed):
            return False
        return self.synchronizing.is_full() or self.copy_mode is not None and self.copy_mode.is_full() or self.windows().waiting.is_full()

    # ---- reports

    def panes_changed(self) -> None:
        """Handle a report about the panes: the new focus, if it or a pane has changed."""
        if self.acts.panes_changed():
            self.synchronizing.hide_predictions()
        self.size.panes_changed()
        self.panes.panes_changed()
        self.pointing.panes_changed()
        if self.border_mover:
            self.border_mover.panes_changed()
        self.zooming.panes_changed()
        self.follower.mend()
        self.fit_drawn()
        self.follower.fit_first()
        self.show_known()
        self.show_metadata()
        self.synchronizing.settle()
        self.windows().waiting.told_panes()

    def show_metadata(self) -> None:
        """Set the terminal's title and cursor shape by the focused pane, and request the mouse reports that its program wants."""
        self.display.outer.set_title_and_shape(*self.acts.panes.title_and_shape)
        self.display.outer.ask(self.pointing.asked())

    def show_known(self) -> None:
        """Update the display from the known session. While a requested size is pending, that is its size."""
        places, is_untold = self.acts.panes.places, self.acts.panes.is_untold()
        if places or is_untold:
            self.known = (places.size(), places.labels()) if places else (NO_SIZE, "")
            self.display.row.warning = places.warning() if places else ""
        size, labels = self.known
        self.display.row.is_synchronized = self.synchronizing.is_on()
        self.display.know(self.size.requested or size, labels, self.is_whole or is_untold)

    # ---- scrollback rows

    def copy(self, wish: str) -> None:
        """Open copy mode in the focused pane, a page up or in its search on request. Without scrollback, the shared view scrolls."""
        self.lists.close()
        self.copying.start(wish, lambda: self.scroll_back(wish))

    def scroll_back(self, wish: str) -> bool:
        """Scroll the shared view, and return True if that is possible."""
        if wish != "copy search" and self.acts.begin_scroll(wish == "copy page"):
            return True
        self.display.row.tell("this pane has no stored rows")
        return False

    # ---- moves between windows

    def left(self) -> None:
        """Finish the user's actions before a detach."""
        self.synchronizing.settle(is_last=True)
        if self.modes.has(ScrollMode):
            self.acts.end_scroll()
        self.zooming.leave()

    def part(self) -> None:
        """Finish the user's actions before a move to another window. Popups and pending actions belong to this window."""
        self.left()
        self.end_copying()
        self.lists.close()
        self.pointing.end_drag()
        self.acts.intake.break_off()
        self.size.requested = None
        for name in OF_WINDOW:
            self.loop.drop(name)

    def follow_on(self, before: Commands, left_size: tty.Size) -> None:
        """Continue an action begun in another window, such as a paste. `left_size` is the size in which this window was last shown whole.
        """
        self.pointing.is_on = before.pointing.is_on
        self.display.moved = self.fit_drawn
        self.follower.begin_window(left_size)
        if self.modes.has(PastingMode, CopyPasteMode):
            self.acts.refuse_paste(WINDOW_GONE)
