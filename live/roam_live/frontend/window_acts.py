"""One user's acts in a window, in typed order, and the focused pane that results."""
from __future__ import annotations

from roam_live.common.event_loop import Loop
from roam_live.frontend.bindings import NEWEST
from roam_live.frontend.display import Display
from roam_live.frontend.effects import Effect
from roam_live.frontend.line_editor import AskedLine
from roam_live.frontend.modes import ConfirmMode, CopyPasteMode, LineMode, ModeStack, PastingMode, ScrollMode
from roam_live.frontend.paste import PasteIntake, Pastes
from roam_live.input.keys import Key, acts_of
from roam_live.protocol.client_link import TYPES, ClientLink
from roam_live.protocol.host_client import HostClient
from roam_live.protocol.panes import MOVES, Places
from roam_live.protocol.panes_client import PanesSubscriber

TYPE_CHECKING = False
if TYPE_CHECKING:
    from collections.abc import Callable

    from roam_live.protocol.session_interface import AnySession

# Seconds for which the fate of a paste is shown.
PASTE_TOLD = 3.0


def nothing() -> None:
    """Do nothing."""


class WindowActs:
    """The connections of a front end to one window, and the acts that a user types there.

    It knows none of the parts that type by it. Their owner sets calls for their steps before and after acts. `settles` types the keys that
    wait for all panes. `ends_zoom` returns acts with those before them that end a zoom. `focus_moves` takes acts that move the focus, and
    `borders_move` returns True while a border is on its way.
    """

    def __init__(self, session: AnySession, panes: PanesSubscriber, link: ClientLink, display: Display, loop: Loop, modes: ModeStack,
                 host: HostClient) -> None:
        self.session, self.panes, self.link, self.display, self.loop = session, panes, link, display, loop
        self.modes, self.host = modes, host
        # True without a connection to the session.
        self.paused = False
        # The target of this user's last move of the focus since its report: a pane, or 0 for an unknown one; and the report at that time.
        self.moved_to: int | None = None
        self.moved_from: Places | None = None
        # The generation of the pane last reported as focused.
        self.focused = ""
        # The generation of the pane that got this user's last key, if known.
        self.typed_in = ""
        self.pastes = Pastes(link, host, loop, lambda line: display.row.tell(line, PASTE_TOLD), self.is_cut)
        self.intake = PasteIntake(self.pastes, panes, self.unpasted)
        self.settles: Callable[[], object] = nothing
        self.ends_zoom: Callable[[tuple[str, ...]], tuple[str, ...]] = lambda acts: acts
        self.focus_moves: Callable[[tuple[str, ...]], object] = lambda acts: None
        self.borders_move: Callable[[], bool] = lambda: False

    # ---- acts

    def act(self, *acts: str) -> None:
        """Type acts, unless this terminal is read-only."""
        if self.link.is_read_only:
            return
        if acts:
            self.settles()
        self.pastes.type(*self.ends_zoom(acts))
        self.note_moves(*acts)

    def act_together(self, *acts: str) -> None:
        """Type acts in a line of their own, so that nothing comes between them, unless this terminal is read-only."""
        if not self.link.is_read_only:
            self.type_together(*self.ends_zoom(acts))

    def type_together(self, *acts: str) -> None:
        """Type acts in a line of their own, whatever is zoomed."""
        self.settles()
        self.pastes.type_together(*acts)
        self.note_moves(*acts)

    def report_focus(self, key: Key) -> None:
        """Hand a focus report of the terminal to the focused program, if it wants them."""
        if self.panes.wants_focus and not self.paused:
            self.act_together(*acts_of(key))

    def unpasted(self) -> str:
        """Return the reason that nothing is pasted now, "" if pastes work."""
        if self.link.is_read_only:
            return "not pasted: this terminal is read-only"
        return "not pasted: the session is not shown" if self.paused or self.display.notice else ""

    def is_cut(self) -> bool:
        """Return True during an outage: the server is silent, or there is no connection to the pty host."""
        return self.display.row.silent > 0 or self.host.peer is None

    def refuse_paste(self, why: str) -> None:
        """Drop a paste that is still arriving, and show the reason at its end."""
        self.modes.drop(PastingMode, CopyPasteMode)
        self.modes.push(PastingMode())
        self.intake.begin(why)

    def set_clip(self, text: str, making: str) -> None:
        """Set the terminal's clipboard to a text in base64 from the focused program, if it got this user's last key."""
        if making and making == self.typed_in:
            self.display.outer.set_clip(text)

    # ---- the focus

    def places(self) -> Places | None:
        """Return the positions of the panes, with the focus that this user set: 0 if that isn't reported yet."""
        places = self.panes.places
        if places is None or self.moved_to is None:
            return places
        return places._replace(focus=self.moved_to if self.moved_to in places.rects else 0)

    def focus(self) -> int:
        """Return the focused pane, 0 if unknown."""
        places = self.places()
        return places.focus if places else 0

    def awaits_focus(self) -> bool:
        """Return True if the focus is unreported, and a report may come soon."""
        places = self.places()
        return not places.focus if places else self.panes.is_awaited()

    def note_moves(self, *acts: str) -> None:
        """Record moves of the focus in these acts, and the target of the last one if it is a key."""
        moves = [act for act in acts if act.startswith(MOVES)]
        for act in moves:
            word, _, pane = act.partition(" ")
            self.move(word, int(pane) if word == "focus" else 0)
        if moves:
            self.focus_moves(acts)
        if acts and acts[-1].startswith(TYPES):
            self.note_key()

    def note_key(self) -> None:
        """Record the target of this user's last key."""
        places = self.places()
        self.typed_in = self.panes.making(places.focus) if places else ""

    def move(self, word: str, pane: int) -> None:
        """Record that this user moves the focus, to a pane or to an unknown one. The reported focus is then outdated. An act without a move
        is never reported.
        """
        places = self.panes.places
        others = [other for other in places.rects if other != places.focus] if places else [pane]
        if self.moved_to is not None or word in ("split", "close") or (pane in others if word == "focus" else others):
            self.moved_to, self.moved_from = pane, places

    def is_moved(self, now: Places, before: Places) -> bool:
        """Return True if the focus that this user moved is reported.

        With a known target, a new size of a pane is no such report: it may come from earlier input.
        """
        if now.focus == self.moved_to or now.focus != before.focus:
            return True
        return set(now.rects) != set(before.rects) if self.moved_to or self.borders_move() else now.rects != before.rects

    def panes_changed(self) -> bool:
        """Handle a report about the panes. Return True if somebody else has moved the focus."""
        now, before = self.panes.places, self.moved_from
        last, self.focused = self.focused, self.panes.making(now.focus) if now else ""
        is_others = self.moved_to is None and self.focused != last and "" not in (last, self.focused)
        if now is None or before is None or self.is_moved(now, before):
            self.moved_to = None
        return is_others

    # ---- prompts, and the shared view

    def ask(self, text: str, *yes: Effect) -> None:
        """Ask a question, whose answer y has these effects."""
        self.modes.push(ConfirmMode(*yes))
        self.display.row.ask(text)

    def ask_line(self, asked: AskedLine, purpose: str) -> None:
        """Ask for a line, for a purpose."""
        self.modes.push(LineMode(asked, purpose))
        self.display.row.ask(asked.line(), is_typed=True)

    def scroll(self, pane: int, rows: int) -> None:
        """Scroll a pane; the newest rows end that."""
        act, line = self.modes.scroll_by(rows)
        self.act_together(f"focus {pane}", act)
        if line:
            self.display.row.tell(line, None)
        else:
            self.display.row.end_told()

    def begin_scroll(self, is_page: bool) -> bool:
        """Begin to scroll the shared view, by a page on request; return True unless this terminal is read-only."""
        if self.link.is_read_only:
            return False
        mode = self.modes.scroll_mode()
        mode.view = 0
        if is_page:
            self.act(mode.step(0, 1))
        self.display.row.tell(mode.status().line, None)
        return True

    def end_scroll(self) -> None:
        """End the scroll mode, at the newest rows."""
        self.act(NEWEST)
        self.modes.drop(ScrollMode)
        self.display.row.end_told()
