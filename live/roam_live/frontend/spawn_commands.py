"""Commands that a user runs in a new pane or window: the upload of start options to the pty host, and the request for the pane.

Few attached users need it, so it is imported on first use.
"""
from __future__ import annotations

from roam_live.commands.flags import BadCommand
from roam_live.common.text import printable
from roam_live.frontend.window_acts import WindowActs
from roam_live.frontend.zoom import Zooming
from roam_live.protocol.paste_text import random_name
from roam_live.protocol.spawn_request import LATE, RAN, READY, REFUSED, WAITS, Begins

TYPE_CHECKING = False
if TYPE_CHECKING:
    from collections.abc import Callable

    from roam_live.frontend.interfaces import OtherWindows

NOBODY = "not run: the pty host is not connected"
SILENT = "not run: the pty host does not answer"
NO_PANE = "not run: no pane was created"
READ_ONLY = "a read-only terminal runs no commands"
NO_FOCUS = "the active pane is not known yet"

# Right after the user's arrival the focus may be unknown, or the connection missing. The next try follows after so many seconds.
AGAIN = 0.02

# Seconds for which the reason of a failure is shown.
SAID = 4.0


class Handing:
    """The uploads at one window whose fate is unknown: by name, the step that follows once the upload waits there."""

    def __init__(self, acts: WindowActs, zooming: Zooming, windows: Callable[[], OtherWindows]) -> None:
        self.acts, self.zooming, self.windows = acts, zooming, windows
        self.waits: dict[str, Callable[[str], object]] = {}

    def begin(self, wish: str, begins: Begins, goes_on: Callable[[], object], until: float = 0.0) -> None:
        """Split the focused pane for a command, or open a window, as soon as possible; then continue. BadCommand gives the reason of a
        failure.
        """
        loop, host = self.acts.loop, self.acts.host
        until = until or loop.clock() + WAITS
        is_awaited = self.acts.awaits_focus() or host.is_connecting()
        if is_awaited and loop.clock() < until:
            loop.later("hand over", AGAIN, lambda: self.begin_again(wish, begins, goes_on, until))
        elif wish.startswith("split"):
            self.split(wish.split()[1], begins, goes_on)
        else:
            self.open(begins, goes_on)

    def begin_again(self, wish: str, begins: Begins, goes_on: Callable[[], object], until: float) -> None:
        """Begin it if possible now, or show the reason of a failure."""
        try:
            self.begin(wish, begins, goes_on, until)
        except BadCommand as fault:
            self.acts.display.row.tell(str(fault), SAID)

    def split(self, way: str, begins: Begins, goes_on: Callable[[], object]) -> None:
        """Split the focused pane for a command; then continue."""
        acts, places = self.acts, self.acts.places()
        if not places or not places.focus:
            raise BadCommand(NO_FOCUS)
        pane, unzoomed = places.focus, self.zooming.unzoomed(places)
        why = unzoomed.unsplit(way) if unzoomed else ""
        if why:
            raise BadCommand(why)

        def split(name: str) -> None:
            now = acts.places()
            moves = [] if now and now.focus == pane else [f"focus {pane}"]
            acts.act_together(*moves, f"split {way}", *([f"focus {pane}"] if begins.is_aside else []))
            goes_on()
        self.hand(begins, acts.panes.making(pane), split)

    def open(self, begins: Begins, goes_on: Callable[[], object]) -> None:
        """Open a window for a command; then continue."""
        why = self.windows().why_one()
        if why:
            raise BadCommand(why)

        def open_named(name: str) -> None:
            self.windows().waiting.open(name, begins.is_aside)
            goes_on()
        self.hand(begins, "window", open_named)

    def hand(self, begins: Begins, beside: str, goes_on: Callable[[str], object]) -> None:
        """Upload start options for a pane beside that pane generation, or for a window."""
        host, name, data = self.acts.host, random_name(), begins.packed()
        if self.acts.link.is_read_only:
            raise BadCommand(READ_ONLY)
        if not beside or not host.ask_with(f"{RAN} {name} {beside} {len(data)}", data):
            raise BadCommand(NOBODY)
        host.ran = self.take
        self.waits[name] = goes_on
        self.acts.loop.later(f"{RAN} {name}", WAITS, lambda: self.give_up(name))

    def give_up(self, name: str) -> None:
        """Stop waiting for an answer, and report that nothing is run."""
        if self.waits.pop(name, None):
            self.acts.display.row.tell(SILENT, SAID)

    def take(self, told: str) -> None:
        """Take a report about an upload."""
        name, _, rest = told.partition(" ")
        word, _, why = rest.partition(" ")
        goes_on = self.waits.pop(name, None)
        self.acts.loop.drop(f"{RAN} {name}")
        if word == READY and goes_on:
            goes_on(name)
        elif word == REFUSED and goes_on:
            self.acts.display.row.tell(f"not run: {printable(why)[:80]}", SAID)
        elif word == LATE:
            self.acts.display.row.tell(NO_PANE, SAID)
