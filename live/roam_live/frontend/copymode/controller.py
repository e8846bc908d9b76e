"""Copy mode at a user's terminal: a snapshot of a pane's rows, drawn over the pane's rectangle while the session continues.

The pty host stores the snapshot, and other users see nothing of it. Input waits in order for the rows that it needs.
"""
from __future__ import annotations

from base64 import b64encode
from collections.abc import Callable

from roam_live.config.environment import may_set_clipboard, wants_vi
from roam_live.frontend.copymode.actions import LEAVE, REFRESH, CopyWish
from roam_live.frontend.copymode.mode import CopyMode
from roam_live.frontend.copymode.mouse import CopyPointing
from roam_live.frontend.copymode.render import CopyScreen
from roam_live.frontend.copymode.rows import MOST_SCREEN_ROWS, Missing, Rows
from roam_live.frontend.copymode.state import GONE, CopyAsking, CopyEvent, CopyState
from roam_live.frontend.modes import CopyKeysMode
from roam_live.frontend.window_acts import WindowActs, nothing
from roam_live.input.keys import INTERRUPT, Key
from roam_live.protocol.panes import MOVES
from roam_live.protocol.scrollback_client import BufferNote, Snapshot

# The most bytes of a copied text, also after appending.
MOST_COPIED = 1 << 20

TOO_LONG = "not copied: it exceeds 1 MB"
NOT_KEPT = "{} copied to the clipboard only: no buffer was stored"
COPIED = "{} copied; {} ] pastes"
COPIED_HERE = "{} copied to the clipboard"


def counted(text: bytes) -> str:
    """Return the size of a text in words."""
    lines, letters = text.count(b"\n") + (not text.endswith(b"\n")), len(text.decode("utf-8", "replace"))
    return f"{lines} lines" if lines > 1 else f"{letters} character{'s' * (letters != 1)}"


class CopiedTexts:
    """The targets of one user's copies."""

    def __init__(self, acts: WindowActs) -> None:
        self.acts = acts

    def tell(self, line: str) -> None:
        """Show the result to the user."""
        self.acts.display.row.tell(line, TOLD)

    def take(self, text: bytes | None, is_appended: bool = False) -> None:
        """Take a text to append to the newest buffer or to add as one; None for a text that is too long."""
        if text is None:
            self.tell(TOO_LONG)
        elif text and is_appended and not self.acts.link.is_read_only:
            self.append(text)
        elif text:
            self.put(text)

    def append(self, text: bytes) -> None:
        """Append a text to the newest buffer."""
        scrollback = self.acts.host.scrollback

        def listed(notes: list[BufferNote] | None) -> None:
            if notes:
                scrollback.buffer(notes[0].number, lambda before: self.put((before or b"") + text))
            else:
                self.put(text)

        scrollback.buffers(listed)

    def put(self, text: bytes) -> None:
        """Add a text as a buffer, unless this user is read-only, and set the clipboard."""
        acts = self.acts
        if len(text) > MOST_COPIED:
            self.tell(TOO_LONG)
            return
        if may_set_clipboard():
            acts.display.outer.set_clip(b64encode(text).decode())
        if not acts.link.is_read_only:
            told = COPIED.format(counted(text), acts.modes.keymap.name)
            acts.host.scrollback.add_buffer(text, lambda number: self.tell(NOT_KEPT.format(counted(text)) if number is None else told))
        else:
            self.tell(COPIED_HERE.format(counted(text)))


# The most keys and reports that may wait.
MOST_WAITING = 4096

# Seconds for which the reason for its end is shown.
TOLD = 2.0
NO_ROOM = "no part of the pane is visible here"

# The key that leaves it while an answer is pending, whatever waits before that; and the same after an escape.
INTERRUPTS = (INTERRUPT, f"M-{INTERRUPT}")


class Copying:
    """The copy mode of one user, if one is open. One call takes a key that it returns; another closes other popups before keys are its."""

    def __init__(self, acts: WindowActs, gives_back: Callable[[Key], object], opens: Callable[[], object]) -> None:
        self.acts, self.loop, self.state, self.gives_back, self.opens = acts, acts.loop, CopyState(acts), gives_back, opens
        # The alternative without a snapshot. It returns True if the input so far is for it.
        self.instead: Callable[[], object] = nothing
        # The mode that takes its keys.
        self.keys: CopyKeysMode | None = None
        # The last search text and direction. They outlive copy mode.
        self.sought = "", False
        self.screen, self.asking = CopyScreen(self.state), CopyAsking(self.state, self.go_on, self.close, self.lent)
        self.pointing = CopyPointing(self.state, self.open, self.add)
        self.texts = CopiedTexts(acts)

    def is_full(self) -> bool:
        """Return True if too much input waits to accept more."""
        return len(self.state.events) >= MOST_WAITING

    # ---- opening and closing

    def start(self, wish: str, instead: Callable[[], object]) -> None:
        """Open copy mode in the focused pane, a page up or in its search on request. Without rows, call the alternative."""
        begins = {"copy page": [CopyEvent(lambda mode: mode.perform("page-up"))],
                  "copy search": [CopyEvent(lambda mode: mode.ask("search-backward" if mode.is_vi else "search-backward-incremental"))]}.get(wish, [])
        focus = self.acts.focus()
        if self.state.is_on():
            self.add(*begins)
        elif focus:
            self.open(focus, instead, *begins)
        elif self.acts.awaits_focus():
            self.await_focus(instead, *begins)
        else:
            instead()

    def open(self, pane: int, instead: Callable[[], object], *begins: CopyEvent) -> None:
        """Open copy mode in a pane, with these first events. Without rows, call the alternative, which returns True if the input is for it.
        """
        self.close()
        making, rect = self.acts.panes.making(pane).split(), self.screen.visible(pane)
        if len(making) != 2 or not rect:
            instead()
            return
        self.state.pane, self.state.generation, self.state.rect, self.instead = pane, int(making[1]), rect, instead
        self.take_keys()
        self.state.events.extend(begins)
        self.asking.ask_snapshot()

    def await_focus(self, instead: Callable[[], object], *begins: CopyEvent) -> None:
        """Open copy mode in the focused pane once the focus is reported. If that takes too long, call the alternative."""
        self.close()
        self.state.pane, self.instead = 0, instead
        self.take_keys()
        self.state.events.extend(begins)
        self.asking.begin()

    def take_keys(self) -> None:
        """Direct the keys to copy mode."""
        self.opens()
        self.keys = self.acts.modes.drawn = CopyKeysMode(self.acts.modes.keymap)

    def drop_keys(self) -> None:
        """Stop taking keys for copy mode, and drop the waiting ones."""
        self.acts.modes.remove(self.keys)
        self.keys = None
        self.state.events.clear()

    def find_focus(self) -> None:
        """Open it in the focused pane if that is known by now."""
        places = self.acts.places()
        if places and places.focus:
            self.open(places.focus, self.instead, *self.state.events)

    def lent(self, opening: int, snapshot: Snapshot | None) -> None:
        """Take a snapshot; None if there is none."""
        if opening != self.state.opening or not self.state.is_opening:
            return
        for name in ("copy opens", "copy connects"):
            self.loop.drop(name)
        self.state.is_opening = False
        self.asking.settle()
        if snapshot and 0 < len(snapshot.screen) <= MOST_SCREEN_ROWS:
            self.begin(snapshot)
            return
        if self.state.mode:
            self.close(GONE)
            return
        instead, events = self.instead, list(self.state.events)
        self.drop_keys()
        for event in events if instead() else []:
            event.instead()

    def begin(self, snapshot: Snapshot) -> None:
        """Show a snapshot, and handle the input so far."""
        rows = Rows(snapshot.first, snapshot.end + len(snapshot.screen), self.state.rect.cols)
        rows.put(snapshot.end, snapshot.screen)
        rows.stays = snapshot.end - MOST_SCREEN_ROWS
        self.state.mode = CopyMode(rows, self.state.rect.rows, wants_vi())
        self.state.mode.sought, self.state.mode.is_back = self.sought
        self.state.came, self.state.scrollback.on_more = 0, self.more
        self.asking.end()
        self.state.events.appendleft(CopyEvent(lambda mode: mode.open()))
        self.screen.lay()
        self.go_on()

    def give_up(self) -> None:
        """Close it in any state, and drop the waiting input."""
        self.close()
        self.drop_keys()

    def close(self, why: str = "") -> None:
        """Close it if open, drop the waiting input, and show the reason if there is one."""
        if not self.state.is_on():
            return
        display = self.acts.display
        if self.state.pane:
            self.state.scrollback.release(self.state.pane, self.state.generation)
        was_shown, self.state.mode = self.state.mode is not None, None
        self.state.is_opening = False
        self.state.opening += 1
        self.drop_keys()
        for name in ("copy opens", "copy connects"):
            self.loop.drop(name)
        self.asking.end()
        self.pointing.end()
        if was_shown:
            display.lift()
            display.row.change()
        if why:
            display.row.tell(why, TOLD)

    def fit(self) -> None:
        """Adapt to the current panes. The end of its pane closes it, and another size lays out its rows anew."""
        panes = self.acts.panes
        if not self.state.is_on() or not panes.places:
            return
        if not self.state.pane:
            self.find_focus()
            return
        if panes.making(self.state.pane) != f"{self.state.pane} {self.state.generation}":
            self.close()
            return
        rect = self.screen.visible(self.state.pane)
        if not self.state.mode:
            self.state.rect = rect or self.state.rect
        elif not rect:
            self.close(NO_ROOM)
        elif rect != self.state.rect or not self.acts.display.is_masked:
            self.state.rect = rect
            self.screen.lay()
            self.add(CopyEvent(lambda mode: mode.resize(rect.rows, rect.cols)))

    def focus_moved(self, acts: tuple[str, ...]) -> None:
        """Close it if this user's acts focus another pane."""
        moves = [act for act in acts if act.split(" ")[0] in MOVES]
        if moves and moves[-1] != f"focus {self.state.pane}":
            self.close()

    def more(self, pane: int, generation: int, count: int) -> None:
        """Take the number of new rows since the snapshot."""
        if self.state.mode and (pane, generation) == (self.state.pane, self.state.generation):
            self.state.came = count
            self.screen.say()

    # ---- input

    def takes_paste(self) -> bool:
        """Return True if a paste is for a line of copy mode."""
        return self.state.mode is not None and self.state.mode.prompt is not None and not self.state.events

    def take_text(self, text: str) -> None:
        """Take the part of a paste that is for such a line."""
        self.add(CopyEvent(lambda mode: mode.paste(text)))

    def take_key(self, key: Key) -> None:
        """Take a key."""
        if key.name in INTERRUPTS and (self.asking.is_waiting or self.state.is_opening):
            self.close()
        else:
            self.add(CopyEvent(lambda mode: mode.take(key), lambda: self.gives_back(key)))

    def add(self, *events: CopyEvent) -> None:
        """Queue events behind the waiting ones."""
        if self.state.is_on():
            self.state.events.extend(events)
            self.go_on()

    # ---- processing

    def go_on(self) -> None:
        """Handle the queue as far as the needed rows are here, and show the result."""
        try:
            while self.state.mode and self.state.events and not self.asking.is_waiting and not self.state.is_opening:
                self.do(self.state.mode, self.state.events[0])
            if self.state.mode and not self.state.events and not self.asking.is_waiting:
                self.look(self.state.mode)
        except Missing as lack:
            self.asking.ask(lack)

    def do(self, mode: CopyMode, event: CopyEvent) -> None:
        """Handle the first event; Missing if a row for it is not here."""
        mode.attempt(lambda: event.does(mode))
        self.asking.asks, self.sought = 0, (mode.sought, mode.is_back)
        if self.state.events and self.state.events[0] is event:
            self.state.events.popleft()
        asked, mode.asked = mode.asked, []
        for one in asked:
            self.grant(one)

    def look(self, mode: CopyMode) -> None:
        """Draw the view; Missing if a row for it is not here."""
        mode.view.cursor()
        mode.view.back()
        self.asking.asks = 0
        self.screen.draw()

    def grant(self, asked: CopyWish) -> None:
        """Carry out the other effect of a key."""
        if asked.word == LEAVE:
            self.close()
        elif asked.word != REFRESH:
            self.state.events.appendleft(CopyEvent(lambda mode: self.copy(asked)))
        else:
            self.asking.ask_snapshot()

    def copy(self, asked: CopyWish) -> None:
        """Copy a text, once all its rows are here."""
        text = asked.text.gather() if asked.text else b""
        if asked.leaves:
            self.close()
        self.texts.take(text, asked.appends)
