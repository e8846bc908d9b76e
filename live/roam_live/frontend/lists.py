"""Lists drawn over the focused pane: the pty host's paste buffers, a session's windows, and plain lines to read."""
from __future__ import annotations

from roam_live.common.text import printable
from roam_live.frontend.bindings import Keymap
from roam_live.frontend.effects import Effect, PasteBuffer, Perform
from roam_live.frontend.modes import HoldMode, ListLine, ListMode
from roam_live.frontend.popup import Popup
from roam_live.frontend.status_line import fitted
from roam_live.frontend.window_acts import WindowActs
from roam_live.protocol.panes import Rect
from roam_live.protocol.scrollback_client import BufferNote

TYPE_CHECKING = False
if TYPE_CHECKING:
    from collections.abc import Callable

# Seconds for which a message is shown.
TOLD = 2.0
NONE_KEPT = "there are no buffers"
UNTOLD = "not pasted: the pty host is not connected"

# If the connection to the host is cut, for example by a relay with a new transport, a new one may come soon. Until then the request is
# repeated after so many seconds.
AGAIN = 0.05
LINE = "buffer {} of {}: Return pastes it, up and down choose, q leaves"
LISTED = "line {} of {}: up, down, PgUp and PgDn scroll, q leaves"
WINDOWS_LINE = "window {}, of {}: Return and a digit go there, up and down choose, q leaves"


def window_list(keymap: Keymap, described: dict[int, str], chosen: int) -> ListMode:
    """Return a list of windows by number, with one chosen at first. A digit selects a window directly."""
    lines = [ListLine(text, WINDOWS_LINE.format(number, len(described)), Perform(f"go {number}")) for number, text in described.items()]
    digits: dict[str, Effect] = {str(number % 10): Perform(f"go {number}") for number in range(1, 11)}
    return ListMode(keymap, lines, list(described).index(chosen) if chosen in described else 0, digits)


def first_shown(mode: ListMode, rect: Rect) -> int:
    """Return the first visible line in a rectangle."""
    return max(0, mode.chosen - rect.rows + 1)


def painted(mode: ListMode, rect: Rect) -> list[bytes]:
    """Return the rows of a list as written in a rectangle, with the chosen line reversed."""
    found: list[bytes] = []
    first = first_shown(mode, rect)
    for place in range(first, first + rect.rows):
        text = fitted(mode.lines[place].text if place < len(mode.lines) else "", rect.cols)
        found.append(f"\x1b[0{';7' * (place == mode.chosen)}m{text}\x1b[0m".encode("utf-8", "replace"))
    return found


class Lists:
    """The open list of one user in a window, if there is one."""

    def __init__(self, acts: WindowActs, is_copying: Callable[[], bool]) -> None:
        self.acts, self.is_copying = acts, is_copying
        self.mode: ListMode | None = None
        # The kind of list: `buffers`, `lines` or `windows`; the generation of the pane below it, and its position.
        self.kind = self.pane = ""
        self.rect = Rect(1, 1, 1, 1)
        # The number of requests for buffers: an answer to an earlier one is ignored.
        self.asked = 0

    def is_on(self) -> bool:
        """Return True if a list is open."""
        return self.mode is not None

    def open(self, kind: str, mode: ListMode) -> bool:
        """Show a list over the focused pane, and return True if that is possible."""
        self.close()
        places, acts = self.acts.places(), self.acts
        pane = places.focus if places else 0
        rect = acts.display.part.visible(places.rects[pane]) if places and pane else None
        if not rect or not mode.lines or acts.display.notice or self.is_copying():
            return False
        self.mode, self.kind, self.rect, self.pane = mode, kind, rect, acts.panes.making(pane)
        acts.modes.drawn = mode
        self.lay(mode)
        return True

    def close(self) -> None:
        """End the list, and ignore later answers."""
        self.asked += 1
        if self.mode:
            self.acts.modes.remove(self.mode)
            self.mode = None
            self.acts.display.lift()
            self.acts.display.row.change()

    def lay(self, mode: ListMode) -> None:
        """Draw it."""
        self.acts.display.lay(Popup(self.rect, lambda: painted(mode, self.rect), lambda: self.cursor(mode)))
        self.acts.display.row.say(mode.lines[mode.chosen].status)

    def cursor(self, mode: ListMode) -> tuple[int, int]:
        """Return the position of the terminal's cursor: on the chosen line."""
        return self.rect.row + mode.chosen - first_shown(mode, self.rect), self.rect.col

    def draw(self) -> None:
        """Show the chosen line."""
        if self.mode:
            self.acts.display.row.say(self.mode.lines[self.mode.chosen].status)
            self.acts.display.draw()

    def fit(self) -> None:
        """Follow the rectangle of its pane. The end of that pane closes the list."""
        places = self.acts.panes.places
        if not self.mode or not places:
            return
        rect = places.rects.get(int(self.pane.split()[0]) if self.pane else 0)
        shown = self.acts.display.part.visible(rect) if rect else None
        if not shown or self.acts.panes.making(int(self.pane.split()[0])) != self.pane:
            self.close()
        elif shown != self.rect or not self.acts.display.is_masked:
            self.rect = shown
            self.lay(self.mode)

    # ---- buffers

    def ask_buffers(self, is_newest: bool) -> None:
        """Paste the newest buffer, or open a list of them, once the host has reported them."""
        self.close()
        self.ask_again(self.asked, is_newest)

    def ask_again(self, asked: int, is_newest: bool) -> None:
        """Request the list of buffers, unless a newer request exists."""
        if asked == self.asked:
            self.acts.host.scrollback.buffers(lambda notes: self.answered(asked, notes, is_newest))

    def answered(self, asked: int, notes: list[BufferNote] | None, is_newest: bool) -> None:
        """Take the list of buffers, None if the host did not report it."""
        if asked != self.asked:
            return
        if notes is None and self.acts.host.is_connecting():
            self.acts.loop.later("buffers", AGAIN, lambda: self.ask_again(asked, is_newest))
        elif not notes:
            self.acts.display.row.tell(UNTOLD if notes is None else NONE_KEPT, TOLD)
        elif is_newest:
            self.acts.intake.paste_buffer(notes[0].number)
        else:
            lines = [ListLine(f"{note.number}: {note.length} bytes: {printable(note.sample)}", LINE.format(note.number, len(notes)),
                              PasteBuffer(note.number)) for note in notes]
            self.open("buffers", ListMode(self.acts.modes.keymap, lines))

    # ---- lines, and windows

    def show_lines(self, lines: list[str]) -> bool:
        """Show lines to read, and return True if that is possible: prompts and copy mode have precedence."""
        if self.acts.modes.pushed and not self.acts.modes.has(HoldMode) or self.acts.paused:
            return False
        listed = [ListLine(line, LISTED.format(place, len(lines))) for place, line in enumerate(lines, 1)]
        return self.open("lines", ListMode(self.acts.modes.keymap, listed))

    def show_windows(self, described: dict[int, str], here: int) -> bool:
        """Show windows, and return True if that is possible."""
        return self.open("windows", window_list(self.acts.modes.keymap, described, here))

    def refresh_windows(self, described: dict[int, str]) -> None:
        """Use changed windows or names. The chosen one stays chosen if it still exists."""
        if not self.mode or self.kind != "windows":
            return
        if not described:
            self.close()
            return
        effects, place = self.mode.lines[self.mode.chosen].effects, self.mode.chosen
        self.mode.lines = window_list(self.acts.modes.keymap, described, 0).lines
        self.mode.choose(next((at for at, line in enumerate(self.mode.lines) if line.effects == effects), place))
        self.draw()
