"""The positions of a session's panes: the lines at the socket `panes` of its folder, for subscribers and single queries."""
from __future__ import annotations

import os
import time

from roam_live.common.event_loop import comes
from roam_live.common.io import LineReader
from roam_live.common.named_fields import NamedFields
from roam_live.common.patterns import LazyPattern
from roam_live.common.unix_socket import connected_in

TYPE_CHECKING = False
if TYPE_CHECKING:
    import socket
    from collections.abc import Callable

BESIDE = {"left": (0, -1), "right": (0, 1), "up": (-1, 0), "down": (1, 0)}

# Acts after which another pane may be focused.
MOVES = ("focus", "next", "split", "close")

# The most panes of a window; a pane is split if it has room for two and the border between them.
MOST_PANES = 9
ROOM = {"right": (0, 9), "down": (5, 0)}

# The most read-write and read-only client processes that a server accepts. From this many read-write ones on, the user gets a warning. Then
# no new client of another machine is accepted.
MOST_CLIENTS, MOST_WATCHERS = 64, 16
WARNED_CLIENTS = 48

# The most digits of a line's numbers, which may come from another machine: rows, columns and counts; and a pane generation.
SMALL_DIGITS, GENERATION_DIGITS = 4, 19

# A text for the clipboard in base64.
CLIP_TEXT = LazyPattern(r"(?a)(?:[A-Za-z0-9+/]{4}){0,32767}(?:[A-Za-z0-9+/]{4}|[A-Za-z0-9+/]{3}=|[A-Za-z0-9+/]{2}==)?")

# Most modes of a pane, most characters of the name of one, most bytes of a title, and the shapes of a cursor.
MOST_MODES, LONGEST_MODE, MOST_TITLE, SHAPES = 16, 16, 800, "0123456"
LONGEST_LINE = (1 << 17) + 64

# The subscription to pane metadata, and the words that begin its lines; then the modes of bracketed paste and of focus reports.
METADATA = "metadata"
BELL = "bell"
MODES = "modes"
METADATA_WORDS = (MODES, "shape", "title", BELL)
BRACKETED = "paste"
FOCUS = "focus"
OTHER = "other"

# The word for the keypad's application codes (DECKPAM).
KEYPAD = "keypad"

# The subscription to clipboard texts, and the word of its lines.
CLIPBOARD = "clipboard"
CLIP = "clip"

# Seconds for a server to answer a single query, and for the lines that follow the focus.
ASKED = 1.0
BEHIND = 0.1


class Rect(NamedFields):
    """A pane's first row and column, from 1, and its rows and columns."""

    row: int
    col: int
    rows: int
    cols: int


class Places(NamedFields):
    """The reported state of a session: the rectangles of its panes, the focus, and the count of clients so far, read-write and read-only.
    """

    rects: dict[int, Rect]
    focus: int = 0
    clients: int = 0
    watchers: int = 0

    def size(self) -> tuple[int, int]:
        """Return the session's rows and columns."""
        rects = self.rects.values()
        return max(rect.row + rect.rows for rect in rects), max(rect.col + rect.cols - 1 for rect in rects)

    def area(self) -> tuple[int, int]:
        """Return the rows and columns of all panes together, which `stty size` prints in a single pane."""
        rows, cols = self.size()
        return rows - 1, cols

    def is_covered(self) -> bool:
        """Return True if the panes and borders cover the area, by their sizes. During a partial update they do not."""
        rows, cols = self.size()
        return sum((rect.rows + 1) * (rect.cols + 1) for rect in self.rects.values()) == rows * (cols + 1)

    def labels(self) -> str:
        """Return the panes' numbers in the form of a session's status row: the focused one in brackets, the others between spaces."""
        return "".join(f"[{pane}]" if pane == self.focus else f" {pane} " for pane in in_order(self.rects))

    def pane_at(self, row: int, col: int) -> int:
        """Return the pane at a position of the session; 0 if there is none."""
        return next((pane for pane, rect in self.rects.items() if covers(rect, row, col, True) and covers(rect, row, col, False)), 0)

    def is_full(self) -> bool:
        """Return True if the server has accepted its last client."""
        return self.clients >= MOST_CLIENTS

    def warning(self) -> str:
        """Return a short warning that the server accepts few more clients; nothing if there is no need."""
        return f"{self.clients} of {MOST_CLIENTS} clients" if self.clients >= WARNED_CLIENTS else ""

    def neighbour(self, way: str) -> int | None:
        """Return the adjacent pane on that side, nearest to the middle of the focused one; None if there is none."""
        here = self.rects[self.focus]
        down, right = BESIDE[way]
        middle = (here.row + (here.rows - 1) / 2, here.col + (here.cols - 1) / 2)
        row = middle[0] if not down else here.row + (here.rows + 1 if down > 0 else -2)
        col = middle[1] if not right else here.col + (here.cols + 1 if right > 0 else -2)
        others = [(pane, rect) for pane, rect in self.rects.items() if pane != self.focus]
        found = [(distance(rect, row, col), pane) for pane, rect in others if covers(rect, row, col, bool(right))]
        return min(found)[1] if found else None

    def unsplit(self, way: str) -> str:
        """Return the reason if the focused pane is too small to split that way; nothing if it fits, or if its size is unknown."""
        here = self.rects.get(self.focus)
        if len(self.rects) >= MOST_PANES:
            return f"a window has at most {MOST_PANES} panes"
        if here and (here.rows < ROOM[way][0] or here.cols < ROOM[way][1]):
            return f"pane {self.focus} is too small to split: {here.rows} by {here.cols}"
        return ""


def in_order(rects: dict[int, Rect]) -> list[int]:
    """Return the panes in the order of the layout's tree, as far as their rectangles show it.

    Those left of a cut through all panes, or above it, come first. If four meet in a cross, either cut may have been the first.
    """
    for begin, extent in (("col", "cols"), ("row", "rows")):
        ordered = sorted(rects.items(), key=lambda item: int(getattr(item[1], begin)))
        end = 0
        for count, (_, rect) in enumerate(ordered):
            if count and end <= getattr(rect, begin):
                return in_order(dict(ordered[:count])) + in_order(dict(ordered[count:]))
            end = max(end, getattr(rect, begin) + getattr(rect, extent))
    return sorted(rects)


def covers(rect: Rect, row: float, col: float, is_beside: bool) -> bool:
    """Return True if a pane covers the column to a side, or the row above or below."""
    if is_beside:
        return rect.col <= col < rect.col + rect.cols
    return rect.row <= row < rect.row + rect.rows


def distance(rect: Rect, row: float, col: float) -> float:
    """Return the distance of a pane from a point, along the given side."""
    below, beside = rect.row + rect.rows - 1, rect.col + rect.cols - 1
    return max(rect.row - row, row - below, 0) + max(rect.col - col, col - beside, 0)


def metadata_key(line: str) -> str:
    """Return the key of a metadata line: its word and pane, for the clipboard its word alone; nothing for other lines."""
    word, _, rest = line.partition(" ")
    return f"{word} {rest[:1]}" if word in METADATA_WORDS else CLIP if word == CLIP else ""


def is_pane(word: str) -> bool:
    """Return True if a word is the number of a pane."""
    return len(word) == 1 and word in "123456789"


def is_digits(word: str, most: int) -> bool:
    """Return True if a word is a number of so many digits at most."""
    return 0 < len(word) <= most and word.isascii() and word.isdigit()


def is_small(word: str) -> bool:
    """Return True if a word is a number of rows or columns, or a count."""
    return is_digits(word, SMALL_DIGITS)


def is_generation(word: str) -> bool:
    """Return True if a word is a pane generation."""
    return is_digits(word, GENERATION_DIGITS)


def is_value(word: str, value: list[str]) -> bool:
    """Return True if these words are valid after a pane: modes, a shape, a title in hexadecimal, no words for a bell, or a clipboard text.
    """
    if word == MODES:
        return len(value) <= MOST_MODES and all(0 < len(one) <= LONGEST_MODE and is_mode(one) for one in value)
    if word == BELL:
        return not value
    if len(value) != 1:
        return False
    if word == "shape":
        return len(value[0]) == 1 and value[0] in SHAPES
    if word == "title":
        return len(value[0]) <= 2 * MOST_TITLE and len(value[0]) % 2 == 0 and not value[0].strip("0123456789abcdef")
    return CLIP_TEXT.fullmatch(value[0]) is not None


def is_mode(word: str) -> bool:
    """Return True if a word may name a mode: small letters and digits."""
    return word.isascii() and word.isalnum() and word == word.lower()


class PaneMetadata(NamedFields):
    """A piece of metadata of one pane generation, and its line."""

    generation: str
    value: str
    line: str


class PanesState:
    """The reported state of a session's panes."""

    def __init__(self) -> None:
        self.panes: dict[int, str] = {}
        self.rects: dict[int, Rect] = {}
        # The generation of each pane; and the newest metadata, by word and pane.
        self.generations: dict[int, str] = {}
        self.metadata: dict[str, PaneMetadata] = {}
        # The last text for the clipboard, and its pane, until it is taken.
        self.clip: tuple[int, str] | None = None
        # The panes with a bell, until they are taken.
        self.rung: set[int] = set()
        self.focus = 0
        self.counts: dict[str, tuple[int, str]] = {}

    def take(self, line: str) -> bool:
        """Take a line, and return True if it is valid here."""
        word, *rest = line.split(" ")
        if is_pane(word):
            return self.take_pane(line, int(word), rest)
        if word in METADATA_WORDS or word == CLIP:
            return self.take_metadata(line, word, rest)
        if word == "focus" and len(rest) == 1 and is_pane(rest[0]):
            self.focus = int(rest[0])
            return True
        if word in ("clients", "watchers") and (len(rest) == 1 or len(rest) == 3 and rest[1] == "of"):
            if all(map(is_small, rest[::2])):
                self.counts[word] = int(rest[0]), line
                return True
        return False

    def take_pane(self, line: str, pane: int, rest: list[str]) -> bool:
        """Take a pane's position and generation, or its end; return False if the line has another form."""
        if rest == ["gone"]:
            self.panes.pop(pane, None)
            self.rects.pop(pane, None)
            self.forget_metadata(str(pane))
            return True
        if len(rest) != 5 or not all(map(is_small, rest[:4])) or not is_generation(rest[4]):
            return False
        self.panes[pane], self.rects[pane] = line, Rect(*map(int, rest[:4]))
        self.generations[pane] = rest[4]
        return True

    def take_metadata(self, line: str, word: str, rest: list[str]) -> bool:
        """Take pane metadata, a bell or a text for the clipboard; return False if the line is none of these."""
        if len(rest) < 2 or not is_pane(rest[0]) or not is_generation(rest[1]) or not is_value(word, rest[2:]):
            return False
        pane, generation, value = int(rest[0]), rest[1], " ".join(rest[2:])
        if word == CLIP:
            self.clip = (pane, value) if generation == self.generations.get(pane) else self.clip
        elif word == BELL:
            self.rung.update({pane} if generation == self.generations.get(pane) else ())
        else:
            self.metadata[metadata_key(line)] = PaneMetadata(generation, value, line)
        return True

    def places(self) -> Places | None:
        """Return the positions of the panes; None while the focus, which comes after them, is unknown or on no pane."""
        if self.focus not in self.rects:
            return None
        clients, watchers = (self.counts.get(kind, (0, ""))[0] for kind in ("clients", "watchers"))
        return Places(dict(sorted(self.rects.items())), self.focus, clients, watchers)

    def forget_metadata(self, pane: str) -> None:
        """Forget the metadata of a pane that is gone."""
        for word in METADATA_WORDS:
            self.metadata.pop(f"{word} {pane}", None)

    def value(self, word: str, pane: int) -> str:
        """Return the metadata of a word for a pane; nothing if it is unknown in this generation."""
        told = self.metadata.get(f"{word} {pane}")
        return told.value if told and told.generation == self.generations.get(pane) else ""

    def taken_clip(self) -> tuple[int, str] | None:
        """Remove and return the last text for the clipboard, and its pane."""
        clip, self.clip = self.clip, None
        return clip

    def taken_bells(self) -> list[int]:
        """Return the panes whose bell rang since the last call."""
        rung, self.rung = sorted(self.rung), set()
        return rung

    def has_set(self, pane: int, mode: str) -> bool:
        """Return True if a pane's program is known to have set a mode."""
        return mode in self.value(MODES, pane).split()

    def title_and_shape(self, pane: int) -> tuple[str, int]:
        """Return a pane's title and cursor shape, as far as known."""
        return bytes.fromhex(self.value("title", pane)).decode("utf-8", "replace"), int(self.value("shape", pane) or 0)

    def is_whole(self) -> bool:
        """Return True once the whole initial state has arrived."""
        return self.focus in self.rects and len(self.counts) == 2

    def lines(self) -> list[str]:
        """Return the lines that report the whole state to a new subscriber, in a server's order."""
        counts = [self.counts[kind][1] for kind in ("clients", "watchers") if kind in self.counts]
        return [*(line for _, line in sorted(self.panes.items())), f"focus {self.focus}", *counts] if self.places() else []

    def metadata_lines(self) -> dict[str, str]:
        """Return the lines that report the metadata to a new subscriber, by word and pane, without past bells."""
        return {key: told.line for key, told in self.metadata.items()}


class AskedPanes:
    """A connection to a socket `panes` for a single query of the positions."""

    def __init__(self, peer: socket.socket) -> None:
        self.peer, self.lines, self.told = peer, LineReader(), PanesState()

    def heard(self, seconds: float) -> list[str] | None:
        """Return the lines that come in so many seconds, as soon as there are some; None at the end."""
        if not comes(self.peer, max(0.0, seconds)):
            return []
        lines = self.lines.read(self.peer.fileno())
        for line in lines or ():
            self.told.take(line)
        return lines

    def hear_all(self, seconds: float = ASKED, is_enough: Callable[[], bool] = lambda: False) -> None:
        """Read the initial state and the lines right after it, unless an earlier part is enough."""
        end = time.monotonic() + seconds
        while not is_enough() and time.monotonic() < end and self.heard(end - time.monotonic()) is not None:
            end = min(end, time.monotonic() + BEHIND) if self.told.places() else end


def asked_places(path: str | os.PathLike[str], seconds: float = ASKED) -> Places | None:
    """Query a socket `panes` once and return the positions; None without an answer within so many seconds."""
    try:
        with connected_in(path, seconds) as peer:
            asked = AskedPanes(peer)
            asked.hear_all(seconds, asked.told.is_whole)
    except OSError:
        return None
    return asked.told.places()
