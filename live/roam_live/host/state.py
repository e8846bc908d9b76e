"""The state of a session's pty host: a tree of records, without sockets, descriptors and timers.

It is the host's only copy of these facts. Written as JSON and read back, it lets another host continue the session. Anything bound to a
connection, such as start options of a new pane in an open window, ends with that connection and is not part of it.
"""
from __future__ import annotations

from roam_live.common.patterns import LazyPattern
from roam_live.common.record import (StateRecord, bytes_of, decimal, field, flag, list_of, map_of, nothing, number_from, one_of, optional,
                                     read_back, record_of, row_of, text_of)
from roam_live.common.tty import MOST
from roam_live.protocol.colours import NUMBERS, colour_of
from roam_live.protocol.panes import MOST_PANES
from roam_live.protocol.paste_text import (BUFFER_EMPTY, BUFFER_TOO_LONG, BUFFERS_TOO_MANY, CLOSES, INSERTED, LOST, MOST_BUFFER,
                                           MOST_BUFFERS, MOST_BYTES, MOST_COMING, MOST_SPENT, MOST_TEXTS, OPENS, SAMPLE, STORED,
                                           random_name, without_brackets)
from roam_live.protocol.spawn_request import MOST_BYTES as MOST_OPTIONS
from roam_live.protocol.window_lines import LONGEST_NAME, LONGEST_REQUEST, MOST_WINDOWS
from roam_live.protocol.zoom_record import MOST_ASKED, NO_ZOOM, NONE, ZOOM, ZOOMED, ZoomNote, note_in
from roam_live.session.environment import LONGEST_VALUE, NAMES, own_values, tellable
from roam_live.session.roles import CLIENT, SERVER

TYPE_CHECKING = False
if TYPE_CHECKING:
    from roam_live.common.tty import Size

# The version of a written state, and its most characters: 16 MB of pastes and 20 MB of buffers in base64, and the commands of all panes.
VERSION = 1
MOST_STATE = 1 << 27

# Limits of a state that is read: a folder's path, a word of a command, the number of words, a program's name, and numbers of the system.
LONGEST_PATH, LONGEST_WORD, MOST_WORDS, LONGEST_PROGRAM, LONGEST_COLOUR = 4096, 1 << 17, 1 << 16, 64, 14
MOST_GENERATION, MOST_PROCESS, MOST_TICKS, MOST_NUMBER = 10**19, 1 << 31, 1 << 63, 1 << 53

PASTE_NAME = LazyPattern(r"[0-9a-f]{16}")


def has_no_nul(words: str) -> bool:
    """Return True if the system accepts a text as a path, or as a word of a command."""
    return "\0" not in words


def is_tellable(value: str) -> bool:
    """Return True if a text can be sent as a value of the environment."""
    return tellable(value) == value


def is_colour(value: str) -> bool:
    """Return True if a text is a colour in the stored form."""
    return colour_of(f"rgb:{value}") == value


# Readers of common fields.
PANE, WINDOW = number_from(1, MOST_PANES), number_from(0, MOST_WINDOWS)
SIZE = row_of(number_from(0, 9999), number_from(0, 9999))
PROGRAM = text_of(LONGEST_PROGRAM)
NAMED = text_of(16, PASTE_NAME.fullmatch)


def zoom_note(value: object, place: str) -> ZoomNote:
    """Read the record of a zoom."""
    size = row_of(number_from(1, MOST[0]), number_from(1, MOST[1]))
    before, asked = row_of(size, list_of(size, 1, MOST_ASKED))(value, place)
    return ZoomNote(before, tuple(asked))


# ---- pastes and buffers

class PendingPaste(StateRecord):
    """A text that waits for its placeholder, and later the rest of its bytes and of its brackets.

    A plain one has no brackets.
    """

    name: str = field(NAMED)
    data: bytearray = field(bytes_of(MOST_BYTES + len(OPENS + CLOSES)))
    # Its length in bytes, which counts for the room it takes, and the number of typed ones.
    length: int = field(number_from(1, MOST_BYTES))
    typed: int = field(number_from(0, MOST_BYTES + len(OPENS + CLOSES)), int)
    is_plain: bool = field(flag, bool)
    # True once its placeholder was typed; once the first of it is typed; if it is bracketed; and once the rest is dropped.
    is_placed: bool = field(flag, bool)
    has_begun: bool = field(flag, bool)
    is_bracketed: bool = field(flag, bool)
    is_over: bool = field(flag, bool)
    # The end of its wait, by the loop's clock.
    until = 0.0

    @classmethod
    def of(cls, name: str, given: bytes, is_plain: bool) -> PendingPaste:
        """Return a text that was stored under a name."""
        return cls(name=name, data=bytearray(given), length=len(given), is_plain=is_plain)

    def state(self) -> str:
        """Return the word that reports its fate so far."""
        return INSERTED if self.is_placed else STORED

    def begin(self, wants_brackets: bool) -> None:
        """Begin to type it, bracketed if it is not plain and the program wants that."""
        self.has_begun, self.is_bracketed = True, wants_brackets and not self.is_plain
        if self.is_bracketed:
            self.data[:] = OPENS + without_brackets(bytes(self.data)) + CLOSES

    def stop(self) -> None:
        """Drop the untyped rest, except for begun brackets and the rest of a character."""
        self.is_over = True
        if not self.has_begun:
            self.data.clear()
            return
        cut = head = len(OPENS[self.typed :]) if self.is_bracketed else 0
        end = max(len(self.data) - (len(CLOSES) if self.is_bracketed else 0), head)
        while cut < end and self.data[cut] & 0xC0 == 0x80:
            cut += 1
        del self.data[cut:end]


def sample(data_of_it: bytes) -> str:
    """Return the first printable characters of a text, with `\\n` for the end of a line, as in tmux."""
    found = data_of_it[: 4 * SAMPLE].decode("utf-8", "replace").replace("\r\n", "\n").replace("\r", "\n").replace("\n", "\\n")
    return "".join(letter for letter in found if letter.isprintable())[:SAMPLE]


class PasteBuffers(StateRecord):
    """The last copied texts of a session, by increasing number."""

    last: int = field(number_from(0, MOST_NUMBER), int)
    texts: dict[int, bytes] = field(map_of(decimal(number_from(1, MOST_NUMBER)), bytes_of(MOST_BUFFER), MOST_BUFFERS), dict)

    def wrong(self) -> str:
        """Return the error in the numbers, if any."""
        return "" if list(self.texts) == sorted(self.texts) and max(self.texts, default=0) <= self.last else "buffers are out of order"

    @staticmethod
    def refusal(length: int, coming: int) -> str:
        """Return the reason to refuse a buffer of `length` bytes while `coming` bytes of others arrive; nothing if it is accepted."""
        if length > MOST_BUFFER:
            return BUFFER_TOO_LONG
        return BUFFERS_TOO_MANY if coming + length > MOST_COMING else "" if length else BUFFER_EMPTY

    def add(self, copied: bytes) -> int:
        """Store a text, and return its number. The oldest is dropped if there are too many."""
        self.last += 1
        self.texts[self.last] = copied
        while len(self.texts) > MOST_BUFFERS:
            del self.texts[next(iter(self.texts))]
        return self.last

    def lines(self) -> list[str]:
        """Return the lines of `buffer list`, the newest first."""
        found = [f"{number} {len(copied)} {sample(copied)}" for number, copied in reversed(self.texts.items())]
        return [f"buffers {len(found)}", *found]


# ---- windows and panes

class NotedZoom(StateRecord):
    """The last zoom reported in a window. It stays after its front end has left, until its end is reported or the window has another size.
    """

    note: ZoomNote | None = field(optional(zoom_note), nothing)
    # The connection that made it, 0 if that has ended; and the window's size, if known. True once all input of a departed front end has
    # arrived.
    maker = 0
    size: Size | None = None
    is_over = False

    def take(self, peer: int, line: str) -> bool:
        """Take a line of a connection, and return True if it is about a zoom.

        While its owner is there no other connection ends a zoom. A newly reported zoom replaces another.
        """
        word, *words = line.split(" ")
        note = note_in(words)
        if word != ZOOM or not (note or words == [NONE]):
            return False
        if note or self.maker in (0, peer):
            self.maker, self.note = peer if note else 0, note
            self.is_over = False
        return True

    def leave(self, peer: int) -> bool:
        """Record that a connection has ended, and return True if it owned the zoom."""
        is_maker = self.note is not None and self.maker == peer
        self.maker = 0 if is_maker else self.maker
        return is_maker

    def sized(self, new_size: Size | None) -> bool:
        """Record the window's size, and return True if that ends the zoom."""
        self.size = new_size
        return self.is_over and self.end_left()

    def end_left(self) -> bool:
        """End a zoom whose owner has left and has no more effect, unless the window has one of its sizes. Return True if it ended."""
        self.is_over = not self.maker
        if self.maker or not self.note or self.size is None or self.size in self.note.asked:
            return False
        self.note = None
        return True

    def line(self) -> str:
        """Return the line that reports it."""
        return f"{ZOOMED} {self.maker} {self.note}" if self.note else NO_ZOOM


class PaneState(StateRecord):
    """A pane: its id, which no other pane of this user has; its generation, its size, and the command on its terminal."""

    id: int = field(number_from(0, MOST_NUMBER))
    number: int = field(PANE)
    generation: int = field(number_from(0, MOST_GENERATION))
    size: Size = field(SIZE)
    # The folder of its command, and the command, if it isn't the default one; its process, None before it runs; True once it has ended.
    folder: str = field(text_of(LONGEST_PATH, has_no_nul), str)
    command: list[str] = field(list_of(text_of(LONGEST_WORD, has_no_nul), 0, MOST_WORDS), list)
    process: int | None = field(optional(number_from(1, MOST_PROCESS)), nothing)
    has_ended: bool = field(flag, bool)
    # The foreground program, if it was looked up; and the command that gets a copy of the output, if any.
    program: str = field(PROGRAM, str)
    pipe: str = field(text_of(LONGEST_WORD, has_no_nul), str)


class WindowState(StateRecord):
    """A window: its name, its panes, and its processes."""

    number: int = field(WINDOW, int)
    name: str = field(text_of(LONGEST_NAME), str)
    panes: dict[int, PaneState] = field(map_of(decimal(PANE), record_of(PaneState), MOST_PANES), dict)
    # The focused pane, 0 if unknown, and the previously focused ones, the last one first.
    focus: int = field(number_from(0, MOST_PANES), int)
    history: list[int] = field(list_of(PANE, 0, MOST_PANES), list)
    # The last reported foreground program of the focused pane.
    program: str = field(PROGRAM, str)
    zoom: NotedZoom = field(record_of(NotedZoom), NotedZoom)
    # The name of the request that opened it; and until then the start options of its first pane.
    request: str = field(text_of(LONGEST_REQUEST), str)
    begins: bytes = field(bytes_of(MOST_OPTIONS), bytes)
    # The processes by role, each with its start time.
    processes: dict[str, tuple[int, int | None]] = field(
        map_of(one_of(SERVER, CLIENT), row_of(number_from(1, MOST_PROCESS), optional(number_from(0, MOST_TICKS))), 2), dict)

    def wrong(self) -> str:
        """Return the error in the numbers of panes, if any."""
        if any(key != pane.number for key, pane in self.panes.items()):
            return "a pane has another number than its key"
        return "a pane is twice in the history" if len(set(self.history)) < len(self.history) else ""


class SessionState(StateRecord):
    """A session."""

    version: int = field(one_of(VERSION), lambda: VERSION)
    # The name of its hosts. Reconnecting terminals compare it with the name of their earlier host.
    name: str = field(NAMED, random_name)
    windows: dict[int, WindowState] = field(map_of(decimal(WINDOW), record_of(WindowState), MOST_WINDOWS), dict)
    # The window used last, 0 if unknown.
    last_window: int = field(WINDOW, int)
    # The environment from attaching front ends, for new panes, and the colours of the terminal that reported its own last.
    environment: dict[str, str] = field(map_of(one_of(*NAMES), text_of(LONGEST_VALUE, is_tellable), len(NAMES)), own_values)
    colours: dict[str, str] = field(map_of(one_of(*NUMBERS), text_of(LONGEST_COLOUR, is_colour), len(NUMBERS)), dict)
    buffers: PasteBuffers = field(record_of(PasteBuffers), PasteBuffers)
    # Waiting texts by name, and the fate of the last finished ones.
    pastes: dict[str, PendingPaste] = field(map_of(NAMED, record_of(PendingPaste), MOST_TEXTS), dict)
    spent_pastes: dict[str, str] = field(map_of(NAMED, one_of(INSERTED, LOST), MOST_SPENT), dict)
    # The number of hosts that followed one which had ended.
    replaced: int = field(number_from(0, MOST_NUMBER), int)
    # The number of hosts that another build has executed in place of an earlier one.
    upgrades: int = field(number_from(0, MOST_NUMBER), int)
    # True once the shell commands of the settings file were run.
    has_run_settings: bool = field(flag, bool)

    def window(self, number: int) -> WindowState:
        """Return the window of a number, and create it if necessary."""
        return self.windows.setdefault(number, WindowState(number=number))

    def wrong(self) -> str:
        """Return the error in the numbers of windows, or in pastes, if any."""
        if any(key != window.number for key, window in self.windows.items()):
            return "a window has another number than its key"
        if any(key != paste.name for key, paste in self.pastes.items()):
            return "a paste has another name than its key"
        return "pastes are too long together" if sum(paste.length for paste in self.pastes.values()) > MOST_BYTES else ""


def state_in(written: str) -> SessionState:
    """Return the state in these bytes; Malformed if they are invalid."""
    found: SessionState = read_back(SessionState, written, MOST_STATE)
    return found
