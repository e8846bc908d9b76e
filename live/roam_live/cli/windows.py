"""Commands on a session's windows and terminals, by way of the host: list, open, rename and close windows, and list or detach terminals."""
from __future__ import annotations

import os
import time

from roam_live.common.errors import Fault, reason
from roam_live.common.event_loop import comes
from roam_live.common.io import LineReader
from roam_live.common.suppress import suppress
from roam_live.common.text import printable
from roam_live.common.unix_socket import connected_in
from roam_live.protocol.host_lines import BAD_LINE, led, parted
from roam_live.protocol.paste_text import random_name
from roam_live.protocol.presence import CLIENT, CLIENTS, MOST_ATTENDED, number_in, presence_in
from roam_live.protocol.spawn_request import RAN, READY
from roam_live.protocol.window_lines import (GONE, LONGEST_BYTES, LONGEST_NAME, MOST_WINDOWS, NOT_YET, OPENED, RUNS, WINDOW, WINDOWS,
                                             name_in, name_word)

TYPE_CHECKING = False
if TYPE_CHECKING:
    import socket

    from roam_live.common.tty import Size
    from roam_live.protocol.spawn_request import Begins
    from roam_live.session.folder import SessionFolder

# Seconds for the host to accept a connection, and to answer. A window has to open, or to end, in that time.
CONNECTS = 1.0
ANSWERS = 12.0

# Seconds to wait for the programs of windows, which are looked up on request.
RUNS_TOLD = 0.5

# Seconds for terminals to detach on request.
LEAVES = 5.0

# Seconds for which a request is repeated if the pty host ends, and between two tries.
ASKS_AGAIN, ASKS_EACH = 10.0, 0.1

# The most digits of a reported number, since reports may come from another machine.
MOST_DIGITS = 20

ONE_WINDOW = "session {}: it was started by hand and has one window"


class HostEnded(Fault):
    """A pty host that has ended, or is not there. Another one may follow."""


class WindowsAsked:
    """A connection to the host, at the socket of one window."""

    def __init__(self, session: SessionFolder) -> None:
        self.session, self.lines = session, LineReader()
        self.told: list[str] = []
        try:
            self.peer: socket.socket = connected_in(session.common / "host", CONNECTS)
        except OSError as fault:
            why = f"its pty host is not running ({reason(fault)}); `mux {session.name}` restarts it"
            raise HostEnded(f"session {session.name}: {why}") from fault

    def say(self, line: str, data: bytes = b"") -> None:
        """Send a line, and bytes after it."""
        try:
            self.peer.sendall(f"{led(self.session.number, line)}\n".encode() + data)
        except OSError as fault:
            raise HostEnded(f"session {self.session.name}: the pty host has ended") from fault

    def until(self, *begins: str, seconds: float = ANSWERS) -> list[str]:
        """Return the words of the first line with one of these beginnings, and keep later lines.

        Fault if none comes in time, or the session was started by hand and has one window.
        """
        end = time.monotonic() + seconds
        while True:
            while self.told:
                line = self.told.pop(0)
                if line == BAD_LINE:
                    raise Fault(ONE_WINDOW.format(self.session.name))
                if line.split(" ")[0] in begins:
                    return line.split(" ")
            if not comes(self.peer, max(0.0, end - time.monotonic())):
                raise Fault(f"session {self.session.name}: the pty host does not answer")
            heard = self.lines.read(self.peer.fileno())
            if heard is None:
                raise HostEnded(f"session {self.session.name}: the pty host has ended")
            self.told += [parted(line)[1] for line in heard]

    def hand(self, beside: str, begins: Begins) -> str:
        """Send start options for a new window, or for a pane beside that pane generation, and return their name; Fault if they are refused.
        """
        name, data = random_name(), begins.packed()
        self.say(f"{RAN} {name} {beside} {len(data)}", data)
        words = self.until(RAN)
        if words[1:] != [name, READY]:
            raise Fault(f"session {self.session.name}: not run: {printable(' '.join(words[3:]))}")
        return name

    def opened(self, size: Size, request: str, begins: Begins | None) -> tuple[int, str]:
        """Open a window with start options, by a named request; return its number, or 0 and the reason of a refusal."""
        handed = f" {self.hand('window', begins)}" if begins else ""
        self.say(f"open {size[0]} {size[1]}{handed} for {request}")
        words = self.until(OPENED)
        number = number_in(words[1], MOST_WINDOWS) if len(words) == 2 else 0
        return number, "" if number else " ".join(words[2:])

    def rename(self, number: int, name: str) -> None:
        """Name a window, or remove its name if `name` is empty. This connection has already subscribed to windows."""
        self.say(f"name {number} {name_word(name)}")
        while True:
            words = self.until(WINDOW, GONE)
            if words[:2] == [GONE, str(number)]:
                raise Fault(f"session {self.session.whole_session().name} has no window {number}")
            if words[1:2] == [str(number)]:
                return

    def clients(self) -> list[list[str]]:
        """Return the words of each valid line about a terminal, up to the limit on terminals."""
        self.say(CLIENTS)
        found: list[list[str]] = []
        while True:
            words = self.until(CLIENT, CLIENTS)
            if words[0] == CLIENTS:
                return found
            if tells_terminal(words) and len(found) < MOST_ATTENDED:
                found.append(words)


def tells_terminal(words: list[str]) -> bool:
    """Return True if a line describes a terminal: its number, the terminal itself, its window, and its arrival."""
    numbers = [words[1], *words[5:7]] if len(words) == 8 else [""]
    is_numbered = all(word.isascii() and word.isdigit() and len(word) <= MOST_DIGITS for word in numbers)
    return is_numbered and presence_in([*words[2:5], words[7]]) is not None


def windows_of(session: SessionFolder, has_programs: bool = False) -> list[tuple[int, str]]:
    """Return the windows of a session by number, with their names, or on request with their programs. A session started by hand has one."""
    asked = WindowsAsked(session)
    found: dict[int, str] = {}
    asked.say(WINDOWS)
    try:
        while True:
            words = asked.until(WINDOW, WINDOWS)
            if words[0] == WINDOWS:
                if has_programs:
                    with_programs(asked, found)
                return list(found.items())
            number = number_in(words[1], MOST_WINDOWS) if len(words) == 3 else 0
            if number:
                found[number] = name_in(words[2]) or ""
    except Fault:
        if session.number:
            raise
        return [(1, "")]


def with_programs(asked: WindowsAsked, found: dict[int, str]) -> None:
    """Name unnamed windows after their foreground programs, like the last row, as far as the host soon reports them."""
    end = time.monotonic() + RUNS_TOLD
    while "" in found.values() and time.monotonic() < end:
        try:
            words = asked.until(RUNS, seconds=end - time.monotonic())
        except Fault:
            return
        number = number_in(words[1], MOST_WINDOWS) if len(words) > 2 else 0
        if number and not found.get(number, "-"):
            found[number] = printable(" ".join(words[2:]))[:LONGEST_NAME]


def list_windows(session: SessionFolder) -> int:
    """Print a line for each window of a session: its number, its name or foreground program, its size, and its panes."""
    from roam_live.session.foreground import told

    for number, name in windows_of(session, has_programs=True):
        window = session.window(number)
        places, busy = window.places(), window.busy()
        size = "{} by {}".format(*places.area()) if places else "-"
        panes = "? panes" if not places else "1 pane" if len(places.rects) == 1 else f"{len(places.rects)} panes"
        runs = f", {told(busy)}" if busy else ""
        print(printable(f"{number:2} {name or '-':16} {size:12} {panes}{runs}"))
    return 0


def new_window(session: SessionFolder, name: str, begins: Begins | None = None) -> int:
    """Open a window of a session, and return the status."""
    opened_window(session, name, begins)
    return 0


def opened_window(session: SessionFolder, name: str, begins: Begins | None = None) -> int:
    """Open a window of a session, of the requesting window's size, with start options, print its number, and return it.

    If the pty host ends meanwhile, the next one is asked again, by the name of the request. It opens no second window.
    """
    check_title(name)
    places = session.places()
    size, request, end = places.size() if places else (24, 80), random_name(), time.monotonic() + ASKS_AGAIN
    asked = WindowsAsked(session)
    while True:
        try:
            number, why = asked.opened(size, request, begins)
        except HostEnded:
            if time.monotonic() >= end:
                raise
            number, why = 0, NOT_YET
        if number or why != NOT_YET or time.monotonic() >= end:
            break
        time.sleep(ASKS_EACH)
        with suppress(HostEnded):
            asked = WindowsAsked(session)
    if not number:
        raise Fault(f"session {session.whole_session().name}: cannot open a window: {printable(why)}")
    if name:
        asked.say(WINDOWS)
        asked.until(WINDOWS)
        asked.rename(number, name)
    print(f"{session.whole_session().name}:{number}")
    return number


def check_title(name: str) -> None:
    """Refuse an invalid window name."""
    if not name.isprintable() or len(name) > LONGEST_NAME or len(name.encode("utf-8", "replace")) > LONGEST_BYTES:
        raise Fault(f"a window's name has at most {LONGEST_NAME} printable characters and {LONGEST_BYTES} bytes")


def rename(window: SessionFolder, name: str) -> int:
    """Name a window, or remove its name if `name` is empty."""
    check_title(name)
    asked = WindowsAsked(window)
    asked.say(WINDOWS)
    asked.until(WINDOWS)
    asked.rename(window.number or 1, name)
    return 0


def shut(window: SessionFolder) -> int:
    """Close a window, and return once nothing of it is left."""
    server = window.process("server")
    asked = WindowsAsked(window)
    asked.say(WINDOWS)
    asked.until(WINDOWS)
    asked.say(f"shut {window.number or 1}")
    # The last one's end is the session's.
    try:
        asked.until(GONE)
    except Fault:
        if window.runs():
            raise
    end = time.monotonic() + ANSWERS
    while is_there(window, server):
        if time.monotonic() > end:
            raise Fault(f"window {window.name} did not end")
        time.sleep(0.01)
    return 0


def is_there(window: SessionFolder, server: int | None) -> bool:
    """Return True if a window, or a rest of it, exists. Another window may reuse its number. The server of a remote window is unknown here.
    """
    if server is None:
        return window.find()
    return window.process("server") in (server, None) and os.path.exists(window.folder)


def list_clients(session: SessionFolder) -> int:
    """Print a line for each terminal at a session: its number, name, size, window, arrival, and a mark if it is read-only."""
    for words in WindowsAsked(session).clients():
        since = time.strftime("%Y-%m-%d %H:%M", time.localtime(min(int(words[6]), 1 << 40)))
        watches = " read-only" if words[7] == "read-only" else ""
        print(printable(f"{words[1]:>3} {words[2]:24} {words[3]} by {words[4]}, window {words[5]}, since {since}{watches}"))
    return 0


def detach_others(session: SessionFolder) -> int:
    """Detach all terminals of a session, wait for that, and return how many remain."""
    asked = WindowsAsked(session)
    there = asked.clients()
    for words in there:
        asked.say(f"leave {words[1]}")
        asked.until("left")
    end = time.monotonic() + LEAVES
    while there and time.monotonic() < end:
        time.sleep(0.02)
        numbers = {words[1] for words in asked.clients()}
        there = [words for words in there if words[1] in numbers]
    return len(there)
