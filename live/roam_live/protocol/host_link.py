"""A front end's connection to the pty host: reports and requests about the session, and the texts to store."""
from __future__ import annotations

import os

from roam_live.common.event_loop import Loop
from roam_live.common.io import read
from roam_live.common.retry import Retry
from roam_live.common.text import decimal_in
from roam_live.common.unix_socket import connected_to, is_anybody
from roam_live.protocol.colours import COLOUR, Colours, told_in
from roam_live.protocol.host_lines import SESSION, led
from roam_live.protocol.panes_client import LET_GO, Subscription
from roam_live.protocol.paste_text import FULL, INSERTED, LOST, MOST_BYTES, REFUSED, STORED
from roam_live.protocol.presence import LEAVE, SHOW, terminal_name
from roam_live.protocol.scrollback_client import BUFFER, AnswerReader, BadAnswer
from roam_live.protocol.spawn_request import RAN
from roam_live.protocol.window_lines import MOST_WINDOWS, WINDOWS
from roam_live.protocol.zoom_record import ZOOM

TYPE_CHECKING = False
if TYPE_CHECKING:
    import socket
    from collections.abc import Callable

    from roam_live.common.tty import Size
    from roam_live.protocol.host_client import HostClient

# Sent to a terminal that detached all others: their number.
LEFT = "left"

# The word that names a host, and the words of its reports about texts.
HOST = "host"
ANSWERS = (STORED, INSERTED, LOST, REFUSED)

# The local reports for a text without a host, and for one without room yet, with the host's words. The front end retries after so many
# seconds until there is room.
NO_HOST, LATER = "no host", "later"
STORES_AGAIN = 0.3

# Seconds after which the end of a connection is no failure.
SOUND = 1.0

# After so many failed connections in a row one may still come soon.
FEW = 2

# A new host may begin to listen within so many seconds after its launch. Until then it is expected, and retried at short pauses.
LAUNCHES = 5.0

# The most upgrades of a session.
MOST_UPGRADES = 10**9

# The most bytes that may wait for a host.
MOST_UNSENT = 2 * MOST_BYTES


class HostLink(Subscription):
    """The connection to a host. It reports this terminal, and receives news of the session and its windows."""

    again = "follow host"

    def __init__(self, folder: str | os.PathLike[str] | None, loop: Loop, size: Callable[[], Size], is_read_only: bool,
                 is_peer: Callable[[int], bool] = is_anybody) -> None:
        path = self.path = os.path.join(folder, "host") if folder else ""
        super().__init__(lambda: connected_to(path, is_peer), loop, lambda lines: None, self.forget)
        # Another host follows one that was killed at once, at the same socket.
        self.soon = Retry(sound=SOUND)
        self.begun = loop.clock()
        self.name, self.size, self.kind = terminal_name(), size, "read-only" if is_read_only else "read-write"
        # The views of each window that the user has visited, and of the current one.
        self.clients: dict[int, HostClient] = {}
        self.here: HostClient | None = None
        # The number of the session's upgrades at the first report of a host, -1 before; and a call once there are more.
        self.upgrades = -1
        self.upgraded: Callable[[], object] = lambda: None
        # A flag for a host that has reported so much, the host's name, and a flag for its presence.
        self.is_known = False
        self.host_name = ""
        self.is_there = False
        # True after a connection that ended in the first seconds before any report: a relay may reach the host soon.
        self.is_expected = False
        self.reader = AnswerReader()
        # Texts by name that the host has not stored yet; stored ones whose insertion is unconfirmed; and the owner of each. A number is
        # that of one of the host's buffers.
        self.unstored: dict[str, bytes | int] = {}
        self.stored: dict[str, None] = {}
        self.givers: dict[str, HostClient] = {}
        # The texts whose fate the host has still to report; and a flag for a full host, to which texts go one by one.
        self.asked: set[str] = set()
        self.is_full = False
        # Called if this terminal must detach, with a window that it is to show, and with the number of others that its request detached.
        self.leaves: Callable[[], object] = lambda: None
        self.shows: Callable[[int], object] = lambda number: None
        self.others_left: Callable[[str], object] = lambda count: None
        # The lines with this terminal's environment, sent once to each host: another terminal may have sent its own during an outage.
        self.environment: list[str] = []
        # The colours of this terminal, as far as it reported them, and those still unsent to the host. Each is sent once.
        self.colours = Colours()
        self.untold: list[str] = []
        # Takes lines about windows, and is called as they begin, and once the connection is lost; None without a subscriber.
        self.windows: tuple[Callable[[list[str]], object], Callable[[], object], Callable[[], object]] | None = None

    # ---- the connection

    def begin(self, peer: socket.socket) -> None:
        """Follow a new connection."""
        super().begin(peer)
        self.reader = AnswerReader()
        if self.here:
            self.here.come()
        if self.windows:
            self.ask_windows()

    def go(self, client: HostClient) -> None:
        """Go to a window, and report that once connected."""
        before, self.here = self.here, client
        if before and before is not client:
            before.left()
        self.clients[client.number] = client
        if self.peer:
            client.come()
        elif self.path and self.again not in self.loop.due:
            self.connect()

    def follow_windows(self, hears: Callable[[list[str]], object], begins: Callable[[], object], loses: Callable[[], object]) -> None:
        """Subscribe to the windows, now and on each connection."""
        self.windows = hears, begins, loses
        if self.peer:
            self.ask_windows()

    def ask_windows(self) -> None:
        """Request the windows anew."""
        if self.windows:
            self.windows[1]()
            self.ask(WINDOWS)

    def ask(self, line: str, number: int = SESSION) -> None:
        """Send a line about a window, or about the session, while a host is connected."""
        super().ask(led(number, line))

    def ask_with(self, line: str, data: bytes, number: int) -> bool:
        """Send a line and the data after it, and return True if a connected host accepts them."""
        if not self.peer or not self.has_room(len(line) + len(data)):
            return False
        self.ask(line, number)
        self.waiting += data
        return True

    def is_connecting(self) -> bool:
        """Return True if a connection may succeed soon: there is none yet, and few tries in a row have failed."""
        return bool(self.path) and self.peer is None and self.faults <= FEW

    def lost(self, why: str) -> None:
        """Drop a connection, or continue without one, and retry it later."""
        is_early = not self.is_known and self.loop.clock() < self.begun + LAUNCHES
        self.is_expected = is_early and (self.is_expected or self.peer is not None)
        super().lost(why)
        if is_early:
            self.faults = self.soon.faults = 0

    def hear(self) -> None:
        """Read the lines that arrived. An invalid answer ends the connection."""
        chunk = read(self.peer.fileno()) if self.peer else None
        if chunk == b"":
            self.lost(LET_GO)
            return
        try:
            lines: list[str] = []
            for answer in self.reader.fed(chunk or b""):
                self.faults = 0
                client, line = self.clients.get(answer.window), " ".join(answer.words)
                if client and client.scrollback.take(answer) or self.take(line):
                    continue
                if client:
                    client.take(line)
                elif answer.window == SESSION:
                    lines.append(line)
            if lines and self.windows:
                self.windows[0](lines)
        except BadAnswer as fault:
            self.lost(str(fault))

    def take(self, line: str) -> bool:
        """Take a line about the session or a text, and return True if it is one."""
        word, _, rest = line.partition(" ")
        if word in ANSWERS:
            name, _, more = rest.partition(" ")
            self.answered(name, word, more)
        elif word == HOST:
            name, _, upgrades = rest.partition(" ")
            self.meet(name)
            self.count_upgrades(decimal_in(upgrades, MOST_UPGRADES) or 0)
        elif line == LEAVE:
            self.leaves()
        elif word == SHOW and (number := decimal_in(rest, MOST_WINDOWS)):
            self.shows(number)
        elif word == LEFT:
            self.others_left(rest)
        elif word == RAN:
            for client in list(self.clients.values()):
                client.ran(rest)
        else:
            return False
        return True

    def forget(self) -> None:
        """Forget the other terminals. If no host was known before and none is expected, none accepts texts."""
        self.is_there = False
        for client in list(self.clients.values()):
            client.forget()
        if not self.is_known and not self.is_expected:
            self.lose(NO_HOST)
        if self.windows:
            self.windows[2]()

    def meet(self, name: str) -> None:
        """Continue with a host, and send it again the texts it has not stored.

        If the host is another one, the earlier texts are lost. A paste for one program must not reach the shell in its place.
        """
        is_other = self.host_name not in ("", name)
        for line in self.environment if name != self.host_name else ():
            self.ask(line)
        if name != self.host_name:
            self.untold = self.colours.lines()
        self.host_name, self.is_there = name, True
        self.tell_colours()
        for client in self.clients.values():
            if client.zoom:
                self.ask(f"{ZOOM} {client.zoom}", client.number)
        if is_other:
            self.lose(LOST)
        self.asked.clear()
        self.is_full = False
        for text, data in self.unstored.items():
            self.ask_to_take(text, data)
        for text in self.stored:
            self.ask(f"status {text}")

    def count_upgrades(self, number: int) -> None:
        """Take the number of the session's upgrades. If it has grown since the first report, another build runs the session."""
        if self.upgrades < 0:
            self.upgrades = number
        elif number > self.upgrades:
            self.upgrades = number
            self.upgraded()

    # ---- colours

    def tell_colour(self, text: str) -> None:
        """Take the terminal's answer about a colour, and send it to the host if this terminal is read-write."""
        told = told_in(text)
        line = " ".join((COLOUR, *told)) if told else ""
        if line and self.kind == "read-write" and line not in self.colours.lines():
            self.colours.take(line)
            self.untold.append(line)
            self.tell_colours()

    def tell_colours(self) -> None:
        """Send the host this terminal's unsent colours while it is connected."""
        for line in self.untold if self.is_there else ():
            self.ask(line)
        self.untold = [] if self.is_there else self.untold

    # ---- texts

    def lose(self, word: str) -> None:
        """Give up all texts, and report the reason."""
        names = [*self.stored, *self.unstored]
        self.stored.clear()
        self.unstored.clear()
        for name in names:
            self.tell_giver(name, word, "")

    def tell_giver(self, name: str, word: str, more: str) -> None:
        """Report the fate of a text to its owner, and forget the owner after the last report."""
        giver = self.givers.get(name)
        if name not in self.stored and name not in self.unstored:
            self.givers.pop(name, None)
        if giver:
            giver.answers(name, word, more)

    def has_room(self, length: int) -> bool:
        """Return True if a text of so many bytes may wait here. A stopped host drains nothing, not even cancelled texts."""
        return len(self.waiting) + length <= MOST_UNSENT

    def store(self, name: str, data: bytes | int, giver: HostClient) -> None:
        """Store a text at the host, or one of its buffers as a text.

        If the connection is lost or the host has no room, send it again until it is stored. The host refuses the number of an unknown
        buffer.
        """
        self.unstored[name], self.givers[name] = data, giver
        if self.is_there and not self.is_full:
            self.ask_to_take(name, data)

    def store_first(self) -> None:
        """Send the first waiting text to a host that had no room, once it has answered the earlier ones.

        If none waits, later texts are sent at once.
        """
        name = next(iter(self.unstored), "")
        self.is_full = name != ""
        if name and self.is_there and not self.asked:
            self.ask_to_take(name, self.unstored[name])

    def ask_to_take(self, name: str, data: bytes | int) -> None:
        """Send a text, or a buffer's number, to the connected host."""
        self.asked.add(name)
        self.ask(paste_line(name, data))
        self.waiting += b"" if isinstance(data, int) else data

    def cancel(self, name: str) -> None:
        """Cancel a text. A half-sent one is completed, since the host expects its bytes."""
        data = self.unstored.pop(name, None)
        self.stored.pop(name, None)
        self.givers.pop(name, None)
        if data is not None:
            self.drop_waiting(name, data)

    def drop_waiting(self, name: str, data: bytes | int) -> None:
        """Remove a wholly unsent text from the queue to the host. Its name is random, so no other line has it."""
        line = f"{led(SESSION, paste_line(name, data))}\n".encode()
        begin = self.waiting.find(line)
        if begin >= 0:
            del self.waiting[begin : begin + len(line) + (0 if isinstance(data, int) else len(data))]
            self.asked.discard(name)
            if self.is_full:
                self.store_first()

    def answered(self, name: str, word: str, more: str) -> None:
        """Take the fate of a text. One without room at the host is sent again later."""
        self.asked.discard(name)
        if word == REFUSED and more in FULL:
            self.is_full = True
            self.loop.later(f"paste {name} again", STORES_AGAIN, self.store_first)
            if name in self.unstored:
                self.tell_giver(name, LATER, more)
            return
        if name in self.unstored or name in self.stored:
            self.take_answer(name, word, more)
        if self.is_full:
            self.store_first()

    def take_answer(self, name: str, word: str, more: str) -> None:
        """Take the fate of a text that had room."""
        if self.unstored.pop(name, None) is None:
            del self.stored[name]
        if word == STORED:
            self.stored[name] = None
        self.tell_giver(name, word, more)


def paste_line(name: str, data: bytes | int) -> str:
    """Return the line that sends a text, before its bytes, or names one of the host's buffers."""
    return f"paste {name} {BUFFER} {data}" if isinstance(data, int) else f"paste {name} {len(data)}"
