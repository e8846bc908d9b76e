"""The lines about windows at the pty host: it answers those of front ends, and sends reports of events."""
from __future__ import annotations

from roam_live.common.build_info import identity
from roam_live.common.tty import largest
from roam_live.protocol.host_lines import SESSION
from roam_live.protocol.upgrade_lines import BUILD, UPGRADE
from roam_live.protocol.window_lines import GONE, NAME, NOT_YET, OPEN, OPENED, RUNS, SHUT, WINDOW, WINDOWS, name_in, name_word

TYPE_CHECKING = False
if TYPE_CHECKING:
    from roam_live.common.tty import Size
    from roam_live.host.socket_peer import HostPeer
    from roam_live.host.socket_server import HostSocket
    from roam_live.host.windows import Windows
    from roam_live.protocol.spawn_request import Begins

# The most windows that may be opening for one peer.
MOST_OPENING = 4

# For so many seconds a front end that lost its connection, for example to a relay's new transport, may claim the window that it requested.
ASKED_AGAIN = 5.0

READ_ONLY = "a read-only terminal opens none"
TOO_MANY = f"{MOST_OPENING} windows are being opened"
NOT_HANDED = "its command is missing"


class AskedWindow:
    """A requested window, with its size and the window beside it; then its number, and the moment when it opened."""

    def __init__(self, peer: HostPeer, beside: int, size: Size) -> None:
        self.peer, self.beside, self.size = peer, beside, size
        self.number, self.since = 0, 0.0


class WindowLines:
    """The lines about windows, for a table of them. Read-only peers can't change windows."""

    def __init__(self, table: Windows, socket: HostSocket) -> None:
        self.table, self.socket = table, socket
        # The requested windows that no terminal has visited yet.
        self.asked: list[AskedWindow] = []

    def take(self, peer: HostPeer, beside: int, line: str) -> bool:
        """Take a line of a peer at a window, and return True if it is about windows."""
        opens, names, shuts = OPEN.fullmatch(line), NAME.fullmatch(line), SHUT.fullmatch(line)
        if line == WINDOWS:
            peer.asks_windows = True
            told = [self.line(number) for number in sorted(self.table.named())]
            runs = [f"{RUNS} {number} {name}" for number, name in self.table.in_front().items()]
            self.socket.send(peer, [*told, f"{WINDOWS} {len(told)}", *runs], SESSION)
        elif opens:
            self.open(peer, beside, largest((int(opens[1]), int(opens[2]))), opens[3] or "", opens[4] or "")
        elif peer.is_read_only():
            return False
        elif names and name_in(names[2]) is not None:
            self.answer_gone(peer, int(names[1]), self.table.rename(int(names[1]), name_in(names[2]) or ""))
        elif line == UPGRADE:
            self.table.upgrade.take(peer)
        elif line == BUILD:
            self.socket.send(peer, [f"{BUILD} {self.table.upgrade.sum()} {identity()}"], SESSION)
        elif shuts:
            self.answer_gone(peer, int(shuts[1]), self.table.shut(int(shuts[1])))
        else:
            return False
        return True

    def line(self, number: int) -> str:
        """Return the line that describes a window."""
        return f"{WINDOW} {number} {name_word(self.table.named().get(number, ''))}"

    def answer_gone(self, peer: HostPeer, number: int, is_there: bool) -> None:
        """Inform a peer that the window of its request does not exist."""
        if not is_there:
            self.socket.send(peer, [f"{GONE} {number}"], SESSION)

    def open(self, peer: HostPeer, beside: int, size: Size, name: str = "", request: str = "") -> None:
        """Open a window, with start options of this name if any, and answer once it is there or has failed.

        A front end that lost its connection asks again, and gets the same window. So does a command that repeats its request by its name,
        also at another host.
        """
        again = self.table.of_request(request) if request else None
        if again and not peer.is_read_only():
            self.handed(name)
            is_there = again.number in self.table.named()
            self.socket.send(peer, [f"{OPENED} {again.number}" if is_there else f"{OPENED} none {NOT_YET}"], SESSION)
            return
        refusal = READ_ONLY if peer.is_read_only() else TOO_MANY if peer.opening >= MOST_OPENING else ""
        if refusal:
            self.socket.send(peer, [f"{OPENED} none {refusal}"], SESSION)
            return
        peer.opening += 1
        left = self.left(beside, size)
        if left:
            left.peer = peer
            if left.number:
                self.opened(left, left.number)
            return
        begins = self.handed(name) if name else None
        if name and not begins:
            peer.opening -= 1
            self.socket.send(peer, [f"{OPENED} none {NOT_HANDED}"], SESSION)
            return
        asked = AskedWindow(peer, beside, size)
        if peer.asks_windows:
            self.asked.append(asked)
        self.table.open(size, beside, lambda number, why: self.opened(asked, number, why), begins, request)

    def handed(self, name: str) -> Begins | None:
        """Return the start options of this name, from any window."""
        return next((found for found in (one.handed.for_window(name) for one in self.socket.channels.values()) if found), None)

    def is_left(self, asked: AskedWindow) -> bool:
        """Return True if the peer of a request is disconnected, so that it may not know of its window."""
        return asked.peer not in self.socket.peers

    def left(self, beside: int, size: Size) -> AskedWindow | None:
        """Return a window of this size that a disconnected peer requested here; None if there is none."""
        now, named = self.socket.loop.clock(), self.table.named()
        self.asked = [one for one in self.asked if not one.number or one.number in named and now < one.since + ASKED_AGAIN]
        return next((one for one in self.asked if self.is_left(one) and (one.beside, one.size) == (beside, size)), None)

    def opened(self, asked: AskedWindow, number: int, why: str = "") -> None:
        """Report an open window, or the reason of a failure, to the peer that requested it."""
        asked.number, asked.since = number, self.socket.loop.clock()
        if not number and asked in self.asked:
            self.asked.remove(asked)
        if not self.is_left(asked):
            asked.peer.opening -= 1
            self.socket.send(asked.peer, [f"{OPENED} {number}" if number else f"{OPENED} none {why}"], SESSION)

    def has_asked(self) -> bool:
        """Return True if some peer subscribed to windows."""
        return any(peer.asks_windows for peer in self.socket.peers)

    # ---- reports

    def tell(self, line: str) -> None:
        """Send a line to all subscribers of windows."""
        for peer in [peer for peer in self.socket.peers if peer.asks_windows]:
            self.socket.send(peer, [line], SESSION)

    def tell_window(self, number: int) -> None:
        """Report an open window, or its new name."""
        self.tell(self.line(number))

    def comes(self, number: int) -> None:
        """Record that a terminal is at a window."""
        self.asked = [one for one in self.asked if one.number != number]
        self.table.came(number)
