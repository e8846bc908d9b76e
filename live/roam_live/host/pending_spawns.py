"""Start options that wait at the pty host for their new pane or window."""
from __future__ import annotations

import os

from roam_live.common.event_loop import Loop
from roam_live.common.named_fields import NamedFields
from roam_live.protocol.spawn_request import DONE, LATE, MOST_BYTES, RAN, READY, REFUSED, TOO_LONG, WAITS, unpacked

TYPE_CHECKING = False
if TYPE_CHECKING:
    from collections.abc import Callable

    from roam_live.host.socket_peer import HostPeer
    from roam_live.protocol.panes import Rect
    from roam_live.protocol.spawn_request import Begins

# The most start options that may wait at a window.
MOST_WAITING = 8

TOO_MANY = f"{MOST_WAITING} commands wait for their panes"
NO_PANE = "the pane does not exist"
BAD = "its words are invalid"


class Handed(NamedFields):
    """Start options from a connection: its peer, the options, the pane to be beside, 0 for a window, and that pane's rectangles, then and
    now.
    """

    peer: HostPeer
    begins: Begins
    pane: int
    rects: list[Rect]

    def is_beside(self, rect: Rect) -> bool:
        """Return True if a new pane is beside that pane: inside its rectangle, or along one of its sides."""
        return any(is_within(rect, one) or is_along(rect, one) for one in self.rects)


def is_within(rect: Rect, other: Rect) -> bool:
    """Return True if a rectangle is inside another."""
    return (other.row <= rect.row and rect.row + rect.rows <= other.row + other.rows
            and other.col <= rect.col and rect.col + rect.cols <= other.col + other.cols)


def is_along(rect: Rect, other: Rect) -> bool:
    """Return True if a rectangle is right of another, or below, across a border, with equal height or width."""
    is_right = (rect.row, rect.rows, rect.col) == (other.row, other.rows, other.col + other.cols + 1)
    return is_right or (rect.col, rect.cols, rect.row) == (other.col, other.cols, other.row + other.rows + 1)


class HandedCommands:
    """The start options that wait at a window.

    One call reports the fate of each to its peer. Two others return the rectangle of a pane generation, None if it is gone, and the working
    folder in a pane, 0 for the focused one.
    """

    def __init__(self, loop: Loop, tells: Callable[[HostPeer, str], object]) -> None:
        self.loop, self.tells = loop, tells
        self.waiting: dict[str, Handed] = {}
        self.rect_of: Callable[[int, int], Rect | None] = lambda pane, generation: None
        self.folder_beside: Callable[[int], str] = lambda pane: ""

    def refusal(self, length: int) -> str:
        """Return the reason to refuse a command of so many bytes; nothing if it is accepted."""
        return TOO_LONG if length > MOST_BYTES else TOO_MANY if len(self.waiting) >= MOST_WAITING else ""

    def take(self, peer: HostPeer, name: str, beside: tuple[int, int], data: bytes) -> None:
        """Queue start options for a pane."""
        begins, rect = unpacked(data), self.rect_of(*beside)
        refusal = self.refusal(len(data)) or (BAD if not begins else "" if rect or not beside[0] else NO_PANE)
        if begins and not refusal:
            # A relative path starts at the working folder of that pane's program.
            folder = begins.folder and os.path.join(self.folder_beside(beside[0]), os.path.expanduser(begins.folder))
            refusal = "" if not folder or os.path.isdir(folder) else "the directory does not exist"
            begins = begins._replace(folder=folder)
        if refusal or not begins:
            self.tells(peer, f"{RAN} {name} {REFUSED} {refusal}")
            return
        self.waiting[name] = Handed(peer, begins, beside[0], [rect] if rect else [])
        self.loop.later(f"{RAN} {name}", WAITS, lambda: self.end(name, LATE))
        self.tells(peer, f"{RAN} {name} {READY}")

    def moved(self, pane: int, rect: Rect) -> None:
        """Record a pane's new rectangle."""
        for one in self.waiting.values():
            if one.pane == pane:
                one.rects[1:] = [rect]

    def for_pane(self, rect: Rect) -> Begins | None:
        """Return the start options that wait for a new pane, if any."""
        name = next((name for name, one in self.waiting.items() if one.pane and one.is_beside(rect)), "")
        return self.end(name, DONE)

    def for_window(self, name: str) -> Begins | None:
        """Return the start options of this name for a new window."""
        found = self.waiting.get(name)
        return self.end(name, DONE) if found and not found.pane else None

    def end(self, name: str, word: str) -> Begins | None:
        """Remove waiting start options, report the reason to their peer, and return them."""
        found = self.waiting.pop(name, None)
        self.loop.drop(f"{RAN} {name}")
        if not found:
            return None
        self.tells(found.peer, f"{RAN} {name} {word}")
        return found.begins

    def drop(self, peer: HostPeer) -> None:
        """Drop the options of a disconnected peer. No other pane may use them."""
        for name in [name for name, one in self.waiting.items() if one.peer is peer]:
            del self.waiting[name]
            self.loop.drop(f"{RAN} {name}")
