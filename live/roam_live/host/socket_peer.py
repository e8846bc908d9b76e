"""The peers at the socket `host` of a session's pty host, and their uploads."""
from __future__ import annotations

import os

from roam_live.common.io import MOST_READ, LinePeer, LineReader
from roam_live.common.unix_socket import CMSG_SPACE, MSG_CMSG_CLOEXEC, is_own_peer
from roam_live.protocol.host_lines import LONGEST_HOST_LINE
from roam_live.protocol.presence import CLIENT, GONE, OTHERS, THERE, Presence
from roam_live.protocol.zoom_record import NO_ZOOM

TYPE_CHECKING = False
if TYPE_CHECKING:
    import socket

    from roam_live.host.scrollback_queries import RowAsker
    from roam_live.host.window_channel import WindowChannel

# The room for a descriptor beside the bytes of a read.
DESCRIPTOR_ROOM = CMSG_SPACE(4)

# A peer gets reports about at most this many texts.
MOST_NAMES = 64


class Upload:
    """A text whose bytes are arriving: to store, to skip because it is known, or to refuse. It becomes a named text or a buffer."""

    def __init__(self, name: str, length: int, is_plain: bool, is_kept: bool, refusal: str, is_buffer: bool = False) -> None:
        self.name, self.length, self.is_plain, self.is_kept, self.refusal = name, length, is_plain, is_kept, refusal
        self.is_buffer = is_buffer
        # For a command: the pane generation that its pane will be beside, or pane 0 for a window.
        self.beside: tuple[int, int] | None = None
        self.left = length
        self.data = bytearray()

    def take(self, came: bytearray) -> None:
        """Take its available bytes from the front of the input."""
        count = min(self.left, len(came))
        if self.is_kept:
            self.data += came[:count]
        del came[:count]
        self.left -= count


class HostPeer(LinePeer):
    """A connection, by a number: its input, its output queue, and the terminal at its other end, if any."""

    def __init__(self, end: socket.socket, number: int) -> None:
        super().__init__(end)
        self.number, self.came = number, LineReader(LONGEST_HOST_LINE)
        # The subject of its last line; the number of the window that it reported, and that window.
        self.said = 0
        self.at: int | None = None
        self.channel: WindowChannel | None = None
        self.presence: Presence | None = None
        # The arrival of its terminal, in seconds since the epoch.
        self.since = 0
        # True if it subscribed to other terminals; and the others and the zoom that it knows.
        self.asks = False
        self.told: dict[int, Presence] | None = None
        self.told_zoom = NO_ZOOM
        # True if it subscribed to foreground programs.
        self.asks_commands = False
        self.commands: dict[int, tuple[int, str]] = {}
        # True if it subscribed to windows; and the number of windows that are opening for it.
        self.asks_windows = False
        self.opening = 0
        # Its current upload, and the names of texts whose fate it asked about.
        self.upload: Upload | None = None
        self.names: dict[str, None] = {}
        # Its requests about rows.
        self.asker: RowAsker | None = None
        # A descriptor that it has passed, -1 without one.
        self.lent = -1
        # The end of the host's wait, if it logs rows and is slow.
        self.awaited_until = 0.0

    def received(self) -> bytes | None:
        """Return the bytes that arrived, and keep the descriptor that came with them: None if there are none yet, empty at the end."""
        try:
            chunk, control, _, _ = self.end.recvmsg(MOST_READ, DESCRIPTOR_ROOM, MSG_CMSG_CLOEXEC)
        except BlockingIOError:
            return None
        except OSError:
            return b""
        for _, _, data in control:
            for end in memoryview(data[: len(data) // 4 * 4]).cast("i"):
                self.lend(end)
        return chunk

    def lend(self, end: int = -1) -> None:
        """Keep a descriptor in place of the one before."""
        if self.lent >= 0:
            os.close(self.lent)
        self.lent = end

    def is_own(self) -> bool:
        """Return True if its process belongs to this user."""
        return is_own_peer(self.end)

    def leave_channel(self) -> None:
        """Leave its window, and drop its subscriptions there."""
        self.channel, self.asks, self.asks_commands, self.told, self.told_zoom = None, False, False, None, NO_ZOOM
        self.commands.clear()

    def is_busy(self) -> bool:
        """Return True if an answer to it is missing or unread, so that its next line has to wait."""
        return self.is_full() or self.asker is not None and self.asker.waits()

    def logs(self) -> bool:
        """Return True if it logs rows."""
        return self.asker is not None and self.asker.logged is not None

    def is_full(self) -> bool:
        """Return True if many bytes of answers wait for it."""
        return len(self.waiting) > self.most

    def is_read_only(self) -> bool:
        """Return True if it announced itself as read-only."""
        return self.presence is not None and self.presence.kind == "read-only"

    def wants(self, name: str) -> None:
        """Record that it needs the fate of a text."""
        self.names.pop(name, None)
        self.names[name] = None
        if len(self.names) > MOST_NAMES:
            del self.names[next(iter(self.names))]

    def news(self, others: dict[int, Presence], zoom: str = NO_ZOOM) -> list[str]:
        """Return the lines with changes of the other terminals and of the zoom."""
        told, self.told = self.told, others
        lines = [f"{GONE} {number}" for number in told or () if number not in others]
        lines += [f"{THERE} {number} {one}" for number, one in others.items() if (told or {}).get(number) != one]
        lines += [zoom] if zoom != self.told_zoom else []
        self.told_zoom = zoom
        return [*lines, f"{OTHERS} {len(others)}"] if lines or told is None else []


def client_line(peer: HostPeer, window: int) -> str:
    """Return the line that describes an attached terminal."""
    there = peer.presence
    assert there
    return f"{CLIENT} {peer.number} {there.name} {there.rows} {there.cols} {window} {peer.since} {there.kind}"
