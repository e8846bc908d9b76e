"""Datagrams over a Unix stream, as on a server's socket for clients: each follows its length, in two bytes."""
from __future__ import annotations

import socket

from roam_live.common.io import read, write
from roam_live.protocol.datagram_layout import INDEX_PLACES, LETTERS, LONGEST, SHORTEST

# An instruction is queued whole while less than this waits; otherwise it is dropped whole.
LITTLE = 1 << 16
MOST = LITTLE + (1 << 22)


def is_datagram(text: bytes) -> bool:
    """Return True if this may be a datagram of roam."""
    return SHORTEST <= len(text) <= LONGEST and text[: len(LETTERS)] == LETTERS


class Carrier:
    """One end of a stream that carries datagrams."""

    def __init__(self, peer: socket.socket) -> None:
        self.peer = peer
        self.peer.setblocking(False)
        self.coming, self.going = bytearray(), bytearray()
        self.takes = False

    def fileno(self) -> int:
        """Return its descriptor."""
        return self.peer.fileno()

    def received(self) -> list[bytes] | None:
        """Return the complete datagrams that arrived; None at the end of file or after an invalid one."""
        chunk = read(self.peer.fileno())
        if chunk == b"":
            return None
        self.coming += chunk or b""
        found = []
        while len(self.coming) >= 2:
            length = int.from_bytes(self.coming[:2], "big")
            if not SHORTEST <= length <= LONGEST:
                return None
            if len(self.coming) < 2 + length:
                break
            found.append(bytes(self.coming[2 : 2 + length]))
            del self.coming[: 2 + length]
        return found

    def send(self, datagram: bytes) -> None:
        """Queue a datagram: all of an instruction or none."""
        if datagram[INDEX_PLACES] == b"\0\0":
            self.takes = len(self.going) <= LITTLE
        self.takes = self.takes and len(self.going) <= MOST
        if self.takes:
            self.going += len(datagram).to_bytes(2, "big") + datagram

    def flush(self) -> bool:
        """Write as much as the other end accepts, and return True while it is there."""
        return write(self.peer.fileno(), self.going)

    def close(self) -> None:
        """Close the stream."""
        self.peer.close()
