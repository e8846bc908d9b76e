"""Connections to two sockets of a session's folder that a relay forwards from its near end to its far one. No other sockets are forwarded.

Each has a number, which the near end chooses, and ends as soon as either end of it does; data read before that is still written. An end
sends at most a credit beyond the bytes that the other end's reader has consumed and acknowledged. Each transport between two relays
forwards connections of its own. Over a command they are frames of peer 0.
"""
from __future__ import annotations

import re
import socket
import struct
from collections.abc import Callable
from typing import Generic, TypeVar

from roam_live.common.errors import Fault
from roam_live.common.event_loop import Loop
from roam_live.common.io import read, write

TYPE_CHECKING = False
if TYPE_CHECKING:
    # Returns a connection to a socket by name; OSError if that fails.
    Opens = Callable[[str], socket.socket]

# The prefix of a socket's name for a window other than the relay's own.
LED = re.compile(r"^w/[1-9]\d?/", re.ASCII)

# The forwarded sockets, the one that shows a terminal's presence, and the most connections.
HOST, PANES = "host", "panes"
LONGEST_NAME = 32
MOST_FORWARDED = 64

# The most ending connections besides those, until the other end, or the reader here, has all of their data.
MOST_ENDING = 64

# The credit beyond the consumed bytes; the consumed bytes after which an acknowledgement follows; and the bytes read in advance.
CREDIT = 1 << 16
TAKEN_AFTER = 1 << 14
READ_AHEAD = 1 << 14

# Numbers are 1 to this, in sequence.
MOST_NUMBER = 65535

# Frames of peer 0 over a command. The first announces forwarding, which a far end does at the start. The others open a connection by name,
# contain its bytes, end it, and acknowledge consumed bytes.
FORWARDS, OPEN, BYTES, END, TAKEN = b"c\2", b"o", b"d", b"q", b"t"
NUMBER = struct.Struct(">cH")
TAKEN_COUNT = struct.Struct(">cHQ")
MOST_BYTES = 4096


class BadStream(Fault):
    """An invalid message of the other end about a connection."""


class ForwardedConnection:
    """One end of a forwarded connection: its local socket, the bytes to send, and the bytes to write to the socket."""

    def __init__(self, number: int) -> None:
        self.number = number
        # The name of its socket at the far end.
        self.socket_name = ""
        self.peer: socket.socket | None = None
        self.going, self.coming = bytearray(), bytearray()
        # The bytes sent and permitted; and the bytes received, consumed and acknowledged.
        self.went, self.allowed = 0, CREDIT
        self.came = self.taken = self.told = 0
        # True if its local socket has ended, and True if the other end's has.
        self.has_ended = self.is_over = False

    def room(self) -> int:
        """Return how many more bytes may be sent."""
        return max(0, self.allowed - self.went)

    def may_go(self) -> int:
        """Return how many bytes can be sent now."""
        return min(len(self.going), self.room())

    def is_taken_due(self) -> bool:
        """Return True if an acknowledgement is due."""
        return not self.is_over and not self.has_ended and self.taken >= self.told + TAKEN_AFTER

    def take(self, text: bytes) -> None:
        """Take bytes in order. After the end of its socket they are dropped."""
        self.came += len(text)
        if self.has_ended:
            self.taken += len(text)
        else:
            self.coming += text


One = TypeVar("One", bound=ForwardedConnection)


class Streams(Generic[One]):
    """The connections of one transport, at one end of it. The far end opens sockets by name; the near end passes in accepted connections.
    """

    def __init__(self, loop: Loop, opens: Opens | None = None) -> None:
        self.loop, self.opens = loop, opens
        self.all: dict[int, One] = {}
        self.last = 0

    def made(self, number: int) -> One:
        """Return a connection of a number."""
        raise NotImplementedError

    # ---- connections that begin here

    def has_room(self) -> bool:
        """Return True if one more connection may be forwarded."""
        return sum(not (one.has_ended or one.is_over) for one in self.all.values()) < MOST_FORWARDED

    def begin(self, name: str, peer: socket.socket, said: bytes = b"") -> bool:
        """Forward an accepted connection, with the bytes read so far, and return True if there is room."""
        if not self.has_room():
            return False
        self.make_room()
        while True:
            self.last = self.last % MOST_NUMBER + 1
            if self.last not in self.all:
                break
        one = self.all[self.last] = self.made(self.last)
        one.socket_name = name
        self.name(one, name)
        one.going += said
        self.join(one, peer)
        return True

    def name(self, one: One, name: str) -> None:
        """Send the other end the name of a connection's socket."""
        raise NotImplementedError

    def join(self, one: One, peer: socket.socket) -> None:
        """Let the loop read and write a connection's local socket."""
        one.peer = peer
        self.loop.add(peer, lambda: self.hear(one), lambda: self.write(one), has_more=lambda: one.coming,
                      hears=lambda: not one.is_over and len(one.going) < READ_AHEAD)

    def make_room(self) -> None:
        """Forget the oldest of too many ending connections."""
        ending = [one for one in self.all.values() if one.has_ended or one.is_over]
        for one in ending[: max(0, len(ending) - MOST_ENDING + 1)]:
            self.forget(one)

    # ---- local sockets

    def hear(self, one: One) -> None:
        """Read bytes from a local socket."""
        chunk = read(one.peer.fileno()) if one.peer else None
        if chunk == b"":
            self.end(one)
        else:
            one.going += chunk or b""

    def write(self, one: One) -> None:
        """Write as much as a local socket accepts. If the other end has ended, close it afterwards."""
        waiting = len(one.coming)
        if not one.peer or not write(one.peer.fileno(), one.coming):
            self.end(one)
            return
        one.taken += waiting - len(one.coming)
        if one.is_over and not one.coming:
            self.forget(one)

    def end(self, one: One) -> None:
        """Record the end of a local socket. Bytes read before are still sent."""
        self.part(one)
        if one.is_over:
            self.forget(one)
            return
        one.has_ended = True
        one.taken += len(one.coming)
        one.coming.clear()

    def part(self, one: One) -> None:
        """Close a connection's local socket."""
        if one.peer:
            self.loop.remove(one.peer)
            one.peer.close()
            one.peer = None

    def forget(self, one: One) -> None:
        """Drop a connection."""
        self.part(one)
        self.all.pop(one.number, None)

    # ---- all connections

    def end_all(self) -> None:
        """End all connections because of a change of transport, and inform the other end."""
        for one in list(self.all.values()):
            one.going.clear()
            if not one.has_ended:
                self.end(one)

    def has_named(self, name: str) -> bool:
        """Return True if a connection to a socket of this name is open here."""
        return any(one.socket_name == name and not (one.has_ended or one.is_over) for one in self.all.values())

    def end_named(self, name: str) -> None:
        """End the connections to a socket of a name, and inform the other end."""
        for one in [one for one in self.all.values() if one.socket_name == name and not one.has_ended]:
            one.going.clear()
            self.end(one)

    def close(self) -> None:
        """End all without a message."""
        for one in list(self.all.values()):
            self.forget(one)

    # ---- incoming

    def opened(self, one: One, name: str) -> None:
        """Connect a connection of the other end to a socket by name, and end it if that fails."""
        try:
            if name != HOST and LED.sub("", name, count=1) != PANES or not self.opens:
                raise FileNotFoundError(name)
            self.join(one, self.opens(name))
            one.socket_name = name
        except OSError:
            self.end(one)

    def came_end(self, one: One) -> None:
        """Record that a connection has ended at the other end. Bytes that arrived before are still written."""
        one.is_over = True
        one.going.clear()
        if not one.coming or not one.peer:
            self.forget(one)

    @staticmethod
    def came_taken(one: One, count: int) -> None:
        """Record the total that the reader at the other end has consumed."""
        if count > one.went:
            raise BadStream(f"the other end acknowledged {count} bytes of a connection's {one.went}")
        one.allowed = max(one.allowed, count + CREDIT)


class PipeStreams(Streams[ForwardedConnection]):
    """The connections over a command, as frames, each passed to a call with a flag for counted bytes."""

    def __init__(self, loop: Loop, tells: Callable[[bytes, bool], object], opens: Opens | None = None) -> None:
        super().__init__(loop, opens)
        self.tells = tells

    def made(self, number: int) -> ForwardedConnection:
        """Return a connection of a number."""
        return ForwardedConnection(number)

    def name(self, one: ForwardedConnection, name: str) -> None:
        """Inform the other end that a connection is opened."""
        self.tells(NUMBER.pack(OPEN, one.number) + name.encode(), False)

    def end(self, one: ForwardedConnection) -> None:
        """Record the end of a local socket. The other end is informed after the bytes read before."""
        super().end(one)
        self.tell_end(one)

    def tell_end(self, one: ForwardedConnection) -> None:
        """Report the end of a connection, after all its bytes are sent."""
        if one.has_ended and not one.going and self.all.get(one.number) is one:
            self.tells(NUMBER.pack(END, one.number), False)
            self.forget(one)

    def fill(self, most: int) -> int:
        """Send frames with at most so many bytes, and return how many bytes are left."""
        for one in list(self.all.values()):
            if one.is_taken_due():
                one.told = one.taken
                self.tells(TAKEN_COUNT.pack(TAKEN, one.number, one.taken), False)
            length = min(one.may_go(), MOST_BYTES - NUMBER.size)
            if 0 < length <= most:
                self.tells(NUMBER.pack(BYTES, one.number) + bytes(one.going[:length]), True)
                del one.going[:length]
                one.went += length
                most -= length
                # Its next turn comes after the others'.
                self.all[one.number] = self.all.pop(one.number)
            self.tell_end(one)
        return most

    def take(self, text: bytes) -> bool:
        """Take a frame, and return True if it belongs here; BadStream if it is invalid."""
        kind = text[:1]
        if kind not in (OPEN, BYTES, END, TAKEN):
            return False
        if len(text) < NUMBER.size:
            raise BadStream("a connection's frame is truncated")
        number: int = NUMBER.unpack_from(text)[1]
        rest, one = text[NUMBER.size :], self.all.get(number)
        if kind == OPEN:
            self.take_open(number, rest)
        elif kind == TAKEN and len(text) != TAKEN_COUNT.size or kind == END and rest or kind == BYTES and not rest:
            raise BadStream("a connection's frame has an invalid length")
        elif one and kind == BYTES:
            self.take_bytes(one, rest)
        elif one and kind == END:
            self.came_end(one)
        elif one:
            self.came_taken(one, TAKEN_COUNT.unpack(text)[2])
        return True

    def take_open(self, number: int, name: bytes) -> None:
        """Take a connection that the other end begins; above the limit it is ended at once."""
        if not self.opens:
            raise BadStream("the far end opened a connection")
        if number in self.all or not number or not 0 < len(name) <= LONGEST_NAME:
            raise BadStream("an invalid connection was opened")
        is_room = self.has_room()
        self.make_room()
        one = self.all[number] = self.made(number)
        if is_room:
            self.opened(one, name.decode("ascii", "replace"))
        else:
            self.end(one)

    @staticmethod
    def take_bytes(one: ForwardedConnection, text: bytes) -> None:
        """Take bytes of a connection; more than the credit is no error of a reader."""
        if one.came + len(text) > one.taken + CREDIT:
            raise BadStream("the other end exceeded a connection's window")
        one.take(text)
