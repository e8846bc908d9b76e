"""Forwarded connections over a UDP path: their bytes as chunks in encrypted packets. Lost ones are sent again, and the receiver orders
them.

The first bytes of a connection are the name of its socket and LF, and a chunk without bytes is its end.
"""
from __future__ import annotations

import contextlib
import struct
from collections import OrderedDict, deque, namedtuple

from roam_live.common.event_loop import Loop
from roam_live.relay.forwarding import CREDIT, LONGEST_NAME, TAKEN_COUNT, BadStream, ForwardedConnection, Streams

TYPE_CHECKING = False
if TYPE_CHECKING:
    from roam_live.relay.forwarding import Opens

# A connection's bytes, with their offset; and the number consumed by its reader.
STREAM_KIND, TAKEN_KIND = b"s", b"t"
STREAM = struct.Struct(">cHQH")
LONGEST_CHUNK = 1080

# The most chunks of one in flight, from the first unacknowledged one on.
MOST_CHUNKS = 64

# The most ended connections whose numbers are remembered.
MOST_ENDED = 1024


class PathForwardedConnection(ForwardedConnection):
    """One end of a connection over a path, whose chunks may be lost and reordered."""

    def __init__(self, number: int) -> None:
        super().__init__(number)
        # The sent chunks from the first unacknowledged one on: bytes, or None for acknowledged ones; and a flag for the end among them.
        self.sent: OrderedDict[int, bytes | None] = OrderedDict()
        self.has_sent_end = False
        # The consumed bytes, as far as the other end has confirmed; the chunks after a gap; and a flag for the complete name.
        self.known = 0
        self.parts: dict[int, bytes] = {}
        self.is_named = False

    def may_go(self) -> int:
        """Return how many bytes can be sent now."""
        return super().may_go() if len(self.sent) < MOST_CHUNKS else 0

    def is_end_due(self) -> bool:
        """Return True if its end may be sent now."""
        return self.has_ended and not self.going and not self.has_sent_end and len(self.sent) < MOST_CHUNKS

    def arrived(self, offset: int) -> None:
        """Record that a chunk has arrived."""
        if offset in self.sent:
            self.sent[offset] = None
        while self.sent and next(iter(self.sent.values())) is None:
            self.sent.popitem(last=False)

    def is_said(self) -> bool:
        """Return True if everything has arrived, including its end."""
        return self.has_sent_end and not self.sent

    def fed(self, offset: int, text: bytes) -> list[bytes]:
        """Take a chunk, and return those that are now in order.

        Bytes after the end, duplicates, and those beyond the credit are dropped.
        """
        if not self.came <= offset <= self.taken + CREDIT - len(text) or len(self.parts) >= MOST_CHUNKS:
            return []
        self.parts[offset] = text
        found = []
        place = self.came
        while place in self.parts:
            found.append(self.parts.pop(place))
            place += len(found[-1])
            if not found[-1]:
                self.parts.clear()
        return found


class StreamChunk(namedtuple("StreamChunk", "kind number offset")):
    """A chunk of a connection in flight, by its offset, or the number of bytes consumed by its reader."""

    kind: bytes
    number: int
    offset: int


class PathStreams(Streams[PathForwardedConnection]):
    """The connections over a path, as chunks: new ones, repeated ones, and received ones."""

    def __init__(self, loop: Loop, opens: Opens | None = None) -> None:
        super().__init__(loop, opens)
        # Ended connections, of which a chunk may still come; and the lost chunks to send again.
        self.ended: OrderedDict[int, None] = OrderedDict()
        self.again: deque[StreamChunk] = deque()

    def made(self, number: int) -> PathForwardedConnection:
        """Return a connection of a number."""
        return PathForwardedConnection(number)

    # ---- outgoing

    def name(self, one: PathForwardedConnection, name: str) -> None:
        """Send the other end the name of a connection's socket, as its first bytes."""
        one.going += f"{name}\n".encode()
        one.is_named = True

    def end(self, one: PathForwardedConnection) -> None:
        """Record the end of a local socket. If the other end does not know the connection yet, nothing more is needed."""
        super().end(one)
        if not self.opens and not one.went:
            self.forget(one)

    def forget(self, one: PathForwardedConnection) -> None:
        """Drop a connection, and remember its number."""
        super().forget(one)
        self.ended[one.number] = None
        while len(self.ended) > MOST_ENDED:
            self.ended.popitem(last=False)

    def waits(self) -> bool:
        """Return True if a chunk may be sent."""
        return bool(self.again) or any(one.is_taken_due() or one.may_go() or one.is_end_due() for one in self.all.values())

    def next_chunk(self, room: int) -> StreamChunk | None:
        """Return the next chunk for a packet with so much room, lost ones first; None if there is none."""
        while self.again and self.length(self.again[0]) <= room:
            chunk = self.again.popleft()
            if self.length(chunk):
                return chunk
        for one in list(self.all.values()):
            if one.is_taken_due() and room >= TAKEN_COUNT.size:
                one.told = one.taken
                return StreamChunk(TAKEN_KIND, one.number, one.told)
            length = min(one.may_go(), room - STREAM.size, LONGEST_CHUNK)
            if length > 0 or one.is_end_due() and room >= STREAM.size:
                # Its next turn comes after the others'.
                self.all[one.number] = self.all.pop(one.number)
                return self.begun_chunk(one, max(0, length))
        return None

    @staticmethod
    def begun_chunk(one: PathForwardedConnection, length: int) -> StreamChunk:
        """Return a new chunk of so many bytes, or the end."""
        offset = one.went
        one.sent[offset] = bytes(one.going[:length])
        del one.going[:length]
        one.went += length
        one.has_sent_end = not length
        return StreamChunk(STREAM_KIND, one.number, offset)

    def text(self, chunk: StreamChunk) -> bytes | None:
        """Return the bytes of a chunk that is still current; else None."""
        one = self.all.get(chunk.number)
        if not one or one.is_over:
            return None
        if chunk.kind == TAKEN_KIND:
            return b"" if chunk.offset == one.told > one.known else None
        return one.sent.get(chunk.offset)

    def length(self, chunk: StreamChunk) -> int:
        """Return the bytes that a chunk takes in a packet; 0 if it is obsolete."""
        text = self.text(chunk)
        return 0 if text is None else TAKEN_COUNT.size if chunk.kind == TAKEN_KIND else STREAM.size + len(text)

    def frame(self, chunk: StreamChunk) -> bytes:
        """Return the frame of a chunk in a packet."""
        if chunk.kind == TAKEN_KIND:
            return TAKEN_COUNT.pack(*chunk)
        text = self.text(chunk) or b""
        return STREAM.pack(*chunk, len(text)) + text

    def lost(self, chunk: StreamChunk) -> None:
        """Record that a chunk is presumed lost."""
        if self.length(chunk):
            self.again.append(chunk)

    def arrived(self, chunk: StreamChunk) -> None:
        """Record that a chunk has arrived."""
        one = self.all.get(chunk.number)
        if one and chunk.kind == TAKEN_KIND:
            one.known = max(one.known, chunk.offset)
        elif one:
            one.arrived(chunk.offset)
            if one.is_said():
                self.forget(one)

    # ---- incoming

    def take(self, kind: bytes, number: int, offset: int, text: bytes) -> None:
        """Take a frame of a packet; an invalid one is dropped."""
        one = self.all.get(number)
        if kind == TAKEN_KIND:
            with contextlib.suppress(BadStream):
                if one:
                    self.came_taken(one, offset)
            return
        one = one or self.begun_there(number)
        if not one or one.is_over:
            return
        for part in one.fed(offset, text):
            if part:
                self.took(one, part)
            else:
                self.came_end(one)

    def begun_there(self, number: int) -> PathForwardedConnection | None:
        """Return a connection that the other end begins with its first chunk; above the limit end it at once."""
        if not self.opens or not number or number in self.ended:
            return None
        nameless = next((one for one in self.all.values() if not one.is_named and not one.has_ended), None)
        if not self.has_room() and nameless:
            self.forget(nameless)
        is_room = self.has_room()
        self.make_room()
        one = self.all[number] = self.made(number)
        if not is_room:
            self.end(one)
        return one

    def took(self, one: PathForwardedConnection, text: bytes) -> None:
        """Take bytes in order: the first are the name of the socket."""
        one.take(text)
        if one.is_named or one.has_ended:
            return
        name, line_end, rest = bytes(one.coming[: LONGEST_NAME + 1]).partition(b"\n")
        if line_end or len(name) > LONGEST_NAME:
            one.is_named = True
            one.taken += len(name) + len(line_end)
            del one.coming[: len(name) + len(line_end)]
            self.opened(one, name.decode("ascii", "replace"))

    def came_end(self, one: PathForwardedConnection) -> None:
        """Record that a connection has ended at the other end: nothing more of it is sent there."""
        one.sent.clear()
        super().came_end(one)
