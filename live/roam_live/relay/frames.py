"""The messages of a relay's two ends over a stream: datagrams, each with the number of its peer.

Each end begins with a greeting, a line with the session if known. Everything after it is compressed by zlib so that each complete frame can
be read: its length, the number of the peer, and the datagram.

Peer 0 is the other end itself. Its frames acknowledge bytes and report the end of the session. They forward connections if the far end
announced that. They contain large instructions, packed by LZMA, if both ends announced that.

The bytes in flight are limited. The rest waits here, and not in the stream, so that old datagrams can be dropped.
"""
from __future__ import annotations

import hashlib
import os
import re
import struct
import time
import zlib
from collections import deque
from collections.abc import Callable, Iterator

from roam_live.common.errors import Fault
from roam_live.common.io import read, write
from roam_live.protocol.datagram_layout import (FRAGMENT_BYTES, FRAGMENT_LAYOUT, INSTRUCTION_PLACES, LETTERS, LONGEST, SHORTEST)
from roam_live.protocol.datagram_stream import is_datagram
from roam_live.relay.batches import LARGE, LONGEST_TEXT, has_lzma, joined, pack_large, parted, saying, unpack_large
from roam_live.relay.forwarding import BYTES, FORWARDS, PipeStreams

# Version 1 had no compression.
VERSION = 2
GREETING = re.compile(rb"(?:^|\n)roam-relay (\d{1,9}) ([0-9a-f]{1,16}|-)\r?\n")
HEADER = struct.Struct(">HH")
COUNT = struct.Struct(">cQ")

# The kinds of messages between the ends, and their most bytes. Unknown kinds are ignored.
HAD, ENDED = b"h", b"e"
MOST_TOLD = 4097

# The end of a session whose server was killed.
KILLED = ENDED + b"k"

# The messages about an encrypted path in addition to the stream. The near end requests one, with its name. The far end answers with its
# port, the key and its address. Over the path alone, the near end reports that it leaves.
WANTS, ENCRYPTED, LEAVES = b"w", b"s", b"l"

# The messages about windows: the near end announces support, and the far end reports all of them.
WINDOWS = b"n"

# The announcement that an end can unpack LZMA, if its Python has it. Then a frame of packed data: its peer, and a flag for the last one of
# an instruction.
UNPACKS, PACKED = b"c\1", b"x"
PACKED_HEAD = struct.Struct(">cHB")

# The most bytes in flight, and the received bytes after which an acknowledgement follows.
WINDOW = 1 << 17
TOLD_AFTER = 1 << 14

# The most bytes that wait for the stream: the largest instruction fits. Each datagram counts with an overhead, so that many small ones have
# a bounded cost.
WAITING_LIMIT = 1 << 22
OVERHEAD = 128

# The most bytes that are unpacked at once.
UNPACKED = 1 << 16

# Other bytes before the greeting, such as a shell's output at its start.
NOISE_LIMIT = 1 << 16

# The most seconds between two messages of an end; and seconds for the rest of a large instruction to arrive, so that it is packed whole.
HEARTBEAT = 3.0
REST = 0.1


class BadWords(Fault):
    """An invalid message of the other end."""


def greeting(session: str) -> bytes:
    """Return the first line of an end; the session is `-` if unknown."""
    return f"roam-relay {VERSION} {session}\n".encode()


def read_greeting(source: int) -> str:
    """Return the session in the other end's greeting. Read it byte by byte, since the bytes after it belong to the next reader."""
    line = b""
    while not line.endswith(b"\n") and len(line) < 64:
        letter = os.read(source, 1)
        if not letter:
            raise Fault("the other end has left")
        line += letter
    return session_of(GREETING.match(line))


def session_of(found: re.Match[bytes] | None) -> str:
    """Return the session in a greeting."""
    if not found:
        raise BadWords("the other end is not a relay")
    if int(found[1]) != VERSION:
        age = "an older" if int(found[1]) < VERSION else "a newer"
        raise BadWords(f"the other end is of {age} roam: its relay has version {int(found[1])}, and this one version {VERSION}")
    return found[2].decode()


def demand_length(peer: int, length: int) -> None:
    """Refuse a frame that is empty, or whose length no message has."""
    if length == 0:
        raise BadWords("the other end sent an empty frame")
    least, most = (SHORTEST, LONGEST) if peer else (1, MOST_TOLD)
    if not least <= length <= most:
        raise BadWords(f"the other end sent a frame of {length} bytes; {least} to {most} are allowed")


def demand_told(text: bytes) -> None:
    """Refuse a message without the length of its kind. An unknown kind is no error."""
    kind = text[:1]
    is_wrong = kind == HAD and len(text) != COUNT.size or kind == ENDED and text not in (ENDED, KILLED)
    if is_wrong or kind == PACKED and len(text) <= PACKED_HEAD.size:
        raise BadWords(f"the other end sent invalid data: {text[:16]!r}")


def instruction_of(datagram: bytes) -> bytes:
    """Return the common bytes of an instruction's fragments; nothing if this is no datagram of roam."""
    return bytes(datagram[INSTRUCTION_PLACES]) if datagram[: len(LETTERS)] == LETTERS else b""


def is_last(datagram: bytes) -> bool:
    """Return True if a datagram is the last of its instruction."""
    index, count = FRAGMENT_LAYOUT.unpack_from(datagram)
    return bool(index + 1 == count)


def cost(datagram: bytes) -> int:
    """Return the counted size of a waiting datagram."""
    return len(datagram) + OVERHEAD


class Waiting:
    """Datagrams that wait for a stream.

    As with UDP, some are lost. Among the instructions for one peer, the partly sent one stays, and the newest one, which contains the
    others. If that is not enough, the oldest datagrams are dropped.
    """

    def __init__(self) -> None:
        self.datagrams: deque[tuple[int, bytes]] = deque()
        self.size = 0
        self.begun: dict[int, bytes] = {}
        self.newest: dict[int, bytes] = {}

    def add(self, peer: int, datagram: bytes) -> None:
        """Append a datagram."""
        instruction = instruction_of(datagram)
        if instruction and instruction != self.newest.get(peer):
            self.newest[peer] = instruction
            self._keep(lambda other, one: other != peer or instruction_of(one) in (b"", self.begun.get(peer)))
        self.datagrams.append((peer, datagram))
        self.size += cost(datagram)
        while self.size > WAITING_LIMIT:
            self.size -= cost(self.datagrams.popleft()[1])

    def take(self) -> tuple[int, bytes]:
        """Remove and return the oldest datagram with its peer."""
        peer, datagram = self.datagrams.popleft()
        self.size -= cost(datagram)
        self.begun[peer] = instruction_of(datagram)
        return peer, datagram

    def first_whole(self) -> tuple[int, list[bytes]]:
        """Return the oldest datagram's peer and the datagrams of its instruction, if all of them are here; else none."""
        if not self.datagrams:
            return 0, []
        peer, datagram = self.datagrams[0]
        first = instruction_of(datagram)
        if not first or FRAGMENT_LAYOUT.unpack_from(datagram)[0]:
            return 0, []
        if is_last(datagram):
            return peer, [datagram]
        found = [one for other, one in self.datagrams if other == peer and instruction_of(one) == first]
        return (peer, found) if is_last(found[-1]) else (0, [])

    def first_begun(self) -> tuple[int, bytes] | None:
        """Return the oldest datagram's peer and instruction, if it is the first of a large one whose rest may still come; else None."""
        if not self.datagrams:
            return None
        peer, datagram = self.datagrams[0]
        first = instruction_of(datagram)
        if not first or self.newest.get(peer) != first:
            return None
        index, count = FRAGMENT_LAYOUT.unpack_from(datagram)
        return (peer, first) if index == 0 and (count - 1) * FRAGMENT_BYTES > LARGE else None

    def drop_first(self) -> None:
        """Drop the oldest datagram's instruction."""
        peer, datagram = self.take()
        if not is_last(datagram):
            self._drop(peer, instruction_of(datagram))

    def take_whole(self, may_take: Callable[[int, int], bool]) -> tuple[int, list[bytes]]:
        """Remove the oldest instruction that is complete, or gets no more datagrams, and that `may_take` accepts by peer and size.

        Return its peer and its datagrams, none if there is no such instruction.
        """
        for peer, ours in self._instructions().items():
            first = next(iter(ours))
            found = ours[first]
            if (len(ours) > 1 or is_last(found[-1])) and may_take(peer, sum(map(len, found))):
                self._drop(peer, first)
                return peer, found
        return 0, []

    def _drop(self, peer: int, instruction: bytes) -> None:
        """Drop an instruction of a peer."""
        self._keep(lambda other, one: other != peer or instruction_of(one) != instruction)

    def _instructions(self) -> dict[int, dict[bytes, list[bytes]]]:
        """Return the waiting datagrams by peers and instructions."""
        found: dict[int, dict[bytes, list[bytes]]] = {}
        for peer, datagram in self.datagrams:
            found.setdefault(peer, {}).setdefault(instruction_of(datagram), []).append(datagram)
        return found

    def forget(self, peer: int) -> None:
        """Drop the datagrams for a peer."""
        self._keep(lambda other, _: other != peer)
        for known in (self.begun, self.newest):
            known.pop(peer, None)

    def _keep(self, is_kept: Callable[[int, bytes], bool]) -> None:
        """Drop the datagrams that `is_kept` rejects."""
        self.datagrams = deque(entry for entry in self.datagrams if is_kept(*entry))
        self.size = sum(cost(datagram) for _, datagram in self.datagrams)


class RelayStream:
    """One end of a stream: its received and its outgoing frames."""

    def __init__(self, source: int, target: int, session: str) -> None:
        self.source, self.target = source, target
        self.session: str | None = None
        self.coming, self.going = bytearray(), bytearray(greeting(session))
        self.packer, self.unpacker = zlib.compressobj(), zlib.decompressobj()
        self.sent = self.acknowledged = self.had = self.told = 0
        self.heard = self.spoke = self.moved = self.told_at = time.monotonic()
        # Flags: the other end can unpack LZMA, and knows that this end can. Then the packed part of an instruction so far; and for each
        # peer the hash of its last message, and the byte count at its end.
        self.packs, self.has_begun = False, not has_lzma()
        self.packed = bytearray()
        self.said: dict[int, tuple[bytes, int]] = {}
        # The large instruction whose rest is awaited, and its deadline.
        self.awaited: tuple[int, bytes] | None = None
        self.awaited_until = 0.0
        # Its forwarded connections; and a flag for the other end's announcement of them: None before its first message.
        self.streams: PipeStreams | None = None
        self.forwards: bool | None = None

    def is_silent(self, seconds: float) -> bool:
        """Return True if for so long nothing has arrived, or no sent data was acknowledged: a stream may be stuck in one direction alone.
        """
        return time.monotonic() > self.silent_at(seconds)

    def silent_at(self, seconds: float) -> float:
        """Return the moment at which it becomes silent if nothing changes."""
        return seconds + (min(self.heard, self.moved) if self.sent > self.acknowledged else self.heard)

    def due_at(self) -> float:
        """Return the moment of the next message: a heartbeat, an acknowledgement, or an instruction that waited for its rest."""
        is_awaited = self.awaited is not None and time.monotonic() < self.awaited_until
        return min(self.awaited_until, self._heartbeat_at()) if is_awaited else self._heartbeat_at()

    def _heartbeat_at(self) -> float:
        """Return the moment of the next heartbeat or acknowledgement."""
        return HEARTBEAT + (min(self.spoke, self.told_at) if self.had > self.told else self.spoke)

    def tell(self, peer: int, text: bytes) -> None:
        """Send a frame."""
        self.going += self.packer.compress(HEADER.pack(len(text), peer) + text) + self.packer.flush(zlib.Z_SYNC_FLUSH)
        self.spoke = time.monotonic()

    def is_owed(self) -> bool:
        """Return True if an acknowledgement is due."""
        return self.had > self.told

    def resume(self) -> None:
        """Send a heartbeat now, and restart the silence timer, after a pause of the stream."""
        self.heard = self.moved = time.monotonic()
        self.spoke = self.told_at = self.heard - HEARTBEAT

    def fill(self, waiting: Waiting) -> None:
        """Take waiting datagrams, as many as may be in flight."""
        if self.session and not self.has_begun:
            self.has_begun = True
            self.tell(0, UNPACKS)
        if self.had - self.told >= TOLD_AFTER or time.monotonic() >= self._heartbeat_at():
            self.told, self.told_at = self.had, time.monotonic()
            self.tell(0, COUNT.pack(HAD, self.had))
        if self.streams and self.has_room():
            self.streams.fill(MOST_TOLD)
        while waiting.datagrams and self.has_room():
            peer, texts = waiting.first_whole()
            if not texts and self._awaits(waiting):
                break
            if texts and self._is_repeat(peer, texts):
                waiting.drop_first()
            elif self.packs and sum(map(len, texts)) > LARGE:
                waiting.drop_first()
                self._tell_packed(peer, texts)
            else:
                self._tell_counted(*waiting.take())

    def has_room(self) -> bool:
        """Return True if more bytes may be in flight."""
        return self.session is not None and len(self.going) < TOLD_AFTER and self.sent - self.acknowledged < WINDOW

    def tell_forwarded(self, text: bytes, is_counted: bool) -> None:
        """Send a frame of a forwarded connection."""
        if is_counted:
            self._tell_counted(0, text)
        else:
            self.tell(0, text)

    def _awaits(self, waiting: Waiting) -> bool:
        """Return True if the oldest instruction waits for its rest, to be packed whole."""
        begun = waiting.first_begun() if self.packs else None
        if begun != self.awaited:
            self.awaited, self.awaited_until = begun, time.monotonic() + REST
        return begun is not None and time.monotonic() < self.awaited_until

    def _is_repeat(self, peer: int, texts: list[bytes]) -> bool:
        """Return True if an instruction repeats the one in flight to its peer word for word. Record its contents."""
        said = hashlib.blake2b(saying(texts), digest_size=16).digest()
        before, count = self.said.get(peer, (b"", 0))
        if said == before and self.acknowledged < count:
            return True
        self.said[peer] = said, self.sent + sum(map(len, texts))
        return False

    def _tell_packed(self, peer: int, texts: list[bytes]) -> None:
        """Send a large instruction, packed, as frames with a flag in the last one."""
        packed, length = pack_large(joined(texts)), MOST_TOLD - PACKED_HEAD.size
        for begin in range(0, len(packed), length):
            self._tell_counted(0, PACKED_HEAD.pack(PACKED, peer, begin + length >= len(packed)) + packed[begin : begin + length])
        self.said[peer] = self.said[peer][0], self.sent

    def _tell_counted(self, peer: int, text: bytes) -> None:
        """Send a frame whose bytes the other end acknowledges."""
        if self.sent == self.acknowledged:
            self.moved = time.monotonic()
        self.sent += len(text)
        self.tell(peer, text)

    def flush(self) -> bool:
        """Write as much as the stream accepts, and return True while the other end is there."""
        return write(self.target, self.going)

    def received(self) -> Iterator[tuple[int, bytes]] | None:
        """Return an iterator over the received frames, each a peer and its contents; None if the other end is gone.

        Compressed data may expand a thousandfold, so each frame is made on demand. An exception comes in its frame's place.
        """
        chunk = read(self.source)
        if chunk == b"":
            return None
        if chunk:
            self.heard = time.monotonic()
        return self._unpacked((chunk or b"") if self.session else self._greeted(chunk or b""))

    def _unpacked(self, chunk: bytes) -> Iterator[tuple[int, bytes]]:
        """Yield the frames that a chunk of compressed data completes."""
        while chunk:
            try:
                self.coming += self.unpacker.decompress(chunk, UNPACKED)
            except zlib.error as fault:
                raise BadWords("the other end sent invalid data") from fault
            chunk = self.unpacker.unconsumed_tail
            yield from self._frames()
            if self.unpacker.eof:
                raise BadWords("the other end's data ended, but the other end did not")

    def _acknowledge(self, count: int) -> None:
        """Handle an acknowledgement of so many bytes."""
        if count > self.sent:
            raise BadWords(f"the other end acknowledged {count} bytes of {self.sent}")
        if count > self.acknowledged:
            self.acknowledged, self.moved = count, time.monotonic()
            self.said = {peer: said for peer, said in self.said.items() if said[1] > count}

    def _greeted(self, chunk: bytes) -> bytes:
        """Return the bytes after the greeting, once it is complete. A shell's output before it is dropped."""
        self.coming += chunk
        found = GREETING.search(self.coming)
        if not found:
            if len(self.coming) > NOISE_LIMIT:
                raise BadWords("the other end is not a relay")
            return b""
        self.session = session_of(found)
        rest = bytes(self.coming[found.end() :])
        self.coming.clear()
        return rest

    def _frames(self) -> Iterator[tuple[int, bytes]]:
        """Yield the complete frames, and remove them from the input."""
        begin = 0
        while begin + HEADER.size <= len(self.coming):
            length, peer = HEADER.unpack_from(self.coming, begin)
            demand_length(peer, length)
            end = begin + HEADER.size + length
            if end > len(self.coming):
                break
            text = bytes(self.coming[begin + HEADER.size : end])
            begin = end
            self.forwards = text == FORWARDS if self.forwards is None else self.forwards
            if peer:
                self.had += length
                yield peer, text
                continue
            demand_told(text)
            if text[:1] == HAD:
                self._acknowledge(COUNT.unpack(text)[1])
            elif text[:1] == PACKED:
                self.had += length
                yield from self._packed(text)
            elif text == UNPACKS:
                self.packs = has_lzma()
            else:
                self.had += length if text[:1] == BYTES else 0
                yield peer, text
        del self.coming[:begin]

    def _packed(self, text: bytes) -> Iterator[tuple[int, bytes]]:
        """Yield the datagrams of an instruction that a frame of packed data completes."""
        _, peer, is_last_one = PACKED_HEAD.unpack_from(text)
        self.packed += text[PACKED_HEAD.size :]
        if len(self.packed) > LONGEST_TEXT:
            raise BadWords(f"the other end sent more than {LONGEST_TEXT} bytes of one instruction")
        if not is_last_one:
            return
        unpacked = unpack_large(bytes(self.packed))
        self.packed.clear()
        found = None if unpacked is None else parted(unpacked)
        if found is None or not all(map(is_datagram, found)):
            raise BadWords("the other end sent invalid compressed data")
        yield from ((peer, one) for one in found)
