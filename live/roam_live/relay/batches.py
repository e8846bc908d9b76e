"""Batches: instructions as the contents of encrypted packets.

The datagrams of an instruction are useful only together. So they are joined, compressed, and cut to chunks of a packet's size, of which
only lost ones are sent again.

Each peer has its own batches; those of one direction are numbered from 1. A newer one contains everything that earlier ones of the peer
did, so once it is complete they are obsolete. It is compressed relative to its base, an earlier batch that the other end is known to have.
Batches of peer 0 belong to the relays themselves: each contains the whole state of one end.
"""
from __future__ import annotations

import hashlib
import importlib.util
import struct
import zlib
from collections import namedtuple
from collections.abc import Sequence

from roam_live.protocol.datagram_layout import (ACT_COUNT_PLACES, BARE_BYTES, CURSOR_END, HEADER_BYTES, KIND_PLACE, NUMBERS_END,
                                                TO_CLIENT)
from roam_live.protocol.datagram_stream import is_datagram

TYPE_CHECKING = False
if TYPE_CHECKING:
    from typing import Any

# The header of a chunk in a packet: its kind, peer, batch, index, count, and length. One kind is acknowledged and sent again after a loss;
# the other is sent once.
CHUNK = struct.Struct(">cHIHHH")
CHUNK_KIND, ONCE_KIND = b"p", b"o"
# A peer's newest complete batch; 0 if a base is missing.
WHOLE = struct.Struct(">cHI")
WHOLE_KIND = b"w"
# The start of a batch: its base, 0 for none, or the mark of a large one.
BASE = struct.Struct(">I")
LARGE_BASE = 0xFFFFFFFF
LENGTH = struct.Struct(">H")

CHUNK_LENGTH = 1080
MOST_CHUNKS = 4096
MOST_BATCHES = 1 << 31

# Limits of an unpacked batch: of an instruction, and of the state of an end in peer 0.
LONGEST_TEXT = 5 << 20
LONGEST_STATE = 1 << 14

# The size of zlib's dictionary. A text longer than LARGE has little in common with earlier ones: LZMA at its quickest takes a quarter of
# the time for it, and two thirds of the bytes.
DICTIONARY = 1 << 15
LARGE = 4096
LZMA2 = 0x21
FILTERS: list[dict[str, Any]] = [{"id": LZMA2, "preset": 0}]

# The largest distance to a base. Texts that may become one are stored, up to so many texts and bytes for each peer; the end that chooses
# the base stores fewer.
OLDEST_BASE = 48
MOST_TEXTS = 64
KEPT_GOING, KEPT_COMING = 1 << 18, 1 << 19

# Limits: batches of several chunks in flight to a peer; incomplete batches of a peer, and their bytes for all peers. A chunk counts with an
# overhead, so that many small or empty ones have a bounded cost.
MOST_LARGE = 2
MOST_PARTS = 4
KEPT_PARTS = 1 << 24
OVERHEAD = 64

# The most peers known each way, the limit of a relay's clients; further ones lose only a base.
MOST_PEERS = 257

# A longer text is always sent with acknowledgement, and recognized by its hash.
MOST_ONCE = 1000

# The ways to send an instruction: now and until it has arrived; only once; or once unless a newer one comes in a moment.
NOW, ONCE, SOON = "now", "once", "soon"


class Chunk(namedtuple("Chunk", "peer number index")):
    """A chunk of a batch in flight."""

    peer: int
    number: int
    index: int


def haste(texts: Sequence[bytes], before: bytes) -> str:
    """Return the way to send an instruction after the previous one to the same peer, from `saying`.

    The cores repeat some lost messages themselves: the number that a client shows, and that it is alive. A server's message without visible
    news counts too: it is alive, or took acts, and mostly a visible effect follows a moment later.
    """
    said = saying(texts)
    if not before or len(said) > MOST_ONCE:
        return NOW
    if texts[0][KIND_PLACE] != TO_CLIENT:
        return NOW if said[ACT_COUNT_PLACES] != b"\0\0" else ONCE
    if said == before:
        return ONCE
    is_bare = len(said) <= BARE_BYTES and not any(said[CURSOR_END:])
    return SOON if is_bare and said[NUMBERS_END:CURSOR_END] == before[NUMBERS_END:CURSOR_END] else NOW


def saying(texts: Sequence[bytes]) -> bytes:
    """Return the contents of an instruction without its numbers; for a long one its beginning and its hash."""
    said = b"".join(text[HEADER_BYTES:] for text in texts)
    return said if len(said) <= MOST_ONCE else said[:MOST_ONCE] + hashlib.blake2b(said).digest()


def joined(texts: Sequence[bytes]) -> bytes:
    """Return texts, each after its length."""
    return b"".join(LENGTH.pack(len(text)) + text for text in texts)


def parted(text: bytes) -> list[bytes] | None:
    """Return the joined texts, none of them empty; None if the form is invalid."""
    found, begin = [], 0
    while begin < len(text):
        if begin + LENGTH.size > len(text):
            return None
        end = begin + LENGTH.size + LENGTH.unpack_from(text, begin)[0]
        if end > len(text) or end == begin + LENGTH.size:
            return None
        found.append(text[begin + LENGTH.size : end])
        begin = end
    return found


def has_lzma() -> bool:
    """Return True if this Python was built with LZMA."""
    return importlib.util.find_spec("_lzma") is not None


def pack_large(text: bytes) -> bytes:
    """Return a large text, compressed."""
    import lzma

    return lzma.compress(text, lzma.FORMAT_RAW, filters=FILTERS)


def unpack_large(packed: bytes, longest: int = LONGEST_TEXT) -> bytes | None:
    """Return a large text, unpacked; None if it is invalid or too long."""
    import lzma

    return unpacked_by(lzma.LZMADecompressor(lzma.FORMAT_RAW, filters=FILTERS), packed, longest, (lzma.LZMAError, EOFError))


def unpacked_by(unpacker: Any, packed: bytes, longest: int, faults: tuple[type[Exception], ...]) -> bytes | None:
    """Return the output of an unpacker; None if the input is invalid, incomplete, or too long."""
    try:
        found: bytes = unpacker.decompress(packed, longest)
    except faults:
        return None
    return found if unpacker.eof else None


def packed_batch(text: bytes, number: int, base: bytes) -> bytes:
    """Return a batch of a text, compressed relative to its base if it has one, with the base's number in front."""
    if len(text) > LARGE:
        return BASE.pack(LARGE_BASE) + pack_large(text)
    packer = zlib.compressobj(6, zlib.DEFLATED, -zlib.MAX_WBITS, 9, zlib.Z_DEFAULT_STRATEGY, *([base] if base else []))
    return BASE.pack(number if base else 0) + packer.compress(text) + packer.flush()


def unpacked_batch(packed: bytes, texts: dict[int, bytes], longest: int) -> bytes | None:
    """Return the text of a batch whose base is among these texts; None if it is invalid or too long."""
    if len(packed) < BASE.size:
        return None
    number = BASE.unpack_from(packed)[0]
    if number == LARGE_BASE:
        return unpack_large(packed[BASE.size :], longest)
    if number and number not in texts:
        return None
    unpacker = zlib.decompressobj(-zlib.MAX_WBITS, *([texts[number]] if number else []))
    return unpacked_by(unpacker, packed[BASE.size :], longest, (zlib.error,))


def kept_texts(texts: dict[int, bytes], most: int, size: int) -> dict[int, bytes]:
    """Return the newest texts, up to limits of number and size, and at least the newest."""
    found: dict[int, bytes] = {}
    left = size
    for number in sorted(texts, reverse=True)[:most]:
        left -= len(texts[number])
        if left < 0 and found:
            break
        found[number] = texts[number]
    return found


class InstructionBatch:
    """A batch in flight."""

    def __init__(self, said: bytes, packed: bytes, is_once: bool) -> None:
        self.said, self.is_once = said, is_once
        self.chunks = [packed[k : k + CHUNK_LENGTH] for k in range(0, len(packed), CHUNK_LENGTH)]
        self.missing = set(range(len(self.chunks)))
        self.has_base = BASE.unpack_from(packed)[0] not in (0, LARGE_BASE)


class Outgoing:
    """The outgoing batches of a peer."""

    def __init__(self) -> None:
        self.said = b""
        self.base, self.base_text = 0, b""
        # The candidates for the base, and the batches in flight.
        self.texts: dict[int, bytes] = {}
        self.going: dict[int, InstructionBatch] = {}

    def may_begin(self) -> bool:
        """Return True if one more large batch may be sent. A third one in flight would only delay the other two."""
        return sum(len(batch.chunks) > 1 and bool(batch.missing) for batch in self.going.values()) < MOST_LARGE

    def begun(self, said: bytes) -> int:
        """Return the number of a batch in flight with the same contents; 0 if there is none."""
        return next((number for number, batch in self.going.items() if batch.said == said and batch.missing), 0)

    def begin(self, number: int, said: bytes, text: bytes, is_once: bool) -> None:
        """Begin a batch."""
        if number > self.base + OLDEST_BASE:
            self.base, self.base_text = 0, b""
        batch = InstructionBatch(said, packed_batch(text, self.base, self.base_text), is_once)
        # This batch contains the earlier ones in flight. But if it is large too, large ones that have almost arrived are finished.
        self.going = {other: one for other, one in self.going.items() if min(len(one.chunks), len(batch.chunks)) > 1}
        self.said = said
        self.going[number] = batch
        self.texts[number] = text[-DICTIONARY:]
        self.texts = kept_texts(self.texts, OLDEST_BASE, KEPT_GOING)

    def note_whole(self, number: int) -> bool:
        """Take the other end's newest complete batch, or 0 if it lacks a base. Then all batches with a base are lost.

        Return True if something was lost so.
        """
        if number == 0:
            has_lost = any(batch.has_base for batch in self.going.values())
            self.base, self.base_text = 0, b""
            self.going = {other: batch for other, batch in self.going.items() if not batch.has_base}
            self.texts = {other: text for other, text in self.texts.items() if other in self.going}
            return has_lost
        if number in self.texts:
            self.base, self.base_text = number, self.texts[number]
        if number >= self.base:
            self.texts = {other: text for other, text in self.texts.items() if other > number}
            self.going = {other: batch for other, batch in self.going.items() if other > number}
        return False

    def is_said(self) -> bool:
        """Return True if nothing of it is in flight."""
        return not any(batch.missing for batch in self.going.values())


class Incoming:
    """The incoming batches of a peer."""

    def __init__(self, longest: int) -> None:
        self.longest = longest
        self.newest = 0
        self.parts: dict[int, dict[int, bytes]] = {}
        self.texts: dict[int, bytes] = {}
        self.lacks_base = False

    def whole(self) -> int:
        """Return the number to acknowledge."""
        return 0 if self.lacks_base else self.newest

    def take(self, number: int, index: int, count: int, chunk: bytes) -> bytes | None:
        """Take a chunk, and return the text of the batch that it completes, or None."""
        if not self.newest < number < MOST_BATCHES or not index < count <= MOST_CHUNKS:
            return None
        parts = self.parts.setdefault(number, {})
        parts[index] = chunk
        if len(parts) == count and max(parts) == count - 1:
            return self.finish(number)
        while len(self.parts) > MOST_PARTS:
            del self.parts[min(self.parts)]
        return None

    def finish(self, number: int) -> bytes | None:
        """Return the text of a complete batch."""
        parts = self.parts.pop(number)
        packed = b"".join(parts[index] for index in range(len(parts)))
        text = unpacked_batch(packed, self.texts, self.longest)
        if text is None:
            self.lacks_base = True
            return None
        self.newest, self.lacks_base = number, False
        self.parts = {other: parts for other, parts in self.parts.items() if other > number}
        self.texts[number] = text[-DICTIONARY:]
        # The other end never names a base older than one it has named.
        oldest = BASE.unpack_from(packed)[0] % LARGE_BASE
        self.texts = kept_texts({other: text for other, text in self.texts.items() if other >= oldest}, MOST_TEXTS, KEPT_COMING)
        return text

    def size(self) -> int:
        """Return the counted size of the chunks of incomplete batches."""
        return sum(len(chunk) + OVERHEAD for parts in self.parts.values() for chunk in parts.values())


class Batches:
    """The outgoing and incoming batches of all peers."""

    def __init__(self) -> None:
        self.going: dict[int, Outgoing] = {}
        self.coming: dict[int, Incoming] = {}
        self.last = 0
        # The counted size of chunks since the last check of the total.
        self.uncounted = 0

    # ---- outgoing

    def is_spent(self) -> bool:
        """Return True if no number is left."""
        return self.last >= MOST_BATCHES - 1

    def may_begin(self, peer: int, size: int = 0) -> bool:
        """Return True if a batch of so many bytes may be sent to a peer. A small one always may, since it replaces all earlier ones."""
        return not self.is_spent() and (size <= LARGE or peer not in self.going or self.going[peer].may_begin())

    def haste(self, peer: int, texts: Sequence[bytes]) -> str:
        """Return the way to send an instruction."""
        return haste(texts, self.going[peer].said if peer in self.going else b"") if peer else NOW

    def begin(self, peer: int, texts: Sequence[bytes], is_once: bool = False) -> tuple[list[Chunk], bool]:
        """Begin a batch, and return the chunks to send, and a flag for new ones. One in flight with the same contents continues."""
        way = self.going.setdefault(peer, Outgoing())
        self.forget_one(self.going, peer)
        text = joined(texts)
        said = saying(texts) if peer else text
        number = way.begun(said)
        is_new = not number
        if is_new:
            self.last = number = self.last + 1
            way.begin(number, said, text, is_once)
        return [Chunk(peer, number, index) for index in sorted(way.going[number].missing)], is_new

    def batch(self, chunk: Chunk) -> InstructionBatch | None:
        """Return the batch of a chunk that is still current; else None."""
        batch = self.going[chunk.peer].going.get(chunk.number) if chunk.peer in self.going else None
        return batch if batch and chunk.index in batch.missing else None

    def length(self, chunk: Chunk) -> int:
        """Return the bytes that a chunk takes in a packet; 0 if it is obsolete."""
        batch = self.batch(chunk)
        return CHUNK.size + len(batch.chunks[chunk.index]) if batch else 0

    def frame(self, chunk: Chunk) -> bytes:
        """Return the frame of a chunk in a packet."""
        batch = self.going[chunk.peer].going[chunk.number]
        text, kind = batch.chunks[chunk.index], ONCE_KIND if batch.is_once else CHUNK_KIND
        return CHUNK.pack(kind, *chunk, len(batch.chunks), len(text)) + text

    def went(self, chunk: Chunk) -> bool:
        """Record that a chunk was sent, and return True if a loss has to be repaired."""
        if not self.going[chunk.peer].going[chunk.number].is_once:
            return True
        self.arrived(chunk)
        return False

    def arrived(self, chunk: Chunk) -> None:
        """Record that a chunk has arrived, or needs no acknowledgement."""
        batch = self.batch(chunk)
        if batch:
            batch.missing.discard(chunk.index)
            if batch.is_once and not batch.missing:
                del self.going[chunk.peer].going[chunk.number]

    def note_whole(self, peer: int, number: int) -> bool:
        """Take an acknowledgement for a peer, and return True if batches in flight are lost because a base is missing."""
        return peer in self.going and self.going[peer].note_whole(number)

    def is_said(self, peer: int) -> bool:
        """Return True if nothing is in flight to a peer."""
        return peer not in self.going or self.going[peer].is_said()

    # ---- incoming

    def whole(self, peer: int) -> bytes:
        """Return the acknowledgement for a peer, as a frame in a packet."""
        return WHOLE.pack(WHOLE_KIND, peer, self.coming[peer].whole() if peer in self.coming else 0)

    def take(self, peer: int, number: int, index: int, count: int, chunk: bytes) -> list[bytes]:
        """Take a chunk, and return the contents of its batch if that is now complete; for a peer these are datagrams."""
        way = self.coming.setdefault(peer, Incoming(LONGEST_TEXT if peer else LONGEST_STATE))
        self.forget_one(self.coming, peer)
        text = way.take(number, index, count, chunk)
        self.uncounted += len(chunk) + OVERHEAD
        if self.uncounted > KEPT_PARTS // 8:
            self.uncounted = 0
            self.keep_parts(peer)
        found = parted(text) if text else None
        return [one for one in found or () if not peer or is_datagram(one)]

    def keep_parts(self, peer: int) -> None:
        """Drop incomplete batches of other peers than this one if they are too large."""
        left = KEPT_PARTS - self.coming[peer].size()
        for other in [other for other in self.coming if other != peer]:
            left -= self.coming[other].size()
            if left < 0:
                self.coming[other].parts.clear()

    @staticmethod
    def forget_one(known: dict[int, Any], peer: int) -> None:
        """Forget the oldest of too many peers, but not peer 0 and not this one."""
        if len(known) > MOST_PEERS:
            del known[next(other for other in known if other not in (0, peer))]
