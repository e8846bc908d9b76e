"""The state of a path's end: its sent and received packets, round-trip times, and the send rate."""
from __future__ import annotations

import struct
import time
from collections import deque, namedtuple
from collections.abc import Iterator

from roam_live.relay.aead_packets import LONGEST_PACKET, Window
from roam_live.relay.batches import CHUNK, CHUNK_KIND, ONCE_KIND, WHOLE, WHOLE_KIND, Chunk
from roam_live.relay.forwarding import TAKEN_COUNT
from roam_live.relay.frames import ENDED, LEAVES, WINDOWS, BadWords, demand_length, demand_told
from roam_live.relay.path_forwarding import STREAM, STREAM_KIND, TAKEN_KIND, StreamChunk

TYPE_CHECKING = False
if TYPE_CHECKING:
    from typing import Union

    # A part of a packet: a chunk of a batch, or of a connection.
    AnyChunk = Union[Chunk, StreamChunk]

# The newest received counter, its lowest 32 bits; the milliseconds since then; and the length of the mask that follows.
HEAD = struct.Struct(">IHB")
LONGEST_MASK = 32
LONGEST_HELD = 65535

# The layouts of a packet's frames, by kind.
LAYOUTS = {CHUNK_KIND: CHUNK, ONCE_KIND: CHUNK, WHOLE_KIND: WHOLE, STREAM_KIND: STREAM, TAKEN_KIND: TAKEN_COUNT}

# The requests for an answer: a small one, or one of the largest size.
ASKS, ASKS_LARGE = b"a", b"l"

# The kinds of messages about an end itself.
TOLD = (ENDED, LEAVES, WINDOWS)

# Received packets are acknowledged within so many seconds, with other data or alone; those of a large batch sooner, or after so many
# packets. Acknowledgements repeat for so long. A client's answer comes after 100 ms.
HELD, HELD_LARGE = 0.12, 0.025
MOST_UNTOLD = 32
TOLD_FOR = 1.0
MOST_TOLD = 4096

# The most seconds until an unacknowledged packet is sent again; and the assumed round-trip time before the first answer.
LATEST = 0.3
ROUND = 0.25

# The first and the least window in bytes, and the lifetime of measurements of a path.
FIRST = 12 * LONGEST_PACKET
LEAST = 4 * LONGEST_PACKET
BELIEVED = 10.0

# The rate is rising while it grows by this factor a round, until it has not for so many rounds. Then the share of it that is sent while it
# is rising, and afterwards.
GROWS, FLAT = 1.25, 3
RISING, STEADY = 2.0, 1.25
LOSS_WEIGHT = 1 / 50


class SentPacket(namedtuple("SentPacket", "moment size chunks arrived held")):
    """A packet in flight: its moment, size and chunks, the bytes that had arrived then, and the longest delay of its acknowledgement."""

    moment: float
    size: int
    chunks: tuple[AnyChunk, ...]
    arrived: int
    held: float


class Best:
    """The largest value of the last seconds."""

    def __init__(self) -> None:
        self.old = self.new = 0.0
        self.turned_at = time.monotonic()

    def note(self, value: float) -> None:
        """Record a value."""
        self.turn()
        self.new = max(self.new, value)

    def turn(self) -> None:
        """Drop old values."""
        now = time.monotonic()
        while now > self.turned_at + BELIEVED / 2 and (self.old or self.new):
            self.old, self.new, self.turned_at = self.new, 0.0, self.turned_at + BELIEVED / 2
        self.turned_at = max(self.turned_at, now - BELIEVED / 2)

    def value(self) -> float:
        """Return the largest value; 0 if there is none."""
        self.turn()
        return max(self.old, self.new)


class PathPace:
    """The send rate, from the bytes that arrived in the last seconds.

    The bytes acknowledged while a packet was in flight, over that time, are a rate that the path has had. At most twice the bytes of a
    round trip at that rate are in flight, so that the queue at the bottleneck has a bounded length. Packets are sent at a quarter above the
    rate, or at twice the rate while it is rising.
    """

    def __init__(self) -> None:
        self.rate, self.quickness = Best(), Best()
        self.arrived = 0
        self.tokens, self.filled_at = float(FIRST), time.monotonic()
        self.rises, self.compared, self.compared_at, self.flat = True, 0.0, 0.0, 0

    def note(self, sent: SentPacket, now: float, is_full: bool) -> None:
        """Record that a packet has arrived, and if more data waited at that time."""
        self.arrived += sent.size
        if not is_full:
            # Without waiting data nothing is measured.
            return
        self.rate.note((self.arrived - sent.arrived) / max(0.001, now - sent.moment))
        if now > self.compared_at + self.round():
            self.flat = 0 if self.rate.value() > GROWS * self.compared else self.flat + 1
            self.rises = self.flat < FLAT
            self.compared, self.compared_at = self.rate.value(), now

    def note_round(self, seconds: float) -> None:
        """Record a round-trip time."""
        self.quickness.note(1 / max(0.001, seconds))

    def round(self) -> float:
        """Return the shortest round-trip time of the last seconds, including the delay of acknowledgements."""
        quickness = self.quickness.value()
        return 1 / quickness + HELD_LARGE if quickness else ROUND

    def window(self) -> float:
        """Return how many bytes may be in flight."""
        return max(FIRST if self.rises else LEAST, 2 * self.rate.value() * self.round())

    def lets(self, size: int, now: float) -> bool:
        """Return True if a packet may be sent now."""
        if not self.rate.value():
            self.rises, self.compared, self.flat = True, 0.0, 0
        rate = max(self.rate.value() * (RISING if self.rises else STEADY), LEAST / self.round())
        self.tokens = min(FIRST, self.tokens + rate * (now - self.filled_at))
        self.filled_at = now
        return self.tokens >= size

    def wait_time(self, size: int) -> float:
        """Return the seconds until a packet may be sent, or until the next check."""
        return max(0.0, (size - self.tokens) / max(self.rate.value(), LEAST / self.round()))

    def went(self, size: int) -> None:
        """Record a sent packet."""
        self.tokens -= size


class Trips:
    """The round-trip times, their variation, the share of lost packets, and the number of timeouts."""

    def __init__(self) -> None:
        self.mean: float | None = None
        self.spread = self.lost = 0.0
        self.tries = 0

    def note(self, seconds: float) -> None:
        """Record a round-trip time."""
        if self.mean is None:
            self.mean, self.spread = seconds, seconds / 2
        else:
            self.spread += (abs(seconds - self.mean) - self.spread) / 4
            self.mean += (seconds - self.mean) / 8

    def round(self) -> float:
        """Return the expected round-trip time."""
        return ROUND if self.mean is None else self.mean + 2 * self.spread

    def patience(self, held: float, is_passed: bool) -> float:
        """Return the seconds after which an unacknowledged packet counts as lost: fewer if a later one has arrived."""
        if self.mean is None:
            return LATEST
        if is_passed:
            return self.round()
        patience = self.mean + 4 * self.spread + held
        return float(max(patience, min(LATEST, patience * 2**self.tries)))

    def note_arrived(self, was_given_up: bool) -> None:
        """Record that a packet has arrived, even one that was presumed lost."""
        self.lost = max(0.0, self.lost - (LOSS_WEIGHT if was_given_up else self.lost * LOSS_WEIGHT))

    def note_lost(self) -> None:
        """Record that a packet is presumed lost."""
        self.lost += (1 - self.lost) * LOSS_WEIGHT


class States:
    """The messages of the ends about themselves: the newest of each kind, all together, so that their order does not matter."""

    def __init__(self) -> None:
        self.going: dict[bytes, bytes] = {}
        self.came: dict[bytes, bytes] = {}
        self.is_sent = True

    def tell(self, text: bytes) -> None:
        """Record a message in place of the earlier one of its kind."""
        self.going[text[:1]] = text
        self.is_sent = False

    def news(self, text: bytes) -> bytes | None:
        """Return the new part of a received state; None if nothing is new, or if it is invalid."""
        try:
            demand_length(0, len(text))
            demand_told(text)
        except BadWords:
            return None
        if text[:1] not in TOLD or self.came.get(text[:1]) == text:
            return None
        self.came[text[:1]] = text
        return text


class HeardPackets:
    """The received packets, and the moment of the next acknowledgement."""

    def __init__(self) -> None:
        self.window = Window()
        self.newest_at = time.monotonic()
        # The moment of the acknowledgement; the number of unacknowledged packets; and the latest packets with their moments.
        self.told_at: float | None = None
        self.untold = 0
        self.came: deque[tuple[float, int]] = deque(maxlen=MOST_TOLD)
        # The peers whose complete batches are unacknowledged, and the end of repeated acknowledgements for each.
        self.news: dict[int, None] = {}
        self.whole_until: dict[int, float] = {}

    def want(self, counter: int, now: float, held: float) -> None:
        """Record that the other end expects an acknowledgement of a packet, in so many seconds."""
        self.came.append((now, counter))
        self.untold += 1
        self.tell_by(now if self.untold >= MOST_UNTOLD else now + held)

    def tell_by(self, moment: float) -> None:
        """Schedule an acknowledgement by a moment."""
        self.told_at = moment if self.told_at is None else min(moment, self.told_at)

    def note_peer(self, peer: int, now: float, is_news: bool) -> None:
        """Record that data came from a peer, and with `is_news` that its batches need an acknowledgement."""
        self.whole_until[peer] = now + TOLD_FOR
        if is_news:
            self.news[peer] = None
        while len(self.whole_until) > MOST_TOLD:
            oldest = next(iter(self.whole_until))
            del self.whole_until[oldest]
            self.news.pop(oldest, None)

    def head(self, now: float) -> bytes:
        """Return the head of a packet."""
        held = min(LONGEST_HELD, int((now - self.newest_at) * 1000))
        while self.came and self.came[0][0] < now - TOLD_FOR:
            self.came.popleft()
        newest = self.window.newest
        oldest = min((counter for _, counter in self.came), default=newest)
        length = min(LONGEST_MASK, (newest - oldest + 7) // 8)
        return HEAD.pack(newest & 0xFFFFFFFF, held, length) + self.window.mask(length)

    def peers(self, now: float, most: int) -> list[int]:
        """Return the peers to acknowledge now, up to `most`: new ones first."""
        self.whole_until = {peer: end for peer, end in self.whole_until.items() if end > now or peer in self.news}
        found = [*self.news, *(peer for peer in self.whole_until if peer not in self.news)][:most]
        for peer in found:
            self.news.pop(peer, None)
            # Its next turn comes after the others'.
            self.whole_until[peer] = self.whole_until.pop(peer)
        return found

    def were_told(self, now: float) -> None:
        """Record that an acknowledgement was sent. If not all fit, the rest is due at once."""
        self.told_at, self.untold = now if self.news else None, 0


def frames_in(text: bytes, begin: int) -> Iterator[tuple[bytes, tuple[int, ...], bytes]]:
    """Yield the frames of a packet's contents, from an offset on: each its kind, its numbers and its bytes. Stop at an unknown one."""
    while begin < len(text):
        kind = text[begin : begin + 1]
        layout = LAYOUTS.get(kind)
        if not layout:
            yield kind, (), b""
            if kind != ASKS:
                return
            begin += len(ASKS)
            continue
        if begin + layout.size > len(text):
            return
        numbers = layout.unpack_from(text, begin)[1:]
        begin += layout.size
        length = numbers[-1] if layout in (CHUNK, STREAM) else 0
        if begin + length > len(text):
            return
        yield kind, numbers, text[begin : begin + length]
        begin += length
