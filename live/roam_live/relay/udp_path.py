"""A path between the two ends of a relay: encrypted packets over UDP, from the current address of either end.

A packet begins with an acknowledgement: the newest received counter, its age, and the ones received before it. So each end knows the
arrivals, the round-trip time, the losses and the possible rate of its packets. Lost data is sent again if it is still current. Only
authentic packets are answered.
"""
from __future__ import annotations

import math
import socket
import time
from collections import deque
from collections.abc import Callable, Iterable, Iterator, Sequence

from roam_live.relay.aead_packets import LONGEST_PACKET, LONGEST_TEXT, AeadPackets, came_to, send, udp_end
from roam_live.relay.batches import CHUNK_KIND, LARGE, NOW, ONCE_KIND, SOON, WHOLE, WHOLE_KIND, Batches, Chunk
from roam_live.relay.frames import Waiting
from roam_live.relay.path_forwarding import STREAM_KIND, TAKEN_KIND, PathStreams, StreamChunk
from roam_live.relay.path_state import (ASKS, ASKS_LARGE, HEAD, HELD, HELD_LARGE, LONGEST_MASK, ROUND, HeardPackets, PathPace,
                                        SentPacket, States, Trips, frames_in)

TYPE_CHECKING = False
if TYPE_CHECKING:
    from typing import Union

    from roam_live.common.event_loop import Loop
    from roam_live.relay.aead_packets import Beside, Place

    # A part of a packet: a chunk of a batch, or of a connection.
    AnyChunk = Union[Chunk, StreamChunk]

# Each packet of this index begins with connections if batches fill all others.
TURN_OF_STREAMS = 4

# The seconds between heartbeats, slightly above the 3 s of the cores, whose messages serve as well. A data packet requests an answer if
# none has come for so long, and after so many seconds a packet requests one alone. The path is silent if for so many seconds no sent data
# has arrived, and sooner if an answer is due. An end without calls sends nothing after so many seconds.
HEARTBEAT, UNANSWERED = 3.5, 4.0
SILENT, SILENT_ASKED = 7.0, 4.0
ASLEEP = 60.0

# The seconds between calls on a silent path, at first and later: with another transport, or without.
FIRST_CALL = 0.2
CALLS_BESIDE, CALLS_ALONE = 5.0, 1.0
MOST_CALLS = 9

# Above this loss rate, small chunks are sent twice, so many seconds apart. Typed input is small.
LOSSY = 0.01
SMALL = 320
APART = 0.020

# Seconds for which an instruction without visible news waits for one with news.
MOMENT = 0.040

# Seconds without packets until a new port is used: a NAT in between may have forgotten the old one.
HOPS = 10.0

# The most packets handled at once, and seconds; and the most presumed lost packets whose moments are remembered.
MOST_AT_ONCE = 256
TURN = 0.05
MOST_GONE = 512


class Path:
    """One end of a path."""

    def __init__(self, aead: AeadPackets, end: socket.socket, places: Iterable[Place] = ()) -> None:
        self.aead, self.end = aead, end
        # Called for received packets.
        self.joined: tuple[Loop, Callable[[], object]] | None = None
        self.arrivals, self.batches, self.pace, self.trips, self.states = HeardPackets(), Batches(), PathPace(), Trips(), States()
        # The candidate addresses of the other end, its current one, and the local address that it used.
        self.places = list(places)
        self.place: Place | None = None
        self.source: Sequence[Beside] = ()
        now = time.monotonic()
        self.heard_at = self.validated_since = now
        self.answered_at: float | None = None
        self.spoke_at = self.called_at = self.hopped_at = now
        # The moment since when an answer is due; the number of calls; a flag for an immediate call; and a flag for a path without an
        # alternative.
        self.asked_at: float | None = None
        self.calls, self.is_due, self.is_alone = 0, False, False
        # True if a packet of the largest size has arrived, and True if one was requested.
        self.is_wide = self.has_asked_wide = False
        # The packets in flight by counter, and the newest arrived one; then the presumed lost packets. A late acknowledgement of one means
        # that it was slow.
        self.sent: dict[int, SentPacket] = {}
        self.gone: dict[int, SentPacket] = {}
        self.arrived = self.size = 0
        # The outgoing chunks: lost ones, new ones, repeated ones, and instructions that wait for a newer one.
        self.repairs: deque[Chunk] = deque()
        self.fresh: deque[Chunk] = deque()
        self.twice: deque[tuple[float, Chunk]] = deque()
        self.soon: dict[int, tuple[float, list[bytes]]] = {}
        # The connections that it carries, and the packets sent since one first contained them.
        self.streams: PathStreams | None = None
        self.since_streams = 0

    def fileno(self) -> int:
        """Return the descriptor of its socket."""
        return self.end.fileno()

    def join(self, loop: Loop, hears: Callable[[], object]) -> None:
        """Let a loop call `hears` for received packets."""
        self.joined = loop, hears
        loop.add(self.end, hears)

    def close(self) -> None:
        """Close its socket."""
        if self.joined:
            self.joined[0].remove(self.end)
        self.end.close()

    # ---- its state

    def is_validated(self) -> bool:
        """Return True if packets arrive in both directions."""
        return self.is_wide and time.monotonic() <= self.silent_at()

    def silent_at(self) -> float:
        """Return the moment at which it becomes silent if nothing changes."""
        if self.answered_at is None:
            return -math.inf
        return min(self.answered_at + SILENT, math.inf if self.asked_at is None else self.asked_at + SILENT_ASKED)

    def is_spent(self) -> bool:
        """Return True if it has no counters left, so that another has to replace it."""
        return self.aead.is_spent() or self.batches.is_spent()

    def is_asleep(self) -> bool:
        """Return True if the other end has been silent for so long that this one stops sending."""
        return not self.aead.is_near and time.monotonic() > self.heard_at + ASLEEP

    def is_said(self) -> bool:
        """Return True if the other end has received all messages."""
        return self.states.is_sent and self.batches.is_said(0)

    def has_more(self) -> bool:
        """Return True if more data waits to be sent."""
        return bool(self.fresh or self.repairs or self.is_validated() and self.streams and self.streams.waits())

    def may_carry(self) -> bool:
        """Return True if it may carry waiting data: all of it, or on a silent path one packet at a time as a probe."""
        return bool(self.place or self.aead.is_near) and (self.is_validated() or not self.sent)

    def late_at(self, counter: int, sent: SentPacket) -> float:
        """Return the moment at which a packet is presumed lost."""
        moment: float = sent.moment
        return moment + self.trips.patience(sent.held, counter < self.arrived)

    def due_at(self) -> float:
        """Return the moment of the next step."""
        if self.is_asleep() or self.is_spent():
            return math.inf
        moments = [self.call_at()]
        moments += [] if self.arrivals.told_at is None else [self.arrivals.told_at]
        moments += [min(self.late_at(*entry) for entry in self.sent.items())] if self.sent else []
        moments += [self.twice[0][0]] if self.twice else []
        if self.may_carry():
            moments += [moment for moment, _ in self.soon.values()]
            is_waiting = self.has_more() and self.size + LONGEST_PACKET <= self.pace.window()
            moments += [time.monotonic() + self.pace.wait_time(LONGEST_PACKET)] if is_waiting else []
        return min(moments)

    def call_at(self) -> float:
        """Return the moment of the next call to the other end."""
        if self.is_asleep() or not self.aead.is_near and not self.place:
            return math.inf
        if self.is_due:
            return -math.inf
        if self.is_validated() and self.answered_at is not None:
            return min(max(self.spoke_at, self.called_at) + HEARTBEAT, max(self.answered_at, self.called_at) + UNANSWERED)
        most = CALLS_ALONE if self.is_alone else CALLS_BESIDE
        return self.called_at + (min(most, FIRST_CALL * float(2**self.calls)) if self.aead.is_near else HEARTBEAT)

    # ---- outgoing

    def tell(self, peer: int, text: bytes) -> None:
        """Send a message about this end in place of the earlier one of its kind."""
        self.states.tell(text)

    def fill(self, waiting: Waiting) -> None:
        """Take as many waiting datagrams as may be in flight, and send due packets."""
        now = time.monotonic()
        self.give_up_late(now)
        if self.is_asleep() or self.is_spent():
            return
        while self.twice and self.twice[0][0] <= now:
            self.repairs.append(self.twice.popleft()[1])
        self.flush(now)
        while self.may_carry() and self.begin_next(waiting, now):
            self.flush(now)
        if self.arrivals.told_at is not None and now >= self.arrivals.told_at:
            self.send_packet(now)
        if now >= self.call_at():
            self.call(now)

    def begin_next(self, waiting: Waiting, now: float) -> bool:
        """Begin the next batch, and return True if there is one."""
        peer, texts = self.taken(waiting, now)
        if not texts:
            return False
        haste = self.batches.haste(peer, texts)
        if haste == SOON and peer not in self.soon:
            self.soon[peer] = now + MOMENT, texts
            return True
        self.soon.pop(peer, None)
        chunks, is_new = self.batches.begin(peer, texts, haste != NOW)
        if is_new:
            self.fresh += chunks
        elif not any(set(chunks) & set(sent.chunks) for sent in self.sent.values() if now < sent.moment + self.trips.round()):
            # The repeated contents are already in flight. They are sent again once an acknowledgement is overdue.
            self.repairs += chunks
        return True

    def taken(self, waiting: Waiting, now: float) -> tuple[int, list[bytes]]:
        """Return the next instruction and its peer. A large one comes only if nothing else waits."""
        if not self.states.is_sent and self.batches.may_begin(0):
            self.states.is_sent = True
            return 0, list(self.states.going.values())
        is_free = not self.fresh and not self.repairs
        found = waiting.take_whole(lambda peer, size: (is_free or size <= LARGE) and self.batches.may_begin(peer, size))
        due = next((peer for peer, (moment, _) in self.soon.items() if moment <= now), None)
        return found if found[1] or due is None else (due, self.soon[due][1])

    def flush(self, now: float) -> None:
        """Send as many chunks as permitted, lost ones first."""
        while self.may_carry() and self.size + LONGEST_PACKET <= self.pace.window() and self.pace.lets(LONGEST_PACKET, now):
            chunks = self.next_chunks(now)
            if not chunks:
                return
            self.send_packet(now, chunks)

    def next_chunks(self, now: float) -> list[AnyChunk]:
        """Return the chunks of the next packet: lost ones, those of batches, and those of connections if there is room or it is their turn.
        """
        chunks: list[AnyChunk] = []
        room = LONGEST_TEXT - HEAD.size - LONGEST_MASK
        self.since_streams += 1
        if self.since_streams >= TURN_OF_STREAMS:
            room = self.add_streams(chunks, room)
        for queue in (self.repairs, self.fresh):
            while queue and self.batches.length(queue[0]) <= room:
                chunk = queue.popleft()
                length = self.batches.length(chunk)
                if not length or chunk in chunks:
                    continue
                chunks.append(chunk)
                room -= length
                self.twice += [(now + APART, chunk)] if queue is self.fresh and self.goes_twice(chunk) else []
        self.add_streams(chunks, room)
        return chunks

    def add_streams(self, chunks: list[AnyChunk], room: int) -> int:
        """Add the connections' chunks that fit a packet, and return the remaining room.

        They do not probe a silent path, since they would do so constantly.
        """
        while self.streams and self.is_validated():
            chunk = self.streams.next_chunk(room)
            if not chunk:
                break
            chunks.append(chunk)
            room -= self.streams.length(chunk)
            self.since_streams = 0
        return room

    def frame(self, chunk: AnyChunk) -> bytes:
        """Return the frame of a chunk in a packet."""
        if isinstance(chunk, Chunk):
            return self.batches.frame(chunk)
        return self.streams.frame(chunk) if self.streams else b""

    def note_chunk(self, chunk: AnyChunk, has_arrived: bool) -> None:
        """Record that a chunk has arrived or is presumed lost. A lost one is sent again if it is still current."""
        if isinstance(chunk, Chunk):
            if has_arrived:
                self.batches.arrived(chunk)
            elif self.batches.batch(chunk):
                self.repairs.append(chunk)
        elif self.streams:
            (self.streams.arrived if has_arrived else self.streams.lost)(chunk)

    def goes_twice(self, chunk: Chunk) -> bool:
        """Return True if a chunk is sent again in a moment, acknowledged or not."""
        batch = self.batches.batch(chunk)
        return bool(batch and not batch.is_once and len(batch.chunks[chunk.index]) <= SMALL and self.trips.lost > LOSSY)

    def call(self, now: float) -> None:
        """Request an answer from the other end, and then one of the largest size, to test that it gets through."""
        self.called_at, self.is_due = now, False
        self.calls = 0 if self.is_validated() else min(self.calls + 1, MOST_CALLS)
        if self.aead.is_near and now > max(self.heard_at, self.hopped_at) + HOPS:
            self.hop(now)
        is_wide = self.is_wide or self.answered_at is None
        self.has_asked_wide = self.has_asked_wide or not is_wide
        self.send_packet(now, asks=ASKS if is_wide else ASKS_LARGE)

    def hop(self, now: float) -> None:
        """Continue on another port."""
        self.hopped_at = now
        other = udp_end()
        if other:
            self.close()
            self.end = other
            if self.joined:
                self.join(*self.joined)

    def send_packet(self, now: float, chunks: Sequence[AnyChunk] = (), asks: bytes = b"") -> None:
        """Send a packet. One with data includes a request for an answer if that would soon be due alone."""
        if self.aead.is_spent():
            return
        batches = [self.batches.batch(chunk) if isinstance(chunk, Chunk) else None for chunk in chunks]
        if batches and all(batch and batch.is_once for batch in batches) and now > (self.answered_at or now) + HEARTBEAT:
            asks = asks or ASKS
        packet = self.aead.encrypted(self.text(now, chunks, asks))
        own = [self.place] if self.place else []
        for place in own if own and self.is_validated() else dict.fromkeys([*own, *self.places]):
            send(self.end, packet, place, self.source)
        held = HELD_LARGE if any(isinstance(chunk, Chunk) and chunk.index for chunk in chunks) else HELD
        kept = tuple(chunk for chunk in chunks if not isinstance(chunk, Chunk) or self.batches.went(chunk))
        self.pace.went(len(packet))
        if kept or asks:
            self.sent[self.aead.counter] = SentPacket(now, len(packet), kept, self.pace.arrived, held)
            self.size += len(packet)
            self.asked_at = now if self.asked_at is None else self.asked_at
        self.spoke_at = now
        self.arrivals.were_told(now)

    def text(self, now: float, chunks: Sequence[AnyChunk], asks: bytes) -> bytes:
        """Return the contents of a packet: an acknowledgement, chunks, as many complete batches as fit, and a request for an answer."""
        text = self.arrivals.head(now) + b"".join(map(self.frame, chunks))
        room = LONGEST_TEXT - len(text) - len(asks)
        text += b"".join(map(self.batches.whole, self.arrivals.peers(now, room // WHOLE.size))) + asks
        return text.ljust(LONGEST_TEXT, b"\0") if asks == ASKS_LARGE else text

    def give_up_late(self, now: float) -> None:
        """Presume overdue packets lost, and send their contents again."""
        late = [counter for counter, sent in self.sent.items() if self.late_at(counter, sent) <= now]
        self.give_up(late)
        if late and late[-1] > self.arrived:
            self.trips.tries = min(self.trips.tries + 1, MOST_CALLS)

    def give_up(self, counters: Iterable[int]) -> None:
        """Presume these packets lost."""
        for counter in counters:
            sent = self.gone[counter] = self.sent.pop(counter)
            self.size -= sent.size
            is_validated = self.is_validated()
            if counter < self.arrived or is_validated:
                self.trips.note_lost()
            for chunk in sent.chunks:
                self.note_chunk(chunk, False)
            # A requested answer is requested again.
            self.is_due = self.is_due or not sent.chunks and is_validated
        while len(self.gone) > MOST_GONE:
            del self.gone[next(iter(self.gone))]

    # ---- incoming

    def received(self) -> Iterator[tuple[int, bytes]]:
        """Yield the received frames, each a peer and its contents. Unpacked data may be large, so each frame is made on demand."""
        begun = time.monotonic()
        for _ in range(MOST_AT_ONCE):
            try:
                packet, told, _, place = self.end.recvmsg(LONGEST_PACKET + 1, 64)
            except BlockingIOError:
                return
            except OSError:
                # Nobody has the port of an earlier packet.
                continue
            yield from self.take(packet, place, told)
            if time.monotonic() > begun + TURN:
                return

    def take(self, packet: bytes, place: Place, told: Iterable[Beside] = ()) -> Iterator[tuple[int, bytes]]:
        """Yield the frames of a packet, if it is authentic and new."""
        counter = self.aead.counter_of(packet)
        text = self.aead.decrypted(packet) if counter and self.arrivals.window.is_new(counter) else None
        if text is None or len(text) < HEAD.size:
            return
        now = time.monotonic()
        self.heard_at = now
        self.is_wide = self.is_wide or len(packet) == LONGEST_PACKET
        # The first answer is followed by a request of the largest size.
        self.is_due = self.is_due or self.aead.is_near and not self.is_wide and not self.has_asked_wide
        was_validated = self.is_validated()
        if not was_validated:
            # Data that waited for an answer is sent at once, now that the other end is there.
            self.give_up(list(self.sent))
        if counter > self.arrivals.window.newest:
            # The far end answers from the address that was called. The near end sends from its current one.
            self.place, self.source, self.arrivals.newest_at = place, () if self.aead.is_near else came_to(told), now
        self.arrivals.window.note(counter)
        newest, held, length = HEAD.unpack_from(text)
        begin = HEAD.size + length
        self.note_arrived(newest, held / 1000, text[HEAD.size : begin], now)
        yield from self.frames(text, begin, counter, now, was_validated)

    def note_arrived(self, low: int, held: float, mask: bytes, now: float) -> None:
        """Take an acknowledgement: the newest received counter by its lowest bits, and a mask of those before it."""
        newest = self.aead.counter - (self.aead.counter - low & 0xFFFFFFFF)
        if newest <= 0:
            return
        if newest > self.arrived:
            self.validated_since = self.validated_since if self.is_validated() else now
            self.arrived, self.answered_at, self.asked_at, self.trips.tries = newest, now, None, 0
        bits = int.from_bytes(mask[:LONGEST_MASK], "little") << 1 | 1
        is_full = self.has_more()
        for counter in [counter for counter in (*self.sent, *self.gone) if counter <= newest and bits >> newest - counter & 1]:
            was_given_up = counter in self.gone
            sent = self.gone.pop(counter) if was_given_up else self.sent.pop(counter)
            self.size -= 0 if was_given_up else sent.size
            self.trips.note_arrived(was_given_up)
            self.pace.note(sent, now, is_full)
            for chunk in sent.chunks:
                self.note_chunk(chunk, True)
            if counter == newest:
                self.trips.note(max(0.001, now - sent.moment - held))
                self.pace.note_round(self.trips.mean or ROUND)

    def frames(self, text: bytes, begin: int, counter: int, now: float, was_validated: bool) -> Iterator[tuple[int, bytes]]:
        """Yield the frames after the head of a packet, and schedule its acknowledgement: at once if the path was not validated."""
        wants, held, asks = False, HELD, b""
        for kind, numbers, chunk in frames_in(text, begin):
            if kind in (CHUNK_KIND, ONCE_KIND):
                wants = wants or kind == CHUNK_KIND
                held = HELD_LARGE if numbers[3] > 1 else held
                self.arrivals.note_peer(numbers[0], now, kind == CHUNK_KIND)
                yield from self.take_chunk(numbers, chunk)
            elif kind == WHOLE_KIND:
                is_lost = self.batches.note_whole(numbers[0], numbers[1])
                self.states.is_sent = self.states.is_sent and not (is_lost and numbers[0] == 0)
            elif kind in (STREAM_KIND, TAKEN_KIND):
                wants = True
                if self.streams:
                    self.streams.take(kind, numbers[0], numbers[1], chunk)
            elif kind in (ASKS, ASKS_LARGE):
                wants, held, asks = True, 0.0, kind
        if wants:
            self.arrivals.want(counter, now, held if was_validated else 0.0)
        if asks == ASKS_LARGE and not self.aead.is_near:
            # This includes a request in return, until packets are known to arrive.
            self.send_packet(now, asks=ASKS_LARGE)

    def take_chunk(self, numbers: tuple[int, ...], chunk: bytes) -> Iterator[tuple[int, bytes]]:
        """Yield the contents of a chunk; for peer 0 only the new part."""
        peer, number, index, count, _ = numbers
        for text in self.batches.take(peer, number, index, count, chunk):
            new = text if peer else self.states.news(text)
            if new is not None:
                yield peer, new
