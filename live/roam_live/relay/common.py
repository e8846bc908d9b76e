"""The common parts of both ends of a relay: their options, their exit, datagrams at a port of loopback, and the choice between the stream
and the UDP path.
"""
from __future__ import annotations

import math
import socket
import time
from collections.abc import Callable

from roam_live.common.event_loop import Loop, comes
from roam_live.common.io import read
from roam_live.common.signals import signal
from roam_live.protocol.datagram_stream import is_datagram
from roam_live.relay.forwarding import PipeStreams
from roam_live.relay.frames import WAITING_LIMIT, RelayStream, Waiting
from roam_live.relay.path_forwarding import PathStreams
from roam_live.relay.udp_path import Path

TYPE_CHECKING = False
if TYPE_CHECKING:
    from roam_live.relay.forwarding import Opens

    # The address of a peer at a port of loopback.
    Address = tuple[str, int]

# A peer that is silent for so many seconds is forgotten, and so are the longest silent of too many.
FORGOTTEN_AFTER = 180.0
PEER_LIMIT = 256

LARGEST_DATAGRAM = 65507
MOST_AT_ONCE = 256
SIGNALS = (signal.SIGTERM, signal.SIGHUP, signal.SIGINT)


class Ended(Exception):
    """The exit of the process, with a status."""

    def __init__(self, status: int) -> None:
        super().__init__(status)
        self.status = status


class Options:
    """The options of either end: a port, a folder in its place or in addition, the near end's command, and the far end's session."""

    def __init__(self, *, folder: str | None = None, port: int | None = None, command: list[str] | None = None, owner: int | None = None,
                 alone: float | None = None, log: str | None = None, host: str = "", far: bool = False, greeted: bool = False,
                 server: int | None = None, session: str | None = None) -> None:
        self.dir, self.port, self.command = folder, port, command or []
        self.owner, self.alone, self.log, self.host = owner, alone, log, host
        self.far, self.greeted, self.server, self.session = far, greeted, server, session


def end_for(wakeup: int) -> None:
    """End after a signal."""
    for number in read(wakeup) or b"":
        if number in SIGNALS:
            raise Ended(128 + number)


def loopback_socket() -> socket.socket:
    """Return a non-blocking UDP socket with room for the fragments of a large instruction, as far as the system permits."""
    one = socket.socket(socket.AF_INET, socket.SOCK_DGRAM)
    one.setsockopt(socket.SOL_SOCKET, socket.SO_RCVBUF, WAITING_LIMIT)
    one.setblocking(False)
    return one


def received(source: socket.socket) -> list[tuple[bytes, Address]]:
    """Return the datagrams that arrived, with their sources."""
    found = []
    for _ in range(MOST_AT_ONCE):
        try:
            datagram, address = source.recvfrom(LARGEST_DATAGRAM)
            found += [(datagram, address)] if is_datagram(datagram) else []
        except BlockingIOError:
            break
        except OSError:
            # Nobody has the port that an earlier packet was sent to.
            continue
    return found


# A transport that has lasted for so many seconds is validated. Then nothing more goes over the command beside a UDP path, and the end of a
# command is not its own fault.
SOUND = 5.0

# An empty queue for the transport that is not in use.
NOTHING = Waiting()


class Ways:
    """The two transports of an end."""

    def __init__(self, loop: Loop) -> None:
        self.loop = loop
        self.path: Path | None = None
        self.stream: RelayStream | None = None
        # The transport that last carried data and connections. Connections end with a change of transport.
        self.carrier: Path | RelayStream | None = None
        # True while the stream is silent because the path is validated.
        self.rests = False

    # ---- the path

    def take_path(self, path: Path, hears: Callable[[], object], opens: Opens | None = None) -> None:
        """Use a new path in place of the previous one. One call reports input; the other, at the far end, opens forwarded connections."""
        self.drop_path()
        self.path = path
        path.streams = PathStreams(self.loop, opens)
        path.join(self.loop, hears)

    def drop_path(self) -> None:
        """Close the path without a message, with its connections."""
        if self.path:
            self.path.close()
            self.ended(self.path)
        self.path = None
        self.rest()

    def take_stream(self, stream: RelayStream, opens: Opens | None = None) -> None:
        """Use a stream, with a call that opens forwarded connections."""
        self.stream = stream
        stream.streams = PipeStreams(self.loop, stream.tell_forwarded, opens)

    def drop_stream(self) -> None:
        """Close the stream, with its connections."""
        if self.stream:
            self.ended(self.stream)
        self.stream = None

    def ended(self, way: Path | RelayStream) -> None:
        """End the connections of a transport that is gone."""
        if way.streams:
            way.streams.close()
        self.carrier = None if self.carrier is way else self.carrier

    # ---- the transport in use

    def is_validated(self) -> bool:
        """Return True if the path carries everything."""
        return self.path is not None and self.path.is_validated()

    def was_validated(self) -> bool:
        """Return True if the path is validated and has been for some time."""
        return self.path is not None and self.path.is_validated() and self.path.validated_since + SOUND <= time.monotonic()

    def chosen(self, is_stream_there: bool) -> Path | RelayStream | None:
        """Return the transport in use: the path if it is validated or the only one; otherwise the stream."""
        return self.path if self.path and (self.path.is_validated() or not is_stream_there) else self.stream

    def rest(self) -> None:
        """Keep the stream silent while the path has been validated for some time, and resume it afterwards.

        The command stays for its other uses, such as a port that it forwards.
        """
        rests = self.stream is not None and self.was_validated()
        if self.rests and not rests and self.stream:
            self.stream.resume()
        self.rests = rests

    def is_quiet(self) -> bool:
        """Return True if the stream has nothing to send."""
        return self.rests and self.stream is not None and not self.stream.is_owed()

    def fill(self, waiting: Waiting, is_stream_there: bool) -> None:
        """Send the queue by the transport in use, and heartbeats on each."""
        way = self.chosen(is_stream_there)
        if way is not self.carrier:
            if self.carrier and self.carrier.streams:
                self.carrier.streams.end_all()
            self.carrier = way
        if self.stream and not self.is_quiet():
            self.stream.fill(waiting if way is self.stream else NOTHING)
        if self.path:
            self.path.is_alone = not is_stream_there
            self.path.fill(waiting if way is self.path else NOTHING)

    def moments(self) -> list[float]:
        """Return the moments of the next steps."""
        found = [self.stream.due_at()] if self.stream and not self.is_quiet() else []
        if self.path:
            found.append(self.path.due_at())
            found += [self.path.silent_at()] if self.path.is_validated() else []
            found += [self.path.validated_since + SOUND] if self.path.is_validated() and self.stream and not self.rests else []
        return [moment for moment in found if moment < math.inf]


def finish(path: Path, seconds: float) -> None:
    """Send the last messages over a path until the other end has all of them, or the time is up."""
    end = time.monotonic() + seconds
    while not path.is_said() and not path.is_spent() and time.monotonic() < end:
        path.fill(NOTHING)
        comes(path, max(0.0, min(path.due_at(), end) - time.monotonic()) + 0.001)
        for _ in path.received():
            pass
