"""The far end of a relay, next to the server."""
from __future__ import annotations

import math
import os
import pathlib
import socket
import time
from collections.abc import Iterable

from roam_live.common.errors import Fault, log_to
from roam_live.common.event_loop import Loop, is_taken
from roam_live.common.files import is_own_folder
from roam_live.common.process import opened_process
from roam_live.common.suppress import suppress
from roam_live.common.unix_socket import connected_now
from roam_live.protocol.datagram_stream import Carrier, is_datagram
from roam_live.relay.aead_packets import PORTS, udp_end
from roam_live.relay.client_limits import ClientLimit
from roam_live.relay.common import FORGOTTEN_AFTER, PEER_LIMIT, SIGNALS, Ended, Options, Ways, end_for, finish, loopback_socket, received
from roam_live.relay.far_windows import WINDOW_SHIFT, FarWindows
from roam_live.relay.forwarding import FORWARDS, HOST
from roam_live.relay.frames import ENDED, KILLED, LEAVES, WANTS, WINDOWS, RelayStream, Waiting
from roam_live.relay.path_setup import close_standard, forget_note, is_wanted, made_path, name_in, part_from_command, take_over
from roam_live.session.host_watchdog import HostWatchdog
from roam_live.session.lookup import window_in

TYPE_CHECKING = False
if TYPE_CHECKING:
    from roam_live.session.folder import SessionFolder

# A far end without messages for so many seconds ends. One that was called over a path waits longer, since the near end may sleep over
# holidays.
ALONE = 30.0
FAR_WAIT = 7 * 24 * 3600.0


class Far:
    """The end next to the server: a stream to its socket for each client, or a UDP socket."""

    def __init__(self, asked: Options, wakeup: int, loop: Loop | None = None) -> None:
        self.asked, self.loop = asked, loop or Loop()
        self.loop.each(self.prepare)
        self.loop.add(wakeup, lambda: end_for(wakeup))
        if asked.server:
            self.follow_server(asked.server)
        # Nobody else may be there to see the shells' end.
        self.place: SessionFolder | None = window_in(asked.dir, asked.server) if asked.server and asked.dir else None
        self.watchdog = HostWatchdog(self.place, self.loop) if self.place else None
        self.windows = FarWindows(self.place, self.loop, self.tell_windows)
        if asked.dir and is_own_folder(asked.dir):
            log_to(self.place.common if self.place else asked.dir)
        self.waiting = Waiting()
        self.sockets: dict[int, socket.socket | Carrier] = {}
        self.moments: dict[int, float] = {}
        # The limits on new clients, by the folders of the servers.
        self.limits: dict[str, ClientLimit] = {}
        # The descriptor that keeps the command open while this process continues without it. Then the near end's name, and the note by
        # which the next far end of that name ends this one.
        self.held: int | None = None
        self.name = ""
        self.note: pathlib.Path | None = None
        self.let_go_at = -math.inf
        for end in (0, 1):
            os.set_blocking(end, False)
        self.stream = RelayStream(0, 1, asked.session or "-")
        if asked.greeted:
            self.stream.session = "-"
        self.ways = Ways(self.loop)
        self.ways.take_stream(self.stream, self.opened_socket)
        # The near end listens for connections once it knows this.
        self.stream.tell(0, FORWARDS)
        self.loop.add(1, None, self.flush, has_more=lambda: self.stream.going)
        self.loop.add(0, self.hear)
        # True if the near end called recently. While it sleeps, its terminals do not count as attached.
        self.is_called = True

    def send(self, peer: int, datagram: bytes) -> None:
        """Send a client's datagram to the server, if the limit lets it pass."""
        if not self.limit(peer >> WINDOW_SHIFT).passes(datagram):
            return
        try:
            if peer not in self.sockets:
                while len(self.sockets) >= PEER_LIMIT:
                    self.drop(min(self.moments, key=self.moments.__getitem__))
                self.sockets[peer] = self.opened(peer >> WINDOW_SHIFT)
                self.join(peer, self.sockets[peer])
            self.moments[peer] = time.monotonic()
            self.sockets[peer].send(datagram)
        except OSError:
            # Nobody has the port now, or its queue is full: the datagram is lost, like any other may be.
            pass

    def opened(self, number: int) -> socket.socket | Carrier:
        """Return a connection to the server for a new client, to a window's server if the near end supports windows."""
        if self.asked.port:
            one = loopback_socket()
            one.connect(("127.0.0.1", self.asked.port))
            return one
        return Carrier(connected_now(os.path.join(self.folder(number), "clients")))

    def folder(self, number: int) -> str:
        """Return the folder of a window's server; nothing if it has none."""
        return self.windows.folder(number) or self.asked.dir or ""

    def limit(self, number: int) -> ClientLimit:
        """Return the limit on new clients of a window."""
        folder = self.folder(number)
        if folder not in self.limits:
            self.limits[folder] = ClientLimit(folder, time.monotonic)
        return self.limits[folder]

    def drop(self, peer: int) -> None:
        """Forget a client."""
        end = self.sockets.pop(peer)
        self.loop.remove(end)
        end.close()
        del self.moments[peer]
        self.waiting.forget(peer)

    def drop_silent(self) -> None:
        """Forget the clients that have been silent for long."""
        for peer in [peer for peer, moment in self.moments.items() if moment + FORGOTTEN_AFTER < time.monotonic()]:
            self.drop(peer)

    def opened_socket(self, name: str) -> socket.socket:
        """Return a connection to a forwarded socket of the session's folder; OSError if that fails."""
        if not self.asked.dir:
            raise FileNotFoundError(name)
        if self.place:
            return connected_now(self.windows.path(name))
        # A window's folder has no `host`; that of its session does.
        return connected_now(os.path.join(window_in(self.asked.dir).common if name == HOST else self.asked.dir, name))

    # ---- reports to the near end

    def has_command(self) -> bool:
        """Return True if the command is still there."""
        return self.ways.stream is not None

    def tell_windows(self, text: bytes) -> None:
        """Report the windows to the near end, over all transports."""
        if self.has_command():
            self.stream.tell(0, text)
        if self.ways.path:
            self.ways.path.tell(0, text)

    def use_windows(self) -> None:
        """Report windows from now on: a peer that counted as one of the relay's own window may belong to another."""
        if not self.windows.is_used:
            for peer in [peer for peer in self.sockets if peer >> WINDOW_SHIFT]:
                self.drop(peer)
        self.windows.use()

    def follow_server(self, process: int) -> None:
        """Watch for the end of the server of the relay's own window."""
        self.server = opened_process(process)
        self.loop.add(self.server, self.server_ended)

    def server_ended(self) -> None:
        """Continue with another window of the session as its own, or report the end."""
        heir = self.windows.heir()
        process = heir.process("server") if heir else None
        self.loop.remove(self.server)
        os.close(self.server)
        # An heir that ends just now is none.
        with suppress(Fault):
            if heir and process:
                self.follow_server(process)
                self.place = heir
                return
        self.tell_end()

    def tell_end(self) -> None:
        """Report the session's end, or that its server was killed, and end."""
        text, path = KILLED if self.place and self.place.ending()[1] else ENDED, self.ways.path
        if path and self.ways.chosen(self.has_command()) is path:
            path.tell(0, text)
            finish(path, ALONE)
        if self.has_command() and not (path and path.is_validated() and path.is_said()):
            self.stream.tell(0, text)
            while self.stream.going and is_taken(1, ALONE) and self.stream.flush():
                pass
        raise Ended(0)

    # ---- messages from the near end

    def flush(self) -> None:
        """Write as much as the command accepts. If its other end is gone, continue without it."""
        if not self.stream.flush():
            self.let_go()

    def hear(self) -> None:
        """Read messages from the command."""
        frames = self.stream.received()
        if frames is None:
            self.let_go()
        else:
            self.take(frames)

    def hear_path(self) -> None:
        """Read messages from the path."""
        if self.ways.path:
            self.take(self.ways.path.received())

    def take(self, frames: Iterable[tuple[int, bytes]]) -> None:
        """Take the near end's frames."""
        for peer, text in frames:
            if peer and is_datagram(text):
                self.send(peer, text)
            elif peer == 0 and text[:1] == WANTS:
                self.make_path(name_in(text))
            elif peer == 0 and text == LEAVES:
                raise Ended(0)
            elif peer == 0 and text == WINDOWS:
                self.use_windows()
            elif peer == 0 and self.stream.streams:
                self.stream.streams.take(text)
        self.drop_silent()

    # ---- the path beside the command

    def make_path(self, name: str) -> None:
        """Set up a path, and continue in a process that outlives the command. If that fails, the command stays the only transport."""
        end = udp_end(PORTS) if name and self.asked.dir and is_wanted() else None
        if not end or not self.asked.dir:
            return
        if self.held is None:
            self.held = part_from_command(SIGNALS)
            if self.held is None:
                end.close()
                return
        made = made_path(end)
        if made:
            self.ways.take_path(made[0], self.hear_path, self.opened_socket)
            self.name, self.note = name, take_over(self.asked.dir, name)
            self.stream.tell(0, made[1])
            if self.windows.told:
                made[0].tell(0, self.windows.told)

    def let_go(self) -> None:
        """Continue without the command if there is a path; otherwise end."""
        if not self.ways.path or self.held is None:
            raise Ended(0)
        for end in (self.stream.source, self.stream.target):
            self.loop.remove(end)
        self.ways.drop_stream()
        self.ways.rest()
        self.let_go_at = time.monotonic()
        try:
            close_standard()
        except OSError as fault:
            raise Ended(0) from fault
        os.close(self.held)

    def alone_at(self) -> float:
        """Return when it ends, or releases the command, without further messages. One that was called over the path waits for days."""
        if self.has_command():
            return math.inf if self.ways.rests else self.stream.heard + ALONE
        path = self.ways.path
        if not path:
            return -math.inf
        return path.heard_at + FAR_WAIT if path.place else max(path.heard_at, self.let_go_at) + ALONE

    def end_alone(self) -> None:
        """End after a long silence, or release the command if the path was used."""
        if time.monotonic() <= self.alone_at():
            return
        if not self.has_command():
            raise Ended(0)
        if not self.ways.path or not self.ways.path.place:
            raise Fault(f"the other end has been silent for {ALONE:.0f} s")
        self.let_go()

    def renew(self) -> None:
        """Replace a path that has no counters left, if the command can report the new one; otherwise end."""
        path = self.ways.path
        if path and path.is_spent():
            self.ways.drop_path()
            if not self.has_command():
                raise Ended(0)
            self.make_path(self.name)

    def end_asleep(self) -> None:
        """End the connections to the pty host once the near end has fallen asleep, so that its terminals don't count as present."""
        path = self.ways.path
        was_called, self.is_called = self.is_called, self.has_command() or path is not None and not path.is_asleep()
        if was_called and not self.is_called and path and path.streams:
            path.streams.end_named(HOST)

    # ---- the server

    def join(self, peer: int, end: socket.socket | Carrier) -> None:
        """Relay the datagrams between a client and the server."""
        if isinstance(end, Carrier):
            carrier = end
            self.loop.add(carrier, lambda: self.hear_server(peer, carrier.received()), lambda: self.flush_server(peer, carrier),
                          has_more=lambda: carrier.going)
        else:
            port = end
            self.loop.add(port, lambda: self.hear_server(peer, [datagram for datagram, _ in received(port)]))

    def hear_server(self, peer: int, datagrams: list[bytes] | None) -> None:
        """Take the server's datagrams for a client; None if the server has closed the connection."""
        if datagrams is None:
            self.drop(peer)
        for datagram in datagrams or []:
            self.waiting.add(peer, datagram)

    def flush_server(self, peer: int, carrier: Carrier) -> None:
        """Write as much of a client's datagrams as the server accepts. Forget a client after a closed connection."""
        if not carrier.flush():
            self.drop(peer)

    def prepare(self) -> float | None:
        """Report the news, and return the moment of the next step."""
        self.ways.rest()
        self.renew()
        self.ways.fill(self.waiting, self.has_command())
        self.end_alone()
        self.end_asleep()
        alone_at = self.alone_at()
        return min([*self.ways.moments(), *([alone_at] if alone_at < math.inf else [])], default=None)

    def turn(self) -> None:
        """Wait until something is ready, and handle it."""
        self.loop.turn()

    def close(self) -> None:
        """Close the sockets, and remove this process's note."""
        for peer in list(self.sockets):
            self.drop(peer)
        self.ways.drop_path()
        self.ways.drop_stream()
        forget_note(self.note)
