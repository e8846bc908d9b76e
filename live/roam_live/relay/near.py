"""The near end of a relay, next to the clients, which replaces a server of another machine."""
from __future__ import annotations

import contextlib
import os
import pathlib
import shlex
import socket
import time

from roam_live.common.errors import Fault, logs, reason, say
from roam_live.common.event_loop import Loop
from roam_live.common.files import replace_text
from roam_live.common.process import opened_process
from roam_live.common.retry import SOUND, Retry
from roam_live.common.unix_socket import Listener
from roam_live.protocol.datagram_stream import Carrier, is_datagram
from roam_live.relay.common import PEER_LIMIT, Ended, Options, Ways, end_for, finish, loopback_socket, received
from roam_live.relay.far_windows import windows_in
from roam_live.relay.forwarding import BadStream
from roam_live.relay.frames import ENCRYPTED, ENDED, KILLED, LEAVES, WINDOWS, BadWords, Waiting
from roam_live.relay.near_command import END_WAIT, MOST_BROKEN, BrokenWords, Peers, RunningCommand
from roam_live.relay.near_sockets import NearSockets, NearWindows
from roam_live.relay.path_setup import Finder, NearPath, is_wanted, kept_name, near_path, wish
from roam_live.session.tmp_keepalive import Lasting

TYPE_CHECKING = False
if TYPE_CHECKING:
    from typing import Any

    from roam_live.relay.forwarding import Streams

# Seconds of silence after which another command is spawned.
SILENT = 7.0

# Seconds from the start of one command to that of the next if none answers, and seconds for each to answer.
PAUSES = (0.2, 1, 2, 5)
PATIENCE = 20.0

# Packets that acknowledge the other end's last message.
LAST_PACKETS = 3

# Seconds between two checks for a connected front end.
LOOKS = 5.0

# Seconds between two updates of other windows, and the timer's name.
WINDOWS_EVERY = 0.1
TOLD_WINDOWS = "windows told"

# A shell's exit status for an unknown command, and advice for that case.
NOT_FOUND = 127
NOT_THERE = ": roam is not installed there, or --far must name its roam-mux"


def bound_port(port: int | None) -> socket.socket | None:
    """Return a socket at a port of loopback, if one is requested."""
    if port is None:
        return None
    one = loopback_socket()
    try:
        one.bind(("127.0.0.1", port))
    except OSError as fault:
        raise Fault(f"port {port}: {fault.strerror}") from fault
    return one


class Near:
    """The near end of a relay: the socket or port of loopback for clients, and the command, which is spawned as often as needed."""

    def __init__(self, asked: Options, wakeup: int, loop: Loop | None = None) -> None:
        self.asked, self.loop = asked, loop or Loop()
        self.loop.each(self.prepare)
        self.loop.add(wakeup, lambda: end_for(wakeup))
        if asked.owner:
            self.loop.add(opened_process(asked.owner), self.left)
        self.port = bound_port(asked.port)
        if self.port:
            self.loop.add(self.port, self.hear_port)
        self.listener = self.listening(asked.dir) if asked.dir else None
        self.sockets = NearSockets(asked.dir, self.loop, self.carrying) if asked.dir else None
        self.windows = NearWindows(asked.dir, self.loop, self.carrying, self.listening, self.part_window) if asked.dir else None
        self.lasting = Lasting(asked.dir) if asked.dir else None
        self.carriers: list[Carrier] = []
        self.window_of: dict[Carrier, int] = {}
        self.waiting = Waiting()
        self.peers = Peers(self.waiting.forget)
        self.session = "-"
        self.ways = Ways(self.loop)
        self.finder = Finder(asked.host)
        self.link: RunningCommand | None = None
        # True if the far end forwards connections; None if unknown.
        self.forwards: bool | None = None
        self.tries: list[RunningCommand] = []
        self.ending: list[RunningCommand] = []
        self.has_answered = self.is_told = False
        self.next_try = 0.0
        self.retry = Retry(PAUSES)
        self.broken = BrokenWords()
        # The last report of windows, and the earliest moment to apply another.
        self.windows_told, self.windows_at = b"", 0.0
        self.looked_at = self.used_at = time.monotonic()
        self.is_over = False
        # The record of the session's end.
        self.ended = ""

    def left(self) -> None:
        """End because the process of --with has ended."""
        raise Ended(0)

    def has_live_link(self) -> bool:
        """Return True if a command is there that carries data, or would."""
        return self.link is not None and (self.ways.rests or not self.link.stream.is_silent(SILENT))

    def is_silent(self) -> bool:
        """Return True if neither a path nor a command is known to carry data."""
        return not self.ways.is_validated() and not self.has_live_link()

    def tend(self) -> None:
        """Spawn a command if one is due, and end late ones."""
        now = time.monotonic()
        self.ending = [link for link in self.ending if link.process.poll() is None]
        self.ways.rest()
        self.broken.note(not self.is_silent(), now)
        if not self.is_silent():
            self.drop_tries()
            was_validated = self.ways.was_validated() or self.link is not None and self.link.since + SOUND < now
            self.retry.faults = 0 if was_validated else self.retry.faults
            return
        # The first one may wait for the user's answer.
        if self.has_answered:
            for link in [link for link in self.tries if link.since + PATIENCE < now]:
                self.drop(link)
        if self.has_answered and not self.is_told:
            self.is_told = True
            say("the other end is silent" if self.link or self.ways.path else "the other end has ended")
        if now >= self.next_try and (self.has_answered or not self.tries):
            self.spawn(now)

    def spawn(self, now: float) -> None:
        """Spawn a command. If the system refuses a later one, report that, and retry."""
        try:
            link = RunningCommand(self.asked.command, self.session, not self.has_answered)
            link.join(self.loop, lambda: self.hear(link))
            self.tries.append(link)
        except OSError as fault:
            line = f"{self.asked.command[0]}: {fault.strerror}"
            if not self.has_answered:
                raise Fault(line) from fault
            say(line)
        self.next_try = now + self.retry.fails()

    def drop(self, link: RunningCommand) -> None:
        """End a command."""
        link.end()
        self.ending.append(link)
        self.tries = [other for other in self.tries if other is not link]
        if self.link is link:
            self.link = None
            self.ways.drop_stream()

    def drop_tries(self) -> None:
        """End the commands that are no longer needed."""
        for link in list(self.tries):
            self.drop(link)
        if self.is_told:
            self.is_told = False
            say("the other end answers again")

    def lost(self, link: RunningCommand) -> None:
        """Continue without a command that has ended."""
        is_first = not self.has_answered
        self.drop(link)
        if is_first:
            line = f"{shlex.join(self.asked.command)} ended with status {link.status()} before it answered"
            line += NOT_THERE if link.status() == NOT_FOUND else ""
            if self.asked.owner or self.asked.alone is not None:
                raise Fault(line)
            say(line)

    def refuse(self, link: RunningCommand, fault: BadWords | BadStream) -> None:
        """Continue without a command whose other end sent an invalid message.

        For a first command, or after too many such messages, report the error and end the relay.
        """
        if not self.has_answered:
            raise fault
        now = time.monotonic()
        self.next_try = max(self.next_try, self.broken.add(now))
        if self.broken.are_too_many():
            raise Fault(f"{fault}; the other end has sent invalid data {MOST_BROKEN} times; giving up")
        say(f"{fault}; next try in {self.next_try - now:.0f} s")
        self.drop(link)

    def look(self) -> None:
        """End if no front end has been connected for that long."""
        now = time.monotonic()
        if self.asked.alone is None or now < self.looked_at + LOOKS:
            return
        self.looked_at = now
        if self.sockets and self.sockets.is_used():
            self.used_at = now
        elif now > self.used_at + self.asked.alone:
            raise Ended(0)

    def answered(self, link: RunningCommand, session: str) -> None:
        """Use a command as the stream, now that its other end has answered for a session."""
        if self.session not in ("-", session):
            self.is_over = True
            raise Ended(0)
        self.tries.remove(link)
        for old in [*self.tries, *([self.link] if self.link else [])]:
            self.drop(old)
        self.link, self.session, self.forwards = link, session, None
        self.ways.take_stream(link.stream)
        self.ask_for_path()
        if self.has_answered:
            return
        self.has_answered = True
        if self.asked.dir:
            replace_text(os.path.join(self.asked.dir, "session"), f"{self.session}\n")
        print(f"port {self.port.getsockname()[1] if self.port else '-'} session {self.session}", flush=True)
        if self.asked.log:
            logs[:] = [self.asked.log]
            with open(self.asked.log, "ab") as log:
                os.dup2(log.fileno(), 2)

    def hear(self, link: RunningCommand) -> None:
        """Read frames from a command. After the first answer, no message of the other end can end this process."""
        try:
            frames = link.stream.received()
            if frames is None:
                self.lost(link)
                return
            if link.stream.session and link is not self.link:
                self.answered(link, link.stream.session)
            for peer, text in frames:
                self.take(peer, text)
            if link is self.link and link.stream.forwards is not self.forwards:
                self.note_forwarding(link.stream.forwards)
        except (BadWords, BadStream) as fault:
            self.refuse(link, fault)

    def take(self, peer: int, text: bytes) -> None:
        """Take a frame."""
        if peer:
            # An invalid datagram is dropped.
            if is_datagram(text):
                self.deliver(peer, text)
        elif text in (ENDED, KILLED):
            self.is_over, self.ended = True, "killed" if text == KILLED else ""
            raise Ended(0)
        elif text[:1] == ENCRYPTED:
            self.take_path(near_path(text))
        elif text[:1] == WINDOWS:
            self.hear_windows(text)
        elif self.link and self.link.stream.streams:
            self.link.stream.streams.take(text)

    # ---- connections to the other machine's sockets

    def note_forwarding(self, forwards: bool | None) -> None:
        """Record that the far end forwards connections, or does not: the local sockets exist while it does."""
        self.forwards = forwards
        if self.sockets and forwards:
            self.sockets.open()
            if self.link:
                self.link.stream.tell(0, WINDOWS)
        elif self.sockets and forwards is not None:
            self.sockets.close()

    def hear_windows(self, text: bytes) -> None:
        """Take a report of windows at once; of several in quick succession, the newest."""
        now = self.loop.clock()
        self.windows_told = text
        if now >= self.windows_at:
            self.use_windows()
        else:
            self.loop.at(TOLD_WINDOWS, self.windows_at, self.use_windows)

    def use_windows(self) -> None:
        """Apply the last report of windows."""
        self.loop.drop(TOLD_WINDOWS)
        self.windows_at = self.loop.clock() + WINDOWS_EVERY
        self.take_windows(windows_in(self.windows_told))

    def take_windows(self, told: dict[int, str]) -> None:
        """Take the list of windows. An existing one identifies the session."""
        if not self.windows or not told:
            return
        if not self.peers.has_windows:
            self.peers.use_windows()
        self.windows.take(told)
        if self.session not in told.values():
            self.session = next(iter(told.values()))
            with contextlib.suppress(OSError):
                replace_text(os.path.join(self.asked.dir or "", "session"), f"{self.session}\n")

    def part_window(self, number: int) -> None:
        """Drop the clients of a window that is gone."""
        for carrier in [carrier for carrier in self.carriers if self.window_of.get(carrier) == number]:
            self.part(carrier)
        self.peers.drop_window(number)

    def carrying(self) -> Streams[Any] | None:
        """Return the forwarding of the transport in use; None if there is none."""
        return self.ways.carrier.streams if self.forwards and self.ways.carrier else None

    # ---- the path beside the command

    def ask_for_path(self) -> None:
        """Request a path under a new key from the other end, if one is wanted, and drop the earlier one."""
        self.ways.drop_path()
        if self.link and is_wanted():
            self.link.stream.tell(0, wish(kept_name(self.asked.dir)))

    def take_path(self, path: NearPath | None) -> None:
        """Use a path that the other end offers, if possible."""
        if path:
            self.ways.take_path(path, self.hear_path)
            path.tell(0, WINDOWS)

    def hear_path(self) -> None:
        """Read frames from the path."""
        for peer, text in self.ways.path.received() if self.ways.path else ():
            self.take(peer, text)

    def tend_path(self) -> None:
        """Look up the other end's addresses. Replace a path that has no counters left."""
        path = self.ways.path
        if path and path.is_spent():
            self.ask_for_path()
        elif isinstance(path, NearPath):
            self.finder.look(path)

    def leave_path(self) -> None:
        """Inform the far end that nobody will come any more, or acknowledge its own end, and close the path."""
        path = self.ways.path
        if path and path.answered_at is not None and self.is_over:
            for _ in range(LAST_PACKETS):
                path.send_packet(time.monotonic())
        elif path and path.answered_at is not None:
            path.tell(0, LEAVES)
            finish(path, END_WAIT)
        self.ways.drop_path()

    # ---- clients

    def deliver(self, peer: int, datagram: bytes) -> None:
        """Send a client its datagram, if the client is still known."""
        address = self.peers.addresses.get(peer)
        if isinstance(address, Carrier):
            address.send(datagram)
        elif address and self.port:
            try:
                self.port.sendto(datagram, address)
            except OSError:
                pass

    def listening(self, folder: str, window: int = 0) -> Listener:
        """Return the socket at which clients connect. Above the limit of peers, another waits until one has left."""
        return Listener(self.loop, os.path.join(folder, "clients"), lambda peer: self.take_client(peer, window),
                        lambda: len(self.carriers) < PEER_LIMIT, lambda fault: say(f"a client waits: {reason(fault)}"))

    def take_client(self, peer: socket.socket, window: int = 0) -> None:
        """Accept a client of a window."""
        carrier = Carrier(peer)
        self.carriers.append(carrier)
        self.window_of[carrier] = window
        self.loop.add(carrier, lambda: self.hear_client(carrier), lambda: self.flush_client(carrier), has_more=lambda: carrier.going)

    def flush_client(self, carrier: Carrier) -> None:
        """Write as much as a client accepts, and drop a disconnected one."""
        if not carrier.flush():
            self.part(carrier)

    def hear_client(self, carrier: Carrier) -> None:
        """Read a client's datagrams, and drop the client at end of file or after an invalid one."""
        datagrams = carrier.received()
        if datagrams is None:
            self.part(carrier)
        for datagram in datagrams or []:
            self.waiting.add(self.peers.number(carrier, self.window_of.get(carrier, 0)), datagram)

    def hear_port(self) -> None:
        """Read datagrams at the port."""
        for datagram, address in received(self.port) if self.port else []:
            self.waiting.add(self.peers.number(address), datagram)
        self.peers.drop_silent()

    def part(self, carrier: Carrier) -> None:
        """Drop a client."""
        self.loop.remove(carrier)
        carrier.close()
        self.carriers.remove(carrier)
        self.window_of.pop(carrier, None)
        if carrier in self.peers.numbers:
            self.peers.drop(self.peers.numbers[carrier])

    def prepare(self) -> float | None:
        """Do the steps due before a wait, and return the moment of the next one."""
        self.tend()
        self.look()
        if self.lasting:
            self.lasting.turn()
        self.tend_path()
        self.ways.fill(self.waiting, self.has_live_link())
        if self.sockets:
            self.sockets.wake()
        if self.windows:
            self.windows.wake()
        return min(self.moments(), default=None)

    def moments(self) -> list[float]:
        """Return the moments of the next steps."""
        found = [self.next_try] if self.is_silent() and (self.has_answered or not self.tries) else []
        found += [] if self.asked.alone is None else [self.looked_at + LOOKS]
        if self.link and not self.ways.rests and not self.link.stream.is_silent(SILENT):
            found.append(self.link.stream.silent_at(SILENT))
        return found + self.ways.moments()

    def turn(self) -> None:
        """Wait until something is ready, and handle it."""
        self.loop.turn()

    def close(self) -> None:
        """End all commands."""
        self.leave_path()
        for link in [*self.tries, *([self.link] if self.link else [])]:
            self.drop(link)
        for link in self.ending:
            link.status()
        for carrier in list(self.carriers):
            self.part(carrier)
        for source in (self.windows, self.listener, self.sockets):
            if source:
                source.close()
        if self.asked.dir:
            self.leave(self.asked.dir)

    def leave(self, folder: str) -> None:
        """Record the end in the folder, and remove this end's files there."""
        if self.is_over:
            replace_text(os.path.join(folder, "ended"), self.ended)
        pathlib.Path(folder, "session").unlink(missing_ok=True)
