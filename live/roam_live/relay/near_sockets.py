"""The sockets of a near folder that replace those of the session on the other machine, and the folders of its windows.

Each connection to `host` is forwarded there. `panes` has one subscription there, whose lines go to all subscribers here.
"""
from __future__ import annotations

import contextlib
import os
import shutil
import socket
from collections.abc import Callable

from roam_live.common.errors import Fault, reason, say
from roam_live.common.event_loop import Loop, is_hung_up
from roam_live.common.files import replace_text
from roam_live.common.io import LinePeer, read
from roam_live.common.unix_socket import Listener
from roam_live.protocol.panes import CLIP, CLIPBOARD, METADATA, PanesState, metadata_key
from roam_live.protocol.panes_client import Subscription
from roam_live.relay.far_windows import leads_of
from roam_live.relay.forwarding import HOST
from roam_live.session.names import numbers_in, window_folder, windows_folder

TYPE_CHECKING = False
if TYPE_CHECKING:
    from typing import Any

    from roam_live.relay.forwarding import Streams

    # Returns the forwarding of the transport in use; None if there is none.
    Forwards = Callable[[], "Streams[Any] | None"]

# The most local subscribers to panes.
MOST_SUBSCRIBERS = 64

PANES = "panes"

# The shared subscriptions, requested there once for all subscribers here.
ASKED_HERE = (METADATA, CLIPBOARD)


class ForwardedHost:
    """The socket `host` of a near session, whose connections are forwarded to that of the session on the other machine.

    A connection that arrives during an outage waits until a transport is there, so that it counts as present meanwhile. A connection for
    which there is no room is closed.
    """

    def __init__(self, folder: str, loop: Loop, forwards: Forwards) -> None:
        self.forwards = forwards
        self.waiting: list[socket.socket] = []
        self.listener = Listener(loop, os.path.join(folder, HOST), self.take, lambda: len(self.waiting) < MOST_SUBSCRIBERS,
                                 lambda fault: None)

    def take(self, peer: socket.socket) -> None:
        """Forward a new connection, or queue it until there is a transport."""
        streams = self.forwards()
        if not streams:
            self.waiting.append(peer)
        elif not streams.begin(HOST, peer):
            peer.close()

    def wake(self) -> None:
        """Forward the queued connections."""
        waiting, self.waiting = self.waiting, []
        for peer in waiting:
            self.take(peer)

    def drop_gone(self) -> None:
        """Close the queued connections whose other end has gone."""
        for peer in [peer for peer in self.waiting if is_hung_up(peer)]:
            self.waiting.remove(peer)
            peer.close()

    def is_used(self) -> bool:
        """Return True if somebody is connected here."""
        self.drop_gone()
        streams = self.forwards()
        return bool(self.waiting) or streams is not None and streams.has_named(HOST)

    def close(self) -> None:
        """Remove the socket."""
        self.listener.close()
        for peer in self.waiting:
            peer.close()
        self.waiting.clear()


class PanesPeer(LinePeer):
    """A local subscriber to panes, and its queue."""

    def __init__(self, end: socket.socket) -> None:
        super().__init__(end)
        # True once it has the whole state.
        self.knows = False
        # Its subscriptions, and its last other request. Then the newest pending lines for them.
        self.words: list[str] = []
        self.said = b""
        self.news: dict[str, str] = {}

    def said_lines(self) -> list[str] | None:
        """Return its new lines, if each requests a subscription or may become such a request; else None."""
        *lines, rest = self.said.split(b"\n")
        words = [word.encode() for word in ASKED_HERE]
        if not all(line in words for line in lines) or not any(word.startswith(rest) for word in words):
            return None
        self.said = rest
        return [line.decode() for line in lines]

    def put_news(self) -> None:
        """Queue its pending lines once it has read all earlier ones."""
        if not self.waiting:
            self.put_answer("".join(f"{line}\n" for line in self.news.values()).encode())
            self.news.clear()


class SharedPanes:
    """The socket `panes` of the near folder: the panes of the other machine, with a single subscription there."""

    def __init__(self, folder: str, loop: Loop, forwards: Forwards, leads: str = "") -> None:
        self.loop, self.forwards, self.name = loop, forwards, leads + PANES
        self.told = PanesState()
        self.peers: list[PanesPeer] = []
        self.following = Subscription(self.opened, loop, self.hear, self.lose)
        self.following.again += f" {leads}" if leads else ""
        self.listener = Listener(loop, os.path.join(folder, PANES), self.take, lambda: self.following.peer is not None, lambda fault: None)
        self.following.connect()

    def opened(self) -> socket.socket:
        """Return a connection to the other machine's panes; OSError if no transport carries one now."""
        streams = self.forwards()
        if not streams:
            raise ConnectionRefusedError("nothing carries it")
        ours, theirs = socket.socketpair()
        for end in (ours, theirs):
            end.setblocking(False)
        if not streams.begin(self.name, theirs):
            ours.close()
            theirs.close()
            raise BlockingIOError("no room is left for it")
        return ours

    def wake(self) -> None:
        """Subscribe at once, now that there is a transport."""
        if not self.following.peer:
            self.following.faults = 0
            self.loop.drop(self.following.again)
            self.following.connect()

    # ---- lines of the other machine

    def hear(self, lines: list[str]) -> None:
        """Pass on its lines; invalid ones are dropped."""
        news = [line for line in lines if self.told.take(line)]
        places, metadata = [line for line in news if not metadata_key(line)], {metadata_key(line): line for line in news
                                                                               if metadata_key(line)}
        for peer in list(self.peers):
            if not peer.knows:
                self.tell_all(peer)
                continue
            peer.news.update({key: line for key, line in metadata.items() if (CLIPBOARD if key == CLIP else METADATA) in peer.words})
            self.tell(peer, places)
        # Later subscribers do not get it.
        self.told.clip = None

    def lose(self) -> None:
        """Disconnect all subscribers: the positions are unknown now. Those that reconnect later get the state of that time."""
        self.told = PanesState()
        for peer in list(self.peers):
            self.drop(peer)

    # ---- local subscribers

    def take(self, end: socket.socket) -> None:
        """Accept a subscriber; above the limit, disconnect it."""
        if len(self.peers) >= MOST_SUBSCRIBERS:
            end.close()
            return
        peer = PanesPeer(end)
        self.peers.append(peer)
        # Its requests are read once it has read all its lines, so that another connection can continue from there.
        self.loop.add(end, lambda: self.asked(peer), lambda: self.write(peer), has_more=lambda: peer.waiting,
                      hears=lambda: not peer.waiting)
        self.tell_all(peer)

    def tell_all(self, peer: PanesPeer) -> None:
        """Send a peer the whole known state, once it is complete."""
        lines = self.told.lines()
        if lines:
            peer.knows = True
            if METADATA in peer.words:
                peer.news.update(self.told.metadata_lines())
            self.tell(peer, lines)

    def tell(self, peer: PanesPeer, lines: list[str]) -> None:
        """Send lines to one subscriber. Disconnect it if it does not read them."""
        if peer.put(lines):
            peer.put_news()
        else:
            self.drop(peer)

    def write(self, peer: PanesPeer) -> None:
        """Write as much as a peer accepts."""
        if not peer.write():
            self.drop(peer)
        elif not peer.waiting:
            peer.put_news()

    def asked(self, peer: PanesPeer) -> None:
        """Take a subscriber's request.

        For anything other than the shared subscriptions it gets a connection of its own there from then on, since only it gets the answer.
        """
        chunk = read(peer.end.fileno())
        if chunk is None:
            return
        streams = self.forwards()
        if not chunk or not streams:
            self.drop(peer)
            return
        peer.said += chunk
        lines = peer.said_lines()
        if lines is not None:
            for word in lines:
                self.ask(peer, word)
            return
        self.part(peer)
        if not streams.begin(self.name, peer.end, "".join(f"{word}\n" for word in peer.words).encode() + peer.said):
            peer.end.close()

    def ask(self, peer: PanesPeer, word: str) -> None:
        """Record a subscription, request it there unless somebody did before, and send its known state."""
        is_new = word not in peer.words
        if is_new:
            peer.words.append(word)
        self.following.want(word)
        if is_new and peer.knows and word == METADATA:
            peer.news.update(self.told.metadata_lines())
            peer.put_news()

    def part(self, peer: PanesPeer) -> None:
        """Stop sending to a peer."""
        self.loop.remove(peer.end)
        self.peers.remove(peer)

    def drop(self, peer: PanesPeer) -> None:
        """Disconnect a peer."""
        self.part(peer)
        peer.end.close()

    def close(self) -> None:
        """Remove the socket, and disconnect all."""
        self.listener.close()
        self.following.end()
        for peer in list(self.peers):
            self.drop(peer)


class NearSockets:
    """All sockets, while the other end forwards connections."""

    def __init__(self, folder: str, loop: Loop, forwards: Forwards, leads: str = "") -> None:
        self.folder, self.loop, self.forwards = folder, loop, forwards
        # The prefix of their names at the other machine for a window other than the relay's own.
        self.leads = leads
        self.panes: SharedPanes | None = None
        self.host: ForwardedHost | None = None
        # The forwarding at the last check.
        self.carrier: Streams[Any] | None = None

    def open(self) -> None:
        """Create the sockets, and report one that fails."""
        if self.panes:
            return
        try:
            self.panes = SharedPanes(self.folder, self.loop, self.forwards, self.leads)
            if not self.leads:
                self.host = ForwardedHost(self.folder, self.loop, self.forwards)
        except (Fault, OSError) as fault:
            say(f"the panes or the pty host cannot be reached from here: {reason(fault)}")

    def wake(self) -> None:
        """Handle a change of the forwarding transport."""
        before, self.carrier = self.carrier, self.forwards()
        if self.panes and self.carrier and self.carrier is not before:
            self.panes.wake()
        if self.host and self.carrier:
            self.host.wake()

    def is_used(self) -> bool:
        """Return True if a front end is connected, or waits for a transport."""
        return self.host is not None and self.host.is_used()

    def close(self) -> None:
        """Remove the sockets."""
        for one in (self.host, self.panes):
            if one:
                one.close()
        self.panes = self.host = None


# The windows created at once, and then each second. Each has a folder and two sockets, and the other machine may report new ones without
# end.
MADE_AT_ONCE = 99
MADE_EACH_SECOND = 2.0

# The moment at which more may be created.
MOMENT = "windows made"


class NearWindow:
    """A window: the id of its session, and the sockets in its folder."""

    def __init__(self, folder: str, name: str, loop: Loop, forwards: Forwards, listens: Callable[[str], Listener], number: int) -> None:
        self.folder, self.name = folder, name
        for path in (os.path.dirname(folder), folder):
            with contextlib.suppress(FileExistsError):
                os.mkdir(path, 0o700)
        self.listener = listens(folder)
        self.sockets = NearSockets(folder, loop, forwards, leads_of(number))
        self.sockets.open()
        # A process that finds this file finds the rest too.
        replace_text(os.path.join(folder, "session"), f"{name}\n")

    def close(self) -> None:
        """Remove it: its client ends with its stream."""
        with contextlib.suppress(OSError):
            os.unlink(os.path.join(self.folder, "session"))
        self.listener.close()
        self.sockets.close()
        shutil.rmtree(self.folder, ignore_errors=True)


class NearWindows:
    """All windows, as the far end reports them.

    Calls create the socket of a window's clients, return the forwarding in use, and report a window that is gone.
    """

    def __init__(self, folder: str, loop: Loop, forwards: Forwards, listens: Callable[[str, int], Listener],
                 parts: Callable[[int], object]) -> None:
        self.folder, self.loop, self.forwards, self.listens, self.parts = folder, loop, forwards, listens, parts
        self.windows: dict[int, NearWindow] = {}
        self.told: dict[int, str] = {}
        # How many may be created, and since when.
        self.room, self.since = float(MADE_AT_ONCE), loop.clock()

    def take(self, told: dict[int, str]) -> None:
        """Take the list of windows: remove those that are gone, and create new ones."""
        self.told = told
        for number, window in list(self.windows.items()):
            if told.get(number) != window.name:
                self.drop(number)
        if not self.windows:
            self.clean()
        self.make_all()

    def make_all(self) -> None:
        """Create the missing windows, as many as permitted now, and the others later."""
        now = self.loop.clock()
        self.room, self.since = min(float(MADE_AT_ONCE), self.room + (now - self.since) * MADE_EACH_SECOND), now
        self.loop.drop(MOMENT)
        for number, name in self.told.items():
            if number in self.windows:
                continue
            if self.room < 1:
                self.loop.later(MOMENT, (1 - self.room) / MADE_EACH_SECOND, self.make_all)
                return
            self.room -= 1
            self.make(number, name)

    def make(self, number: int, name: str) -> None:
        """Create a window, and report a failure."""
        try:
            self.windows[number] = NearWindow(window_folder(self.folder, number), name, self.loop, self.forwards,
                                              lambda folder: self.listens(folder, number), number)
        except (Fault, OSError) as fault:
            say(f"cannot show window {number} here: {reason(fault)}")

    def drop(self, number: int) -> None:
        """Remove a window."""
        self.windows.pop(number).close()
        self.parts(number)

    def wake(self) -> None:
        """Handle a change of the forwarding transport."""
        for window in self.windows.values():
            window.sockets.wake()

    def clean(self) -> None:
        """Remove the files of an earlier relay, as far as they are readable now."""
        with contextlib.suppress(Fault):
            for number in [number for number in numbers_in(windows_folder(self.folder)) if number not in self.windows]:
                shutil.rmtree(window_folder(self.folder, number), ignore_errors=True)

    def close(self) -> None:
        """Remove all."""
        self.loop.drop(MOMENT)
        for number in list(self.windows):
            self.drop(number)
        with contextlib.suppress(OSError):
            os.rmdir(windows_folder(self.folder))
