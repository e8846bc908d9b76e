"""The socket `host` of a session's folder: its connections, their requests, and the state that all windows share.

Each line begins with the number of the window that it is about, both ways; 0 is the session. In a session that has one window and no
numbers, 0 is that window.
"""
from __future__ import annotations

import os

from roam_live.common.errors import Fault, reason, say
from roam_live.common.event_loop import Loop
from roam_live.common.io import LongLine
from roam_live.common.patterns import LazyPattern
from roam_live.common.unix_socket import Listener
from roam_live.host.scrollback_queries import RowAsker
from roam_live.host.socket_peer import HostPeer, client_line
from roam_live.host.state import SessionState
from roam_live.host.uploads import Uploads
from roam_live.protocol.colours import Colours
from roam_live.protocol.host_lines import BAD_LINE, COMMANDS, SESSION, led, parted
from roam_live.protocol.presence import CLIENTS, LEAVE, LEAVE_OTHERS, SHOW, WHO, Attended, Presence, presence_said
from roam_live.session.environment import PaneEnvironment

TYPE_CHECKING = False
if TYPE_CHECKING:
    import socket
    from collections.abc import Callable

    from roam_live.host.holder_link import HolderLink
    from roam_live.host.scrollback import Scrollback
    from roam_live.host.scrollback_store import PaneRows
    from roam_live.host.window_channel import WindowChannel
    from roam_live.host.window_commands import WindowLines

# The most connections, of front ends on this machine and on others.
MOST_PEERS = 256

# The limit on unread answers of all peers together; a peer that reads no answer for so many seconds is disconnected.
MOST_ANSWERS = 1 << 25
UNREAD = 60.0

# Seconds for which the output of the scrollback process stays unread for a slow log reader.
LOG_WAIT = 1.0

# A host that replaces another waits so many seconds for the terminals to reconnect before it reports the other terminals of the session.
RECONNECTS = 4.0

# The name of the socket at the holder.
LISTENER = "listener"

# The timer for requests about rows.
ROWS_DUE = "rows are asked for"

# The requests to detach one of the terminals, and to have it show a window.
LEAVES = LazyPattern(r"(?a)leave (\d{1,9})")
SHOWS = LazyPattern(r"(?a)show (\d{1,9}) ([1-9]\d?)")


class HostSocket:
    """The socket: connections and their lines, the environment and colours of new panes, and scrollback rows. Texts belong to its uploads.

    A channel has the state of one window. If windows can be opened, `lines` answers requests about them.
    """

    def __init__(self, loop: Loop, rows: Scrollback | None = None, state: SessionState | None = None,
                 link: HolderLink | None = None) -> None:
        self.loop, self.state, self.link = loop, state or SessionState(), link
        self.rows: Scrollback | None = None
        if rows:
            self.offer_rows(rows)
        self.listener: Listener | None = None
        self.peers: list[HostPeer] = []
        self.channels: dict[int, WindowChannel] = {}
        self.last = 0
        self.pane_environment = PaneEnvironment(self.state.environment)
        self.uploads = Uploads(self)
        self.colours = Colours(self.state.colours)
        self.attended = Attended()
        # The moment from which the terminals of the session are known.
        self.knows_at = 0.0
        self.lines: WindowLines | None = None
        # Called after a line that may have changed the state.
        self.changed: Callable[[], object] = lambda: None
        # Called before the answer that a text is stored.
        self.stores: Callable[[], object] = lambda: None

    def offer_rows(self, rows: Scrollback) -> None:
        """Answer requests about these scrollback rows."""
        self.rows, rows.came = rows, self.see_to_rows
        rows.logs_came, rows.logs_back, rows.waits_for_logs = self.tell_logged, self.skip_logged, self.has_full_log

    # ---- the socket

    def listen(self, folder: str | os.PathLike[str]) -> None:
        """Listen in a session's folder, unless that is done. If another process listens there, no terminals are known."""
        if self.listener:
            return
        path, kept = os.path.join(folder, "host"), self.link.claim(LISTENER) if self.link else None
        held = kept.ends[0] if kept and os.path.lexists(path) else None
        try:
            self.listener = Listener(self.loop, path, self.take, self.has_room, lambda fault: None, True, held)
            self.keep_listener()
        except (Fault, OSError) as fault:
            say(f"this pty host cannot accept connections: {reason(fault)}")

    def is_found(self) -> bool:
        """Return True if the socket is still at its path."""
        return self.listener is None or self.listener.is_found()

    def listen_again(self, folder: str | os.PathLike[str]) -> None:
        """Bind the removed socket again in a folder; Fault or OSError if that fails."""
        if self.listener and not self.is_found():
            self.listener.move(os.path.join(folder, "host"))
            self.keep_listener()

    def keep_listener(self) -> None:
        """Have the holder keep the socket. Connections wait there for the next host."""
        if self.link and self.listener:
            self.link.put(LISTENER, [self.listener.end.fileno()])

    def has_room(self) -> bool:
        """Return True if another connection fits."""
        return len(self.peers) < MOST_PEERS

    def take(self, end: socket.socket) -> None:
        """Accept a connection."""
        self.last += 1
        peer = HostPeer(end, self.last)
        self.peers.append(peer)
        if self.rows:
            peer.asker = RowAsker(self.rows, lambda data: self.answer(peer, data), lambda line: self.send_led(peer, [line]),
                                  lambda: self.take_lines(peer))
        self.loop.add(end, lambda: self.hear(peer), lambda: self.write(peer), has_more=lambda: peer.waiting,
                      hears=lambda: not peer.is_busy(), fails=lambda fault: self.drop(peer), is_told=True)

    # ---- windows

    def channel(self, number: int) -> WindowChannel | None:
        """Return the channel of a window. For the session, return that of its only window, else of the one used last, else the first."""
        last = self.state.last_window if number == SESSION else number
        found = self.channels.get(number) or self.channels.get(last)
        return found or (self.channels[min(self.channels)] if self.channels and number == SESSION else None)

    def add(self, channel: WindowChannel) -> None:
        """Add a window, with the terminals that already announced themselves there."""
        self.channels[channel.window] = channel
        for peer in list(self.peers):
            if peer.channel is None and peer.at is not None and self.channel(peer.at) is channel:
                channel.take_up(peer)

    def enter(self, peer: HostPeer, number: int) -> None:
        """Move a connection to a window, away from any other."""
        if peer.at == number:
            return
        if peer.channel:
            peer.channel.leave(peer)
        peer.at = number
        channel = self.channel(number)
        if channel:
            channel.take_up(peer)

    # ---- input

    def hear(self, peer: HostPeer) -> None:
        """Take the input of a peer, and disconnect it at end of file or after an invalid line."""
        chunk = peer.received()
        if chunk == b"":
            self.drop(peer)
            return
        peer.came.kept += chunk or b""
        self.take_lines(peer)

    def take_lines(self, peer: HostPeer) -> None:
        """Take a peer's lines, as far as earlier ones are answered."""
        if peer in self.peers:
            self.loop.changed(peer.end)
        while peer in self.peers and not peer.is_busy():
            if peer.upload:
                peer.upload.take(peer.came.kept)
                if peer.upload.left:
                    self.uploads.wait_for(peer)
                    return
                self.uploads.end(peer, peer.upload)
            try:
                told = peer.came.line()
            except LongLine:
                self.drop(peer)
                return
            if told is None:
                return
            number, line = parted(told.decode("utf-8", "replace"))
            if number is None:
                self.send(peer, [BAD_LINE])
                continue
            peer.said = number
            self.take_line(peer, number, line)
            self.changed()

    def take_line(self, peer: HostPeer, number: int, line: str) -> None:
        """Take a line of a connected peer, about a window or the session."""
        if not (self.take_presence(peer, number, line) or self.uploads.take_line(peer, line) or self.take_client_line(peer, line)
                or self.take_row_line(peer, number, line)
                or self.lines is not None and self.lines.take(peer, number, line) or self.take_own(peer, number, line)):
            self.send(peer, [BAD_LINE], number)

    def take_presence(self, peer: HostPeer, number: int, line: str) -> bool:
        """Take a line about the terminals at a window, and return True if it is one."""
        presence = presence_said(line)
        if not presence and line not in (WHO, COMMANDS):
            return False
        self.enter(peer, number)
        if presence:
            self.comes(peer, presence)
        elif line == WHO:
            peer.asks = True
            self.send(peer, [self.own_line()], SESSION)
        else:
            peer.asks_commands = True
        if peer.channel:
            peer.channel.said(peer, line)
        return True

    def own_line(self) -> str:
        """Return the line that names this host, with the number of the session's upgrades if there were some."""
        return f"host {self.state.name} {self.state.upgrades}" if self.state.upgrades else f"host {self.state.name}"

    def comes(self, peer: HostPeer, presence: Presence) -> None:
        """Record a terminal that is here, or its new size."""
        if not peer.presence:
            peer.since = self.attended.comes(presence.name, self.loop.clock())
        is_new, peer.presence = not peer.presence, presence
        if is_new and peer.channel:
            peer.channel.welcome(peer)

    def take_row_line(self, peer: HostPeer, number: int, line: str) -> bool:
        """Take a request about rows of a window, and return True if it is one."""
        channel = self.channel(number)
        if not peer.asker or not channel or not peer.asker.take(line, channel.window, number):
            return False
        self.see_to_rows()
        return True

    def take_own(self, peer: HostPeer, number: int, line: str) -> bool:
        """Take a read-write terminal's line about itself: its zoom, its environment, its colours; return True if it is one."""
        channel = self.channel(number)
        return not peer.is_read_only() and (channel is not None and (channel.take_zoom(peer, line) or channel.take_respawn(peer, line))
                                            or self.pane_environment.take(line) or self.colours.take(line))

    # ---- attached terminals

    def clients(self) -> list[str]:
        """Return the lines that describe the terminals at all windows."""
        found = [(peer, peer.channel.window if peer.channel else 0) for peer in self.peers if peer.presence]
        lines = [client_line(peer, window or 1) for peer, window in found]
        return [*lines, f"{CLIENTS} {len(lines)}"]

    def take_client_line(self, peer: HostPeer, line: str) -> bool:
        """Take a line about the terminals of all windows, and return True if it is one. A read-only peer may not detach others."""
        leaves, shows = LEAVES.fullmatch(line), SHOWS.fullmatch(line)
        if line == CLIENTS:
            self.answer_lines(peer, self.clients())
        elif peer.is_read_only() or not (leaves or shows or line == LEAVE_OTHERS):
            return False
        elif leaves:
            self.send(peer, [f"left {leaves[1]}" if self.ask(int(leaves[1]), LEAVE) else "left none"])
        elif shows:
            self.send(peer, [f"shown {shows[1]}" if self.ask(int(shows[1]), f"{SHOW} {shows[2]}") else "shown none"])
        else:
            self.send(peer, [f"left {self.leave_others(peer)}"])
        return True

    def leave_others(self, asker: HostPeer) -> int:
        """Ask all terminals but the requesting one to detach, and return their number."""
        found = [peer for peer in self.peers if peer.presence and peer is not asker]
        for peer in found:
            self.send(peer, [LEAVE], SESSION)
        return len(found)

    def ask(self, number: int, line: str) -> bool:
        """Send a request to a terminal, and return True if its number exists."""
        found = [peer for peer in self.peers if peer.number == number and peer.presence]
        for peer in found:
            self.send(peer, [line], SESSION)
        return bool(found)

    def await_terminals(self) -> None:
        """Delay reports of the session's terminals until those of the earlier host had time to reconnect."""
        self.knows_at = self.loop.clock() + RECONNECTS

    def has_asked_windows(self) -> bool:
        """Return True if some peer subscribed to windows."""
        return self.lines is not None and self.lines.has_asked()

    # ---- rows

    def tell_logged(self, rows: PaneRows) -> None:
        """Send the log readers of a pane its new rows."""
        for peer in list(self.peers):
            if peer.asker and peer.asker.logged and peer.asker.logged.rows is rows and not peer.is_full():
                peer.asker.tell_logged()

    def skip_logged(self, rows: PaneRows, end: int, withdrawn: list[bytes]) -> None:
        """Have the log readers of a pane skip rows that are withdrawn from a number on, once they leave again."""
        for peer in list(self.peers):
            if peer.asker and peer.asker.logged and peer.asker.logged.rows is rows:
                peer.asker.skip_logged(end, withdrawn)

    def see_to_rows(self) -> None:
        """Continue with requests about rows before the next wait."""
        self.loop.soon(self.tell_rows)

    def tell_rows(self) -> None:
        """Continue with requests about rows, and set a timer for later ones."""
        now, dues = self.loop.clock(), []
        for peer in list(self.peers):
            due = peer.asker.turn(now, not peer.is_full()) if peer.asker else None
            dues += [] if due is None else [due]
        if dues:
            self.loop.at(ROWS_DUE, min(dues), self.tell_rows)
        else:
            self.loop.drop(ROWS_DUE)

    def has_full_log(self) -> bool:
        """Return True while the host has to wait for a slow log reader.

        Each reader gets LOG_WAIT seconds, and no second wait until it has read everything.
        """
        now, found = self.loop.clock(), False
        for peer in self.peers:
            if not peer.logs() or not peer.is_full():
                peer.awaited_until = 0.0
            elif peer.asker and not peer.asker.is_late:
                if not peer.awaited_until:
                    peer.awaited_until = now + LOG_WAIT
                    self.loop.later(f"log of {peer.number}", LOG_WAIT, lambda: None)
                peer.asker.is_late = now >= peer.awaited_until
                found = found or not peer.asker.is_late
        return found

    # ---- output

    def send(self, peer: HostPeer, lines: list[str], number: int | None = None) -> None:
        """Send lines about a window, by default about the subject of the peer's last line. Disconnect a peer with too many unread ones."""
        lead = peer.said if number is None else number
        self.send_led(peer, [led(lead, line) for line in lines])

    def send_led(self, peer: HostPeer, lines: list[str]) -> None:
        """Send lines that include their number. Disconnect a peer with too many unread ones."""
        has_room = peer.put(lines)
        self.waits(peer)
        if not has_room:
            self.drop(peer)

    def waits(self, peer: HostPeer) -> None:
        """Let the loop write to a peer."""
        if peer in self.peers:
            self.loop.changed(peer.end)

    def answer_lines(self, peer: HostPeer, lines: list[str]) -> None:
        """Answer the last line of a connection with many lines."""
        self.answer(peer, "".join(f"{led(peer.said, line)}\n" for line in lines).encode("utf-8", "replace"))

    def answer(self, peer: HostPeer, data: bytes) -> None:
        """Queue an answer with data for a peer, whose next request waits until most of it is read.

        If the answers of all peers become too large, disconnect this one.
        """
        peer.put_answer(data)
        self.waits(peer)
        if sum(one.answers for one in self.peers) > MOST_ANSWERS:
            self.drop(peer)
        elif peer in self.peers and f"unread by {peer.number}" not in self.loop.due:
            self.loop.later(f"unread by {peer.number}", UNREAD, lambda: self.drop_unread(peer))

    def drop_unread(self, peer: HostPeer) -> None:
        """Disconnect a peer that has read nothing for too long, except for log readers."""
        if not peer.logs():
            self.drop(peer)

    def write(self, peer: HostPeer) -> None:
        """Write as much as a peer accepts."""
        waiting = len(peer.waiting)
        if not peer.write():
            self.drop(peer)
            return
        if not peer.waiting:
            self.loop.drop(f"unread by {peer.number}")
        elif len(peer.waiting) < waiting and peer.answers:
            self.loop.later(f"unread by {peer.number}", UNREAD, lambda: self.drop_unread(peer))
        if peer.logs():
            self.see_to_rows()
        if peer.came.kept:
            self.take_lines(peer)

    def drop(self, peer: HostPeer) -> None:
        """Disconnect a peer."""
        if peer not in self.peers:
            return
        self.uploads.drop(peer)
        peer.lend()
        self.loop.drop(f"unread by {peer.number}")
        if peer.asker:
            peer.asker.close()
        self.loop.remove(peer.end)
        peer.end.close()
        self.peers.remove(peer)
        if peer.presence:
            self.attended.leaves(peer.presence.name, self.loop.clock())
        if peer.channel:
            peer.channel.leave(peer)
        for channel in self.channels.values():
            channel.forget(peer)
        if self.listener:
            self.listener.room_changed()

    def close(self) -> None:
        """Close the socket. The last lines, such as the end of a pane, are sent as far as peers accept them."""
        for peer in list(self.peers):
            peer.write()
            self.drop(peer)
        for channel in list(self.channels.values()):
            channel.close()
        if self.listener:
            if self.link:
                self.link.drop(LISTENER)
            self.listener.close()
            self.listener = None
