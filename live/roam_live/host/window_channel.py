"""The pty host's state of one window at the socket `host`: its terminals, its zoom, its programs, and notices."""
from __future__ import annotations

from roam_live.host.pending_spawns import HandedCommands
from roam_live.protocol.host_lines import COMMANDS, SESSION
from roam_live.protocol.spawn_request import PIPE, PIPED, RESPAWN, RESPAWNED
from roam_live.protocol.zoom_record import OVER

TYPE_CHECKING = False
if TYPE_CHECKING:
    from roam_live.common.tty import Size
    from roam_live.host.socket_peer import HostPeer
    from roam_live.host.socket_server import HostSocket
    from roam_live.host.window import WindowHost

# The longest text of a notice.
LONGEST_NOTICE = 200


def notice_line(text: str) -> str:
    """Return the line of a notice: printable ASCII, of bounded length."""
    return "say " + "".join(letter if " " <= letter <= "~" else "?" for letter in text[:LONGEST_NOTICE])


class WindowChannel:
    """A window at the socket: its connections, and the host of its panes."""

    def __init__(self, socket: HostSocket, window: int = SESSION, host: WindowHost | None = None) -> None:
        self.socket, self.loop, self.window, self.host = socket, socket.loop, window, host
        self.state = socket.state.window(window)
        self.peers: list[HostPeer] = []
        # Start options for new panes.
        self.handed: HandedCommands = HandedCommands(self.loop, lambda peer, line: socket.send(peer, [line], SESSION))
        # The notice that each new terminal gets.
        self.standing = ""
        self.zoom = self.state.zoom
        socket.add(self)

    # ---- terminals here

    def take_up(self, peer: HostPeer) -> None:
        """Add a connection here."""
        peer.channel = self
        self.peers.append(peer)
        if peer.presence:
            self.welcome(peer)
        self.renew()

    def leave(self, peer: HostPeer) -> None:
        """Remove a connection from here."""
        self.peers.remove(peer)
        peer.leave_channel()
        self.renew()

    def forget(self, peer: HostPeer) -> None:
        """Forget an ended connection: its start options, and its ownership of a zoom."""
        self.handed.drop(peer)
        if self.zoom.leave(peer.number):
            self.loop.later(f"zoom left in {self.window}", OVER, self.end_zoom)
            self.renew()

    def said(self, peer: HostPeer, line: str) -> None:
        """Record a connection's report about its terminal."""
        self.renew()
        if line == COMMANDS and self.host:
            self.host.look_at_fronts()

    def welcome(self, peer: HostPeer) -> None:
        """Send the initial reports to a new terminal."""
        if self.socket.lines:
            self.socket.lines.comes(self.window)
        notices = [notice_line(self.standing)] if self.standing else []
        self.send(peer, notices)

    def has_terminals(self) -> bool:
        """Return True if a terminal is here."""
        return any(peer.presence for peer in self.peers)

    def renew(self) -> None:
        """Report changes of the terminals before the next wait."""
        self.loop.soon(self.tell_news)

    def tell_news(self) -> None:
        """Send each subscriber the changes of the other terminals, once they are known."""
        asked = [peer for peer in self.peers if peer.asks]
        if self.loop.clock() < self.socket.knows_at:
            self.loop.at(f"others of {self.window}", self.socket.knows_at, self.renew)
            return
        there = {peer.number: peer.presence for peer in self.peers if peer.presence}
        for peer in asked:
            self.send(peer, peer.news({number: one for number, one in there.items() if number != peer.number}, self.zoom.line()))

    # ---- the zoom

    def take_zoom(self, peer: HostPeer, line: str) -> bool:
        """Take a line about a zoom of this window, and return True if it is one."""
        if not self.zoom.take(peer.number, line):
            return False
        self.renew()
        return True

    def sized(self, size: Size | None) -> None:
        """Record the size of the window; None if unknown."""
        if self.zoom.sized(size):
            self.renew()

    def end_zoom(self) -> None:
        """Drop the zoom of a departed front end if the window has another size."""
        if self.zoom.end_left():
            self.renew()

    # ---- programs, and notices

    def take_respawn(self, peer: HostPeer, line: str) -> bool:
        """Take a request to start a pane anew, or to copy its output to a command, and return True if it is one."""
        asked, pipes = RESPAWN.fullmatch(line), PIPE.fullmatch(line)
        if pipes:
            command = self.handed.for_window(pipes[3])
            fate = self.host.pipe(int(pipes[1]), int(pipes[2]), command.words[0] if command and command.words else "") if self.host else ""
            self.send(peer, [f"{PIPED} {pipes[1]} {fate or 'none'}"])
            return True
        if not asked:
            return False
        begins = self.handed.for_window(asked[3])
        is_there = begins is not None and self.host is not None and self.host.respawn(int(asked[1]), int(asked[2]), begins)
        self.send(peer, [f"{RESPAWNED} {asked[1] if is_there else 'none'}"])
        return True

    def has_asked_commands(self) -> bool:
        """Return True if somebody subscribed to foreground programs."""
        return any(peer.asks_commands for peer in self.peers)

    def tell_command(self, pane: int, generation: int, name: str) -> None:
        """Report the foreground program of that pane generation to subscribers that do not know it."""
        for peer in [peer for peer in self.peers if peer.asks_commands and peer.commands.get(pane) != (generation, name)]:
            peer.commands[pane] = generation, name
            self.send(peer, [f"command {pane} {generation} {name}"])

    def notify(self, text: str) -> None:
        """Send each terminal a notice for its user."""
        self.tell_terminals(notice_line(text))

    def tell_terminals(self, line: str) -> None:
        """Send a line to each terminal."""
        for peer in [peer for peer in self.peers if peer.presence]:
            self.send(peer, [line])

    def send(self, peer: HostPeer, lines: list[str]) -> None:
        """Send lines about this window, under the number that the connection uses."""
        self.socket.send(peer, lines, peer.at)

    def close(self) -> None:
        """End the window's part of the socket."""
        for peer in list(self.peers):
            self.leave(peer)
        for moment in ("others of", "zoom left in"):
            self.loop.drop(f"{moment} {self.window}")
        self.loop.next.pop(self.tell_news, None)
        self.socket.channels.pop(self.window, None)
