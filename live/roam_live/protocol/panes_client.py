"""The subscription to a server's socket `panes`, for a program that follows it as long as the server runs."""
from __future__ import annotations

import os

from roam_live.common.errors import reason, say
from roam_live.common.event_loop import Loop
from roam_live.common.io import LineReader, write
from roam_live.common.retry import Retry
from roam_live.common.unix_socket import SocketPeer, connected, connected_now, connected_to, is_anybody
from roam_live.protocol.host_lines import BAD_LINE
from roam_live.protocol.panes import BRACKETED, CLIPBOARD, FOCUS, KEYPAD, LONGEST_LINE, METADATA, PanesState, Places
from roam_live.protocol.queries import QUERIES

TYPE_CHECKING = False
if TYPE_CHECKING:
    import socket
    from collections.abc import Callable

    from roam_live.common.file_path import FilePath

LET_GO = "the server closed the connection; it may have 64 subscribers"

# Seconds until a server's first line. Without one it may have accepted no connection.
QUIET = 3.0
TELLS_NOTHING = "the server reports nothing; it may have no free descriptor"

# If a server disconnects subscribers of clipboard texts, the front end subscribes to them again after so many seconds.
CLIPS_AGAIN = 60.0

# The pty host announces itself with this word; the server reserves a connection for it.
HOST = "host"

# A line that no server knows: its refusal, worded like the host's, shows that the server is alive. Then the most unanswered ones.
PROBE = "alive"
MOST_PROBES = 4

# A missing socket is reported after this many tries, since its server may come a moment later. A front end expects positions for so many
# seconds.
TRIES = 3
AWAITED = 10.0
NO_PANES = "the server does not report its panes (socket panes); an arrow goes to the next pane"
NO_PLACE = "the server has 64 subscribers to its panes; an arrow goes to the next pane"

# A full server sends the positions to one more subscriber and then disconnects it. After such a disconnect a subscriber trusts a connection
# only once it has lasted so many seconds.
STANDS = 1.0


class Subscription:
    """A subscription to a socket such as `panes`, which a call connects to.

    One call takes lines; another reports a lost connection. It reconnects after pauses for as long as it exists.
    """

    # The name of the timer that reconnects.
    again = "follow panes"

    def __init__(self, connects: Callable[[], socket.socket], loop: Loop, hears: Callable[[list[str]], object],
                 loses: Callable[[], object]) -> None:
        self.connects, self.loop, self.hears, self.loses = connects, loop, hears, loses
        # Handler for an exception in a report from here. Without one the exception ends the process.
        self.fails: Callable[[Exception], object] | None = None
        # The subscriptions that each connection requests first.
        self.words: list[str] = []
        self.peer: socket.socket | None = None
        self.lines = LineReader()
        self.waiting = bytearray()
        # The number of silent connections in a row, and the reason.
        self.faults = 0
        self.why = ""
        # A connection that ended soon is followed by a longer pause, whatever it reported. So two pty hosts that displace each other at the
        # server do so ever more rarely.
        self.soon = Retry()
        # True if nobody listens, as far as the socket shows.
        self.is_gone = False

    def begin(self, peer: socket.socket) -> None:
        """Follow a new connection."""
        self.peer, self.lines = peer, LineReader()
        self.soon.begins(self.loop.clock())
        self.lengthen()
        self.waiting.clear()
        self.loop.add(peer, self.hear, lambda: write(peer.fileno(), self.waiting), has_more=lambda: self.waiting, fails=self.fails,
                      is_told=True)
        for word in self.words:
            self.ask(word)

    def want(self, word: str) -> None:
        """Subscribe now, and on each later connection."""
        if word not in self.words:
            self.words.append(word)
            self.lengthen()
            self.ask(word)

    def lengthen(self) -> None:
        """Accept longer lines if a clipboard text may arrive."""
        if CLIPBOARD in self.words:
            self.lines.longest = LONGEST_LINE

    def ask(self, line: str) -> None:
        """Send the server a request, while connected."""
        if self.peer:
            self.waiting += f"{line}\n".encode()
            self.loop.changed(self.peer)

    def hear(self) -> None:
        """Read the lines that arrived."""
        lines = self.lines.read(self.peer.fileno()) if self.peer else []
        if lines is None:
            self.lost(LET_GO)
        elif lines:
            self.faults = 0
            self.hears(lines)

    def lost(self, why: str) -> None:
        """Drop a connection, and reconnect after a pause."""
        if self.peer:
            self.soon.ends(self.loop.clock())
            self.soon.fails()
        if self.soon.faults > 1 and CLIPBOARD in self.words:
            # Repeated disconnects may be due to this subscription.
            self.words.remove(CLIPBOARD)
            self.loop.later("clipboard again", CLIPS_AGAIN, lambda: self.want(CLIPBOARD))
        self.leave()
        self.why = why
        self.faults += 1
        self.loop.later(self.again, self.soon.pause(self.faults), self.connect)
        self.loses()

    def leave(self) -> None:
        """Drop the connection."""
        if self.peer:
            self.loop.remove(self.peer)
            self.peer.close()
            self.peer = None

    def end(self) -> None:
        """End the subscription."""
        self.leave()
        self.loop.drop(self.again)

    def connect(self) -> None:
        """Connect. The server then reports everything anew, and callers repeat their requests."""
        try:
            self.begin(self.connects())
            self.is_gone = False
        except OSError as fault:
            self.is_gone = isinstance(fault, (FileNotFoundError, ConnectionRefusedError, PermissionError))
            self.lost(reason(fault))


class HostSubscription(Subscription):
    """The pty host's subscription to the panes and metadata of a folder's server on this machine.

    It announces the host. Each error is reported once in words, and so is its end.
    """

    def __init__(self, path: str, loop: Loop, hears: Callable[[list[str]], object], loses: Callable[[], object],
                 tells: Callable[[str], None] = say, peer: socket.socket | None = None) -> None:
        super().__init__(lambda: connected_now(path), loop, self.heard, loses)
        self.takes, self.tells, self.told, self.fails = hears, tells, "", self.lose_for
        self.quiet = "panes are quiet"
        if peer:
            # Other windows have such timers too.
            self.again, self.quiet = f"{self.again} {path}", f"{self.quiet} {path}"
        peer = peer or connected(path)
        # The serving process, if the system reports it.
        self.server = SocketPeer.of(peer).process
        self.begin(peer)

    def begin(self, peer: socket.socket) -> None:
        """Follow a new connection; a line has to come soon."""
        super().begin(peer)
        for word in (HOST, METADATA, QUERIES):
            self.ask(word)
        self.loop.later(self.quiet, QUIET, lambda: self.tell(TELLS_NOTHING))

    def end(self) -> None:
        """End the subscription."""
        self.loop.drop(self.quiet)
        super().end()

    def lose_for(self, fault: Exception) -> None:
        """Drop the connection after an exception. The panes stay, and the server reports everything anew."""
        self.lost(f"invalid report of panes: {reason(fault)}")

    def heard(self, lines: list[str]) -> None:
        """Take lines."""
        self.loop.drop(self.quiet)
        if self.told:
            self.told = ""
            self.tells("the server reports its panes again")
        self.takes(lines)

    def lost(self, why: str) -> None:
        """Drop a connection, and report the reason unless it is back soon. The end of a server is reported elsewhere."""
        self.loop.drop(self.quiet)
        if self.faults and not self.is_gone:
            self.tell(why)
        super().lost(why)

    def tell(self, why: str) -> None:
        """Report once the reason of a failure."""
        if not self.told:
            self.why, self.told = why, f"the server's panes are not reported: {why}"
            self.tells(self.told)


class PanesSubscriber:
    """A front end's knowledge of a session's panes: their positions, None if unreported.

    One call takes changes; another takes the reason for missing reports, which the user sees once.
    """

    def __init__(self, folder: FilePath | None, loop: Loop, changed: Callable[[], object], tells: Callable[[str], object],
                 is_peer: Callable[[int], bool] = is_anybody) -> None:
        self.folder, self.loop, self.changed, self.tells = folder, loop, changed, tells
        self.told = PanesState()
        self.places: Places | None = None
        # The focused pane's title and cursor shape; and the modes that its program has set.
        self.title_and_shape = ("", 0)
        self.focus_modes: list[str] = []
        # True if that program requested the keypad's application codes.
        self.has_application_keypad = False
        # True if it wants reports of the terminal's focus.
        self.wants_focus = False
        # Called with a clipboard text that the focused program set, and the generation of its pane.
        self.clipped: Callable[[str, str], object] = lambda text, making: None
        # Called with each pane whose bell rang.
        self.rings: Callable[[int], object] = lambda pane: None
        self.has_said = self.was_told = self.has_no_place = False
        # Called at each answer to an unanswered probe.
        self.probes: list[Callable[[], object]] = []
        self.awaited_until = loop.clock() + AWAITED if folder else 0.0
        path = os.path.join(folder, "panes") if folder else ""
        self.subscription = Subscription(lambda: connected_to(path, is_peer), loop, self.hear, self.lose)
        self.subscription.want(METADATA)
        if folder:
            self.subscription.connect()

    def is_awaited(self) -> bool:
        """Return True if there is no report yet, and one may come soon."""
        return self.places is None and not self.has_said and self.loop.clock() < self.awaited_until

    def is_untold(self) -> bool:
        """Return True if there is no report, and none will come soon."""
        return self.places is None and (self.has_said or not self.was_told and not self.is_awaited())

    def follow_clips(self, clipped: Callable[[str, str], object]) -> None:
        """Set the call for each clipboard text of the focused program, with the generation of its pane."""
        self.clipped = clipped
        self.subscription.want(CLIPBOARD)

    def making(self, pane: int) -> str:
        """Return the generation of a pane number, as a word that changes with it; nothing if unknown."""
        generation = self.told.generations.get(pane) if self.places else None
        return f"{pane} {generation}" if generation else ""

    def modes(self, pane: int) -> list[str]:
        """Return the modes that a pane's program is known to have set."""
        return self.told.value("modes", pane).split() if self.places else []

    def wants_brackets(self) -> bool:
        """Return True if the focused pane's program is known to use bracketed paste."""
        return self.places is not None and self.told.has_set(self.places.focus, BRACKETED)

    def knows_modes(self) -> bool:
        """Return True if the server reports the modes of the panes' programs."""
        return self.places is not None

    def is_full(self) -> bool:
        """Return True if the server is known to have accepted its last client."""
        return self.places is not None and self.places.is_full()

    def probe(self, answered: Callable[[], object]) -> None:
        """Ask the server for a sign of life; `answered` is called once it comes."""
        if self.subscription.peer and len(self.probes) < MOST_PROBES:
            self.probes.append(answered)
            self.subscription.ask(PROBE)

    def hear(self, lines: list[str]) -> None:
        """Take the lines that arrived."""
        for line in lines:
            if line != BAD_LINE:
                self.told.take(line)
            elif self.probes:
                self.probes.pop(0)()
        if self.has_no_place and self.loop.clock() < self.subscription.soon.since + STANDS:
            self.loop.later("panes stand", STANDS, self.know)
        else:
            self.know()

    def know(self) -> None:
        """Act on the reports so far."""
        self.has_no_place = False
        before, self.places = (self.places, self.title_and_shape, self.focus_modes), self.told.places()
        self.title_and_shape = self.told.title_and_shape(self.places.focus) if self.places else ("", 0)
        self.focus_modes = self.modes(self.places.focus) if self.places else []
        self.has_application_keypad, self.wants_focus = KEYPAD in self.focus_modes, FOCUS in self.focus_modes
        self.was_told = self.was_told or self.places is not None
        if (self.places, self.title_and_shape, self.focus_modes) != before:
            self.changed()
        for pane in self.told.taken_bells():
            self.rings(pane)
        clip = self.told.taken_clip()
        if clip and self.places and clip[0] == self.places.focus:
            self.clipped(clip[1], self.making(clip[0]))

    def lose(self) -> None:
        """Continue without reports until they resume. If they never came, report that."""
        subscription, was_told = self.subscription, self.places is not None
        self.probes.clear()
        self.told, self.places, self.title_and_shape, self.focus_modes = PanesState(), None, ("", 0), []
        self.has_application_keypad = self.wants_focus = False
        self.loop.drop("panes stand")
        if was_told:
            # A relay that changes its transport cuts forwarded connections, and they are back in a moment.
            self.awaited_until = self.loop.clock() + AWAITED
            self.changed()
        if subscription.faults >= TRIES and subscription.is_gone and self.folder:
            self.say(NO_PANES)
        elif max(subscription.faults, subscription.soon.faults) >= TRIES and subscription.why == LET_GO:
            self.has_no_place = True
            self.say(NO_PLACE)

    def close(self) -> None:
        """End the subscription."""
        self.subscription.end()
        for name in ("panes stand", "clipboard again"):
            self.loop.drop(name)

    def say(self, words: str) -> None:
        """Show a message once."""
        if not self.has_said:
            self.has_said = True
            self.tells(words)
