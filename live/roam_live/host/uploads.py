"""Uploads to the pty host: pasted texts, buffers, and start options of new panes, each as a line and its bytes."""
from __future__ import annotations

from roam_live.common.event_loop import Loop
from roam_live.common.patterns import LazyPattern
from roam_live.host.socket_peer import HostPeer, Upload
from roam_live.host.state import PendingPaste, SessionState
from roam_live.protocol.host_lines import SESSION, led
from roam_live.protocol.paste_text import (BUFFER_NOTHING, BUFFER_READ_ONLY, BUFFER_UNKNOWN, INSERTED, LOST, MOST_BYTES, MOST_SPENT,
                                           MOST_TEXTS, TOO_LONG, TOO_MANY, cleaned)
from roam_live.protocol.spawn_request import RAN, REFUSED, RUN
from roam_live.session.environment import ENVIRONMENT

TYPE_CHECKING = False
if TYPE_CHECKING:
    from collections.abc import Callable

    from roam_live.host.socket_server import HostSocket

# The lines that upload a text, whose bytes follow, and that ask for one's fate.
PASTE = LazyPattern(r"(?a)paste ([0-9a-f]{16}) ([1-9]\d{0,8})( plain)?")
STATUS = LazyPattern(r"(?a)status ([0-9a-f]{16})")

# The lines that paste a buffer, that add one, whose bytes follow, and that ask for one, or for all.
PASTE_BUFFER = LazyPattern(r"(?a)paste ([0-9a-f]{16}) buffer (\d{1,9})")
BUFFER = LazyPattern(r"(?a)buffer (add|show) (\d{1,9})")
BUFFER_LIST = "buffer list"


class Uploads:
    """Texts, buffers and start options that arrive over a socket, and their fate."""

    def __init__(self, socket: HostSocket) -> None:
        self.socket = socket
        self.texts, self.buffers = PendingPastes(socket.state, socket.loop, self.tell_text), socket.state.buffers
        self.texts.changes = lambda: socket.changed()

    def coming(self, is_buffer: bool) -> int:
        """Return how many bytes of texts, or of buffers, are arriving."""
        found = [peer.upload for peer in self.socket.peers if peer.upload and peer.upload.is_kept and peer.upload.beside is None]
        return sum(upload.length for upload in found if upload.is_buffer == is_buffer)

    def take_line(self, peer: HostPeer, line: str) -> bool:
        """Take a line about a text, a buffer, a command or the environment of new panes, and return True if it is one."""
        gives, asks = PASTE.fullmatch(line), STATUS.fullmatch(line)
        if gives:
            self.begin_upload(peer, gives[1], int(gives[2]), bool(gives[3]))
        elif asks:
            peer.wants(asks[1])
            self.socket.send(peer, [f"{self.texts.state(asks[1])} {asks[1]}"])
        elif line == ENVIRONMENT:
            self.socket.send(peer, self.socket.pane_environment.lines())
        else:
            return self.take_buffer_line(peer, line) or self.take_run_line(peer, line)
        return True

    def begin_upload(self, peer: HostPeer, name: str, length: int, is_plain: bool) -> None:
        """Begin the upload of a text, whose bytes follow, if there is room. A text that came before is known."""
        is_known = self.texts.state(name) != LOST
        refusal = "" if is_known else self.texts.refusal(length, self.coming(False))
        peer.upload = Upload(name, length, is_plain, not is_known and not refusal, refusal)
        peer.wants(name)

    def take_buffer_line(self, peer: HostPeer, line: str) -> bool:
        """Take a line about buffers, and return True if it is one."""
        gives, asks = PASTE_BUFFER.fullmatch(line), BUFFER.fullmatch(line)
        if line == BUFFER_LIST:
            head, *others = self.buffers.lines()
            self.socket.answer(peer, "".join(f"{one}\n" for one in (led(peer.said, head), *others)).encode("utf-8", "replace"))
        elif gives:
            self.paste_buffer(peer, gives[1], self.buffers.texts.get(int(gives[2])))
        elif asks and asks[1] == "add":
            self.begin_buffer(peer, int(asks[2]))
        elif asks:
            data = self.buffers.texts.get(int(asks[2]))
            told = f"buffer show {int(asks[2])} {'none' if data is None else len(data)}"
            self.socket.answer(peer, f"{led(peer.said, told)}\n".encode() + (data or b""))
        return bool(line == BUFFER_LIST or gives or asks)

    def begin_buffer(self, peer: HostPeer, length: int) -> None:
        """Begin the upload of a buffer, whose bytes follow."""
        refusal = BUFFER_READ_ONLY if peer.is_read_only() else self.buffers.refusal(length, self.coming(True))
        peer.upload = Upload("", length, False, not refusal, refusal, is_buffer=True)

    def take_run_line(self, peer: HostPeer, line: str) -> bool:
        """Begin the upload of start options, whose bytes follow, for a read-write peer; return True if the line is one."""
        runs, channel = RUN.fullmatch(line), self.socket.channel(peer.said)
        if not runs or peer.is_read_only() or not channel:
            return False
        refusal = channel.handed.refusal(int(runs[4]))
        peer.upload = Upload(runs[1], int(runs[4]), False, not refusal, refusal)
        peer.upload.beside = int(runs[2] or 0), int(runs[3] or 0)
        return True

    def take_run(self, peer: HostPeer, upload: Upload, beside: tuple[int, int]) -> None:
        """Queue start options whose bytes are complete."""
        channel = self.socket.channel(peer.said)
        if upload.refusal or not channel:
            self.socket.send(peer, [f"{RAN} {upload.name} {REFUSED} {upload.refusal}"], SESSION)
        else:
            channel.handed.take(peer, upload.name, beside, bytes(upload.data))

    def paste_buffer(self, peer: HostPeer, name: str, data: bytes | None) -> None:
        """Use a buffer as a text, as if its characters were uploaded."""
        text = cleaned((data or b"").decode("utf-8", "replace")).encode()
        if not text and self.texts.state(name) == LOST:
            self.socket.send(peer, [f"refused {name} {BUFFER_UNKNOWN if data is None else BUFFER_NOTHING}"])
            return
        self.begin_upload(peer, name, len(text), False)
        if peer.upload:
            peer.upload.take(bytearray(text))
            self.end(peer, peer.upload)

    def wait_for(self, peer: HostPeer) -> None:
        """Wait for more of a text. A stalled upload uses its room no longer than others."""
        self.socket.loop.later(f"upload by {peer.number}", KEPT, lambda: self.socket.drop(peer))

    def end(self, peer: HostPeer, upload: Upload) -> None:
        """Queue a text whose bytes are complete, and answer."""
        self.drop(peer)
        if upload.beside is not None:
            self.take_run(peer, upload, upload.beside)
            return
        if upload.is_buffer:
            told = f"none {upload.refusal}" if upload.refusal else f"{self.buffers.add(bytes(upload.data))} {upload.length}"
            self.socket.stores()
            self.socket.send(peer, [f"buffer add {told}"])
            return
        if upload.is_kept:
            self.texts.take(PendingPaste.of(upload.name, upload.data, upload.is_plain))
            self.socket.stores()
        state = self.texts.state(upload.name)
        self.socket.send(peer, [f"refused {upload.name} {upload.refusal}" if upload.refusal else f"{state} {upload.name}"])

    def drop(self, peer: HostPeer) -> None:
        """Abandon an upload."""
        peer.upload = None
        self.socket.loop.drop(f"upload by {peer.number}")

    def tell_text(self, name: str, word: str) -> None:
        """Report the fate of a text to the peers that sent it or asked about it."""
        for peer in [peer for peer in self.socket.peers if name in peer.names]:
            del peer.names[name]
            self.socket.send(peer, [f"{word} {name}"], SESSION)


# A text waits KEPT seconds since it was last used.
KEPT = 60.0

# The timer for texts that have waited too long.
WAITED = "pending pastes"


class PendingPastes:
    """All pending texts, and the fate of finished ones. A call reports each text that is inserted or lost."""

    def __init__(self, state: SessionState, loop: Loop, tells: Callable[[str, str], object]) -> None:
        self.texts, self.spent = state.pastes, state.spent_pastes
        self.loop, self.tells = loop, tells
        # Called after a change.
        self.changes: Callable[[], object] = lambda: None
        for text in self.texts.values():
            self.renew(text)

    def refusal(self, length: int, coming: int) -> str:
        """Return the reason to refuse a text of `length` bytes while `coming` bytes of others arrive; nothing if it fits."""
        if len(self.texts) >= MOST_TEXTS:
            return TOO_MANY
        return TOO_LONG if coming + length + sum(text.length for text in self.texts.values()) > MOST_BYTES else ""

    def take(self, text: PendingPaste) -> None:
        """Queue a text."""
        self.texts[text.name] = text
        self.spent.pop(text.name, None)
        self.renew(text)

    def renew(self, text: PendingPaste) -> None:
        """Extend the wait of a text, since it was used."""
        text.until = self.loop.clock() + KEPT
        if WAITED not in self.loop.due:
            self.loop.at(WAITED, text.until, self.tend)

    def state(self, name: str) -> str:
        """Return the report for the text of a name."""
        text = self.texts.get(name)
        return text.state() if text else self.spent.get(name, LOST)

    def placed(self, name: str) -> PendingPaste | None:
        """Return the text to insert at its placeholder, only once; None if there is none of this name."""
        text = self.texts.get(name)
        if not text or text.is_placed:
            return None
        text.is_placed = True
        self.renew(text)
        self.changes()
        self.tells(name, INSERTED)
        return text

    def drop(self, text: PendingPaste) -> None:
        """Forget a text that needs no more room."""
        if self.texts.pop(text.name, None):
            self.spent[text.name] = INSERTED if text.is_placed else LOST
        while len(self.spent) > MOST_SPENT:
            del self.spent[next(iter(self.spent))]
        self.changes()

    def tend(self) -> None:
        """Drop texts that have waited too long, and schedule the next check."""
        now = self.loop.clock()
        for text in [text for text in self.texts.values() if text.until <= now]:
            self.drop(text)
            if text.is_placed:
                text.stop()
            else:
                self.tells(text.name, LOST)
        if self.texts:
            self.loop.at(WAITED, min(text.until for text in self.texts.values()), self.tend)
