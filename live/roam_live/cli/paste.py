"""Texts that a command types into a session in one piece."""
from __future__ import annotations

import sys
import time

from roam_live.cli.connection import opened
from roam_live.cli.send import lines_in_pane, type_lines
from roam_live.cli.targets import pane_places, wants_brackets
from roam_live.common.errors import Fault
from roam_live.common.event_loop import READ, WRITE, ready
from roam_live.common.io import LineReader, write
from roam_live.common.text import printable
from roam_live.common.unix_socket import connected_in
from roam_live.input.keys import pasted_acts
from roam_live.protocol.host_lines import BAD_LINE, SESSION, led, parted
from roam_live.protocol.paste_text import (INSERTED, MOST_BYTES, REFUSED, STORED, cleaned, placeholder_acts, random_name,
                                           without_brackets)

TYPE_CHECKING = False
if TYPE_CHECKING:
    from roam_live.session.folder import SessionFolder

# Seconds for a host to accept a connection, to accept part of a text, and to insert the text at its placeholder.
CONNECTS = 1.0
TAKES = 10.0


class PasteClient:
    """A connection to the pty host that stores a text."""

    def __init__(self, session: SessionFolder) -> None:
        self.session = session
        self.peer = connected_in(session.common / "host", CONNECTS)
        self.lines = LineReader()
        self.waiting = bytearray()
        self.name = random_name()

    def fileno(self) -> int:
        """Return its descriptor."""
        return self.peer.fileno()

    def answer(self, word: str) -> bool:
        """Send the waiting bytes, and return True if the answer is this word.

        Return False if the connection has ended, the text is lost, or the host does not know the request.
        """
        end = time.monotonic() + TAKES
        while time.monotonic() < end:
            events = ready(self, READ | WRITE if self.waiting else READ, end - time.monotonic())
            if events & WRITE:
                write(self.fileno(), self.waiting)
                end = time.monotonic() + TAKES
            heard = self.lines.read(self.fileno()) if events & READ else []
            if heard is None:
                return False
            for line in (parted(one)[1] for one in heard):
                if line == BAD_LINE:
                    return False
                told, _, rest = line.partition(" ")
                name, _, more = rest.partition(" ")
                if name == self.name and told == REFUSED:
                    raise Fault(f"session {self.session.name}: {printable(more)}. Nothing was typed")
                if name == self.name:
                    return told == word
        raise Fault(f"session {self.session.name}: the pty host did not accept the text")

    def is_buffer_stored(self, number: int) -> bool:
        """Store one of the host's buffers as a text, and return True if that worked."""
        self.waiting += f"{led(SESSION, f'paste {self.name} buffer {number}')}\n".encode()
        return self.answer(STORED)

    def is_stored(self, data: bytes, is_plain: bool) -> bool:
        """Send a text, and return True once the host has stored it; False if there is no host that accepts texts."""
        line = f"paste {self.name} {len(data)}{' plain' if is_plain else ''}"
        self.waiting += f"{led(SESSION, line)}\n".encode() + data
        return self.answer(STORED)


def store_text(session: SessionFolder, data: bytes, is_plain: bool) -> PasteClient | None:
    """Return a connection to a host that has stored a text; None if there is no host that accepts texts."""
    try:
        client = PasteClient(session)
    except OSError:
        return None
    if client.is_stored(data, is_plain):
        return client
    client.peer.close()
    return None


def type_text(session: SessionFolder, text: str, pane: int, is_plain: bool) -> int:
    """Type a text, whole and at one position among all acts, into a pane or the focused one.

    It is bracketed if the program wants that and `is_plain` is False. Without a host, as in a session started by hand, it is typed as acts.
    """
    focus = pane_places(session, pane).focus if pane else 0
    data = text.encode("utf-8", "replace")
    if not data:
        raise Fault("there is nothing to type")
    if len(data) > MOST_BYTES:
        raise Fault(f"a text has at most {MOST_BYTES >> 20} MB; nothing was typed")
    client = store_text(session, data, is_plain)
    if client:
        return insert_text(session, client, pane, focus)
    acts = pasted_acts(text, not is_plain and wants_brackets(session, pane))
    type_lines(session, opened(session, False), lines_in_pane(acts, pane, focus, "paste ; "))
    return 0


def insert_text(session: SessionFolder, client: PasteClient, pane: int, focus: int) -> int:
    """Type the placeholder of a stored text, and return once the host has inserted the text."""
    type_lines(session, opened(session, False), lines_in_pane(placeholder_acts(client.name), pane, focus, "paste ; "))
    if not client.answer(INSERTED):
        raise Fault(f"session {session.name}: the pty host ended; nothing was typed")
    return 0


def paste_buffer(session: SessionFolder, number: int, pane: int) -> int:
    """Paste one of the host's buffers into a pane, by default the focused one."""
    focus = pane_places(session, pane).focus if pane else 0
    try:
        client = PasteClient(session)
    except OSError as fault:
        raise Fault(f"session {session.name}: its pty host is not running; `mux {session.name}` restarts it") from fault
    if not client.is_buffer_stored(number):
        raise Fault(f"session {session.name}: the pty host ended or refused the buffer; nothing was typed")
    return insert_text(session, client, pane, focus)


def read_text(is_raw: bool) -> str:
    """Return the part of standard input to paste: of control characters only TAB and CR, and ESC if `is_raw`. It contains no brackets."""
    data = sys.stdin.buffer.read(MOST_BYTES + 1)
    if len(data) > MOST_BYTES:
        raise Fault(f"a text has at most {MOST_BYTES >> 20} MB; nothing was typed")
    text = cleaned(data.decode("utf-8", "replace"), is_raw)
    return without_brackets(text.encode("utf-8", "replace")).decode("utf-8", "replace") if is_raw else text
