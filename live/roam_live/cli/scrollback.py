"""Commands on scrollback rows and paste buffers of a session's pty host: `mux capture` of rows, `mux log`, and `mux buffer`."""
from __future__ import annotations

import os
import sys
import time

from roam_live.cli.paste import CONNECTS, paste_buffer
from roam_live.cli.targets import making_of
from roam_live.common.errors import Fault
from roam_live.common.event_loop import READ, WRITE, ready
from roam_live.common.io import read, write
from roam_live.common.text import printable
from roam_live.common.unix_socket import connected_in
from roam_live.protocol.host_lines import LOG, MOST_ROWS, led
from roam_live.protocol.paste_text import BUFFER_EMPTY, BUFFER_TOO_LONG, MOST_BUFFER
from roam_live.protocol.scrollback_client import (Answer, AnswerReader, BadAnswer, BufferNote, ScrollbackClient, Snapshot,
                                                  number_at, rows_in)

TYPE_CHECKING = False
if TYPE_CHECKING:
    from collections.abc import Iterable
    from collections.abc import Callable
    from typing import Any

    from roam_live.session.folder import SessionFolder

# Seconds for a host to send an answer, or a part of one.
ANSWERS = 10.0

# The name of the first or last of all rows.
OUTERMOST = "-"

NOT_KEPT = "session {}: pane {} has no stored rows: {}"
NO_REASON = "its pty host gave no reason"
NO_BUFFERS = "session {}: the pty host did not list its buffers"

# The start of a style, and the characters that it may contain.
BEGIN = "\x1b["
IN_STYLE = frozenset("0123456789;:")


class RowsAsked:
    """A connection to a session's host, for sequential requests about rows and buffers."""

    def __init__(self, session: SessionFolder) -> None:
        self.session = session
        try:
            self.peer = connected_in(session.common / "host", CONNECTS)
        except OSError as fault:
            raise Fault(f"session {session.name}: its pty host is not running; `mux {session.name}` restarts it") from fault
        self.reader, self.link = AnswerReader(), ScrollbackClient(self.take)
        self.waiting = bytearray()

    def fileno(self) -> int:
        """Return its descriptor."""
        return self.peer.fileno()

    def take(self, line: str, data: bytes) -> bool:
        """Queue a request for the host."""
        self.waiting += f"{led(self.session.number, line)}\n".encode() + data
        return True

    def heard(self, seconds: float | None) -> list[Answer] | None:
        """Send the waiting bytes, and read answers within so many seconds, or forever; None if the connection has ended.

        Answers without a request are returned.
        """
        events = ready(self, READ | WRITE if self.waiting else READ, 3600.0 if seconds is None else seconds)
        if events & WRITE:
            write(self.fileno(), self.waiting)
        chunk = read(self.fileno()) if events & READ else None
        if chunk == b"":
            return None
        try:
            return [answer for answer in self.reader.fed(chunk or b"") if not self.link.take(answer)]
        except BadAnswer as fault:
            raise Fault(f"session {self.session.name}: invalid answer from the pty host: {printable(str(fault))}") from fault

    def answer(self, ask: Callable[[Callable[[Any], object]], object]) -> Any:
        """Return the answer to a request, which a call sends."""
        told: list[Any] = []
        ask(told.append)
        end = time.monotonic() + ANSWERS
        while not told:
            before = len(self.reader.came.kept)
            if self.heard(max(0.0, end - time.monotonic())) is None:
                raise Fault(f"session {self.session.name}: the pty host has ended")
            if len(self.reader.came.kept) != before or self.waiting:
                end = max(end, time.monotonic() + ANSWERS)
            elif not told and time.monotonic() >= end:
                raise Fault(f"session {self.session.name}: the pty host does not answer")
        return told[0]

    def snapshot(self, pane: int) -> Snapshot:
        """Return a snapshot of a pane, by default the focused one."""
        number, generation = making_of(self.session, pane)
        found: Snapshot | None = self.answer(lambda told: self.link.snapshot(number, generation, told))
        if not found:
            raise Fault(self.not_kept(number))
        return found

    def not_kept(self, pane: int) -> str:
        """Return the message that a pane has no rows, with the reason of the host's last answer."""
        return NOT_KEPT.format(self.session.name, pane, printable(self.link.refusal) or NO_REASON)

    def rows(self, snapshot: Snapshot, first: int, end: int) -> list[bytes]:
        """Return the next rows of a snapshot in a range, possibly fewer than all."""
        count = min(end - first, MOST_ROWS)
        found: list[bytes] = self.answer(
            lambda told: self.link.rows(snapshot.pane, snapshot.generation, first, count, lambda begin, rows: told(rows)))
        return found


# ---- rows


def row_number(word: str | None, snapshot: Snapshot, default: int, outermost: int) -> int:
    """Return the number of the row that a word names. One out of range is the first, or the last."""
    if word is None or word == OUTERMOST:
        return default if word is None else outermost
    digits = word.removeprefix("-")
    if not (digits.isascii() and digits.isdigit() and len(digits) <= 9):
        raise Fault(f"{word!r} is not a row: 0 is the first of the screen, -1 the last above it, - the first or last")
    return min(max(snapshot.end + int(word), snapshot.first), snapshot.end + len(snapshot.screen) - 1)


def capture_rows(session: SessionFolder, pane: int, begin: str | None, end: str | None, has_styles: bool, is_joined: bool,
                 writes: Callable[[bytes], object] | None = None) -> int:
    """Print rows of a pane, by default those of its screen, or hand them to a call, and return the status."""
    asked = RowsAsked(session)
    snapshot = asked.snapshot(pane)
    last = snapshot.end + len(snapshot.screen) - 1
    numbers = row_number(begin, snapshot, snapshot.end, snapshot.first), row_number(end, snapshot, last, last)
    row, last = min(numbers), max(numbers)
    writer = RowWriter(writes or sys.stdout.buffer.write, has_styles, is_joined)
    while row <= last:
        rows = asked.rows(snapshot, row, last + 1)
        if not rows:
            raise Fault(f"session {session.name}: the rows are no longer stored")
        writer.put(rows)
        row += len(rows)
    writer.end()
    return 0


def log_rows(session: SessionFolder, pane: int, has_styles: bool, is_joined: bool) -> int:
    """Print each row of a pane as it scrolls off, and the screen at the pane's end, and return the status then."""
    asked = RowsAsked(session)
    number, generation = making_of(session, pane)
    # Without new rows there is no output, so check first if rows are stored at all.
    kept: tuple[int, int] | None = asked.answer(lambda told: asked.link.count(number, generation, told))
    if kept is None:
        raise Fault(asked.not_kept(number))
    writer, following = RowWriter(sys.stdout.buffer.write, has_styles, is_joined), kept[1]
    asked.take(f"{LOG} {number} {generation} {following}", b"")
    while True:
        told = asked.heard(None)
        if told is None:
            raise Fault(f"session {session.name}: the pty host has ended")
        for answer in told:
            if answer.words[:1] == [LOG]:
                # It has ended, maybe before the subscription.
                writer.end()
                return 0
            first = number_at(answer.words, 3)
            if first > following:
                writer.put([f" [{first - following} rows were kept no longer]".encode()])
            rows = rows_in(answer.data)
            following = first + len(rows)
            writer.put(rows)
        sys.stdout.buffer.flush()


# ---- buffers


def buffer_notes(asked: RowsAsked) -> list[BufferNote]:
    """Return the buffers of a session, the newest first."""
    notes: list[BufferNote] | None = asked.answer(asked.link.buffers)
    if notes is None:
        raise Fault(NO_BUFFERS.format(asked.session.name))
    return notes


def buffer_number(asked: RowsAsked, word: str | None) -> int:
    """Return the number of the buffer that a word names, or of the newest."""
    if word is not None:
        if not (word.isascii() and word.isdigit() and len(word) <= 9):
            raise Fault(f"{word!r} is not a buffer's number; `mux buffer list {asked.session.name}` lists them")
        return int(word)
    notes = buffer_notes(asked)
    if not notes:
        raise Fault(f"session {asked.session.name} has no buffer")
    return notes[0].number


def list_buffers(session: SessionFolder) -> int:
    """Print a line for each buffer, the newest first."""
    for note in buffer_notes(RowsAsked(session)):
        print(f"{note.number}: {note.length} bytes: {printable(note.sample)}")
    return 0


def show_buffer(session: SessionFolder, word: str | None) -> int:
    """Print a buffer byte by byte, or to a terminal its characters."""
    asked = RowsAsked(session)
    number = buffer_number(asked, word)
    data: bytes | None = asked.answer(lambda told: asked.link.buffer(number, told))
    if data is None:
        raise Fault(f"session {session.name} has no buffer {number}")
    if os.isatty(1):
        lines = data.decode("utf-8", "replace").replace("\t", " ").split("\n")
        data = "\n".join(map(printable, lines)).encode("utf-8", "replace")
    sys.stdout.buffer.write(data)
    return 0


def set_buffer(session: SessionFolder, text: str | None) -> int:
    """Add a text as a paste buffer, by default from standard input."""
    data = sys.stdin.buffer.read(MOST_BUFFER + 1) if text is None else os.fsencode(text)
    if not 0 < len(data) <= MOST_BUFFER:
        raise Fault(BUFFER_TOO_LONG if data else BUFFER_EMPTY)
    asked = RowsAsked(session)
    number: int | None = asked.answer(lambda told: asked.link.add_buffer(data, told))
    if number is None:
        raise Fault(f"session {session.name}: the buffer was not stored")
    return 0


def put_buffer(session: SessionFolder, word: str | None, pane: int) -> int:
    """Paste a buffer into a pane, by default the focused one."""
    return paste_buffer(session, buffer_number(RowsAsked(session), word), pane)


def text_of(row: bytes, has_styles: bool) -> str:
    """Return the characters of a row, with or without styles. Anything else, which no row should contain, is dropped."""
    first, *parts = row[1:].decode("utf-8", "replace").split(BEGIN)
    found = [printable(first)]
    for part in parts:
        style, final, rest = part.partition("m")
        if final and IN_STYLE.issuperset(style):
            found += [f"{BEGIN}{style}m" if has_styles else "", printable(rest)]
        else:
            found.append(printable(part))
    return "".join(found)


class RowWriter:
    """Writes each row as a line by a call. With joining, a soft-wrapped row and the next one form one line."""

    def __init__(self, writes: Callable[[bytes], object], has_styles: bool, is_joined: bool) -> None:
        self.writes, self.has_styles, self.is_joined = writes, has_styles, is_joined
        # True if the last row is soft-wrapped, so that its line is still open.
        self.is_open = False

    def put(self, rows: Iterable[bytes]) -> None:
        """Write rows."""
        found = []
        for row in rows:
            self.is_open = self.is_joined and row[:1] == b"+"
            found += [text_of(row, self.has_styles), "" if self.is_open else "\n"]
        self.writes("".join(found).encode("utf-8", "replace"))

    def end(self) -> None:
        """End the last line."""
        if self.is_open:
            self.is_open = False
            self.writes(b"\n")
