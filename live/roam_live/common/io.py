"""Reads, writes and lines of streams that do not block."""
from __future__ import annotations

import os

TYPE_CHECKING = False
if TYPE_CHECKING:
    import socket
    from collections.abc import Iterable

# A line has fewer bytes. A longer one is discarded.
LONGEST_LINE = 1 << 16

# Bytes that may wait for a pane's program that does not read.
UNREAD_LIMIT = 1 << 16


class LongLine(ValueError):
    """A line above the limit."""


class LineReader:
    """Splits a stream into lines, however it is cut into chunks, some with counted bytes after them. A line has fewer than `longest` bytes.
    """

    def __init__(self, longest: int = LONGEST_LINE) -> None:
        self.kept, self.longest = bytearray(), longest
        # True while `fed` skips the rest of a line that is too long.
        self.is_cut = False

    def line(self) -> bytes | None:
        """Remove and return the next line, None if none is complete; LongLine if it exceeds the limit."""
        end = self.kept.find(b"\n", 0, self.longest)
        if end < 0:
            if len(self.kept) >= self.longest:
                raise LongLine("a line is longer than any")
            return None
        line = bytes(self.kept[:end])
        del self.kept[: end + 1]
        return line

    def data(self, count: int) -> bytes | None:
        """Remove and return so many bytes; None if they have not all arrived."""
        if len(self.kept) < count:
            return None
        data = bytes(self.kept[:count])
        del self.kept[:count]
        return data

    def fed(self, chunk: bytes) -> list[str]:
        """Return all complete lines. One above the limit is skipped."""
        *lines, rest = (self.kept + chunk).split(b"\n")
        if self.is_cut and lines:
            del lines[0]
            self.is_cut = False
        self.is_cut = self.is_cut or len(rest) >= self.longest
        self.kept[:] = b"" if self.is_cut else rest
        return [line.decode("utf-8", "replace") for line in lines if len(line) < self.longest]

    def read(self, source: int) -> list[str] | None:
        """Return the lines that arrived at a descriptor; None at the end of file."""
        chunk = read(source)
        return self.fed(chunk) if chunk else None if chunk == b"" else []


class LinePeer:
    """A connection to which lines are sent. Its peer has to read unrequested lines in time."""

    # The most bytes that may wait besides answers.
    most = 1 << 16

    def __init__(self, end: socket.socket) -> None:
        self.end, self.waiting = end, bytearray()
        # Bytes of answers that were queued since the queue was last empty.
        self.answers = 0

    def put(self, lines: Iterable[str]) -> bool:
        """Queue lines, and return True if the queue is within its limit."""
        self.waiting += "".join([f"{line}\n" for line in lines]).encode("utf-8", "replace")
        return len(self.waiting) <= self.most + self.answers

    def put_answer(self, data: bytes) -> None:
        """Queue an answer to a request."""
        self.waiting += data
        self.answers += len(data)

    def write(self) -> bool:
        """Write as much as it accepts, and return True while it is connected."""
        is_there = write(self.end.fileno(), self.waiting)
        if not self.waiting:
            self.answers = 0
        return is_there


# The most bytes of one read.
MOST_READ = 65536


def read(source: int, most: int = MOST_READ) -> bytes | None:
    """Return the bytes that arrived, at most so many: None if there are none yet, and empty at the end of file."""
    try:
        return os.read(source, most)
    except BlockingIOError:
        return None
    except OSError:
        return b""


def write(target: int, waiting: bytearray) -> bool:
    """Write as much of `waiting` as the target accepts, and return True while the target is there."""
    try:
        del waiting[: os.write(target, memoryview(waiting)[:65536].tobytes())]
    except BlockingIOError:
        pass
    except OSError:
        waiting.clear()
        return False
    return True


def keep(waiting: bytearray, typed: bytes, limit: int = UNREAD_LIMIT) -> bool:
    """Append typed bytes to `waiting` up to `limit`, and return True if all of them fit. Characters are not split."""
    room = max(0, limit - len(waiting))
    while room < len(typed) and room and typed[room] & 0xC0 == 0x80:
        room -= 1
    waiting += typed[:room]
    return room >= len(typed)
