"""The pump of the pty host: it moves bytes between a pane's socket and its terminal so that each is always in the kernel.

A byte goes by splice(2) into a pipe, and from there to the end of a memfd, its log. sendfile(2) sends the log from the log's file position.
The size and the position are the kernel's, and the holder has the same descriptors. So a host that is killed between two steps loses no
byte and doubles none, and the next one goes on where it stopped.
"""
from __future__ import annotations

import errno
import os

from roam_live.common.suppress import suppress

TYPE_CHECKING = False
if TYPE_CHECKING:
    from collections.abc import Callable, Mapping

# splice(2), if Python has it (3.10), and SPLICE_F_NONBLOCK.
SPLICE: Callable[..., int] | None = getattr(os, "splice", None)
NOW = 2

# A log frees whole pages in steps of so many bytes. The last STEP that were sent stay, since the pages may be unread in a socket.
STEP, PAGE = 1 << 16, 4096

# So many steps fill no pipe: each leaves one page partly empty at most.
MOST_STEPS = 8

# Without splice, at most so many bytes are in this process alone.
MOST_COPIED = 4096

# The note of a pipe has so many bytes: the name of a log, filled with blanks.
LONGEST_NOTE = 32

# If this variable is `plain`, the pump uses no splice, as on a system that refuses it. It is for trials.
PUMP, PLAIN = "ROAM_PUMP", "plain"


class Transit:
    """The pipe through which bytes go to logs, and a memfd with the name of their log. All panes of a host share it."""

    def __init__(self, reader: int, writer: int, note: int) -> None:
        self.reader, self.writer, self.note = reader, writer, note
        self.noted = b""
        self.splice = None if os.environ.get(PUMP) == PLAIN else SPLICE

    @classmethod
    def made(cls) -> Transit:
        """Return a new pipe with its note; OSError without a free descriptor."""
        ends = os.pipe2(os.O_CLOEXEC | os.O_NONBLOCK)
        try:
            return cls(*ends, os.memfd_create("note", os.MFD_CLOEXEC))
        except OSError:
            for end in ends:
                os.close(end)
            raise

    def ends(self) -> list[int]:
        """Return its descriptors."""
        return [self.reader, self.writer, self.note]

    def goes_to(self, name: bytes) -> bool:
        """Note the log of the next bytes, and return False if the system refuses that."""
        if name != self.noted:
            self.noted = b""
            with suppress(OSError):
                os.pwrite(self.note, name.ljust(LONGEST_NOTE), 0)
                self.noted = name
        return name == self.noted

    def empty(self, logs: Mapping[bytes, ByteLog]) -> None:
        """Move the bytes that an earlier host left here to their log. They are dropped if their pane is gone."""
        log = logs.get(os.pread(self.note, LONGEST_NOTE, 0).rstrip())
        with suppress(BlockingIOError):
            while rest := os.read(self.reader, MOST_COPIED):
                if log:
                    log.append(rest)


class ByteLog:
    """The bytes of one direction of a pane: appended at the end, and sent from the file position.

    If the system refuses to write more, as above a limit of the size of files, the bytes behind wait in this process alone.
    """

    def __init__(self, name: str, end: int | None = None) -> None:
        self.name = name.encode()
        self.end = os.memfd_create(name, os.MFD_CLOEXEC) if end is None else end
        self.size, self.sent = os.fstat(self.end).st_size, os.lseek(self.end, 0, os.SEEK_CUR)
        # The bytes before this position are freed. An earlier host has freed all but the last steps.
        self.freed = max(0, self.sent - 4 * STEP) // PAGE * PAGE
        # True if the source of the last bytes had no more then.
        self.is_drained = False
        # The refused bytes, and the number of those that are sent.
        self.refused, self.passed = bytearray(), 0

    def waits(self) -> int:
        """Return the number of bytes that are not sent."""
        return self.size - self.sent + len(self.refused)

    def position(self) -> int:
        """Return the position behind all bytes."""
        return self.size + self.passed + len(self.refused)

    def append(self, data: bytes) -> None:
        """Append bytes of this process."""
        with suppress(OSError):
            while data and not self.refused:
                count = os.pwrite(self.end, data, self.size)
                self.size += count
                data = data[count:]
        self.refused += data

    def take(self, transit: Transit, source: int, most: int) -> int | None:
        """Append bytes from a source, at most so many, and return their number: None if there are none yet, and 0 at the end of file."""
        self.is_drained = False
        if not transit.splice or self.refused or not transit.goes_to(self.name):
            return self.copy_from(source, most)
        count = 0
        try:
            for _ in range(MOST_STEPS):
                more = transit.splice(source, transit.writer, most - count, flags=NOW) if count < most else 0
                count += more
                if not more:
                    break
        except BlockingIOError:
            self.is_drained = True
            if not count:
                return None
        except OSError as fault:
            if not count:
                return self.without_splice(transit, source, most, fault)
        self.store(transit, transit.splice, count)
        return count

    def store(self, transit: Transit, splice: Callable[..., int], count: int) -> None:
        """Append the bytes in the pipe."""
        with suppress(OSError):
            while count:
                moved = splice(transit.reader, self.end, count, offset_dst=self.size)
                self.size += moved
                count -= moved
        if count:
            self.refused += os.read(transit.reader, count)

    def without_splice(self, transit: Transit, source: int, most: int, fault: OSError) -> int | None:
        """Go on without splice if the system refuses it; else the source is at its end."""
        if fault.errno not in (errno.EINVAL, errno.ENOSYS, errno.EPERM):
            return 0
        transit.splice = None
        return self.copy_from(source, most)

    def copy_from(self, source: int, most: int) -> int | None:
        """Do the same by read and write. The bytes of a host that is killed in between are lost."""
        count = 0
        try:
            while count < most and (data := os.read(source, min(most - count, MOST_COPIED))):
                self.append(data)
                count += len(data)
        except BlockingIOError:
            self.is_drained = True
            return count or None
        except OSError:
            return count
        return count

    def copy(self, start: int) -> bytes:
        """Return a copy of the bytes from a position on."""
        stored = os.pread(self.end, self.size - start, start) if start < self.size else b""
        return stored + bytes(self.refused[max(0, start - self.size - self.passed) :])

    def send(self, target: int, most: int) -> int:
        """Send bytes, at most so many, as far as the target accepts them, and return their number; OSError if it is gone."""
        count = 0
        with suppress(BlockingIOError):
            if self.sent == self.size and self.refused:
                return self.send_refused(target, most)
            count = os.sendfile(target, self.end, None, min(most, self.size - self.sent))
        self.sent += count
        if self.sent - self.freed >= 2 * STEP:
            self.free()
        return count

    def send_refused(self, target: int, most: int) -> int:
        """Send bytes of this process alone."""
        count = os.write(target, self.refused[:most])
        del self.refused[:count]
        self.passed += count
        return count

    def drop(self) -> None:
        """Drop the bytes that are not sent."""
        self.sent = os.lseek(self.end, self.size, os.SEEK_SET)
        self.passed += len(self.refused)
        self.refused.clear()

    def free(self) -> None:
        """Free the memory of sent bytes."""
        import mmap

        end = (self.sent - STEP) // PAGE * PAGE
        with mmap.mmap(self.end, end - self.freed, offset=self.freed) as pages:
            pages.madvise(mmap.MADV_REMOVE)
        self.freed = end

    def close(self) -> None:
        """Close it."""
        os.close(self.end)
