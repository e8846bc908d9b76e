"""Files and folders: bounded logs, atomic replacements, and the owners of folders."""
from __future__ import annotations

import fcntl
import os
import time

from roam_live.common.suppress import suppress

# The most bytes of a log, and the newest bytes that stay if it would exceed them.
LOG_LIMIT = 1 << 20
KEPT = 1 << 19

# Seconds that a writer waits for its turn at a file, and between its tries.
TURN_SECONDS = 0.1
ADD_SECONDS = 1.0
TURN_STEP_SECONDS = 0.002


class LogTurn:
    """A writer's turn at a log, in a `with`: the other tools wait with their lines. It makes room for `more` bytes first.

    A shortened log is read and written again, so a line that somebody appended meanwhile would be lost.
    """

    def __init__(self, path: str | os.PathLike[str], more: int = 0) -> None:
        self.path, self.more = path, more
        self.end: int | None = None

    def __enter__(self) -> None:
        with suppress(OSError):
            self.end = os.open(self.path, os.O_RDWR | os.O_APPEND | os.O_CLOEXEC | os.O_NOFOLLOW)
            # A writer that was stopped within its turn doesn't stop the others. Their log may then be larger for a while.
            limit = LOG_LIMIT if locked_soon(self.end) else 2 * LOG_LIMIT
            if os.fstat(self.end).st_size + self.more > limit:
                shorten_log(self.end)

    def __exit__(self, *fault: object) -> None:
        if self.end is not None:
            os.close(self.end)


def locked_soon(end: int, kind: int = fcntl.LOCK_EX, seconds: float | None = None) -> bool:
    """Lock an open file, and return False if another process keeps its lock for too long."""
    until = time.monotonic() + (TURN_SECONDS if seconds is None else seconds)
    while True:
        try:
            fcntl.flock(end, kind | fcntl.LOCK_NB)
            return True
        except BlockingIOError:
            if time.monotonic() >= until:
                return False
        time.sleep(TURN_STEP_SECONDS)


def shorten_log(end: int) -> None:
    """Drop the oldest lines of a log that is open for appending. The program takes no turns: what it appends while this reads stays too."""
    size = os.fstat(end).st_size
    newest = os.pread(end, KEPT, max(0, size - KEPT))
    newest = newest[newest.find(b"\n") + 1 :] + os.pread(end, KEPT, size)
    os.ftruncate(end, 0)
    while newest:
        newest = newest[os.write(end, newest) :]


def make_room(path: str | os.PathLike[str], more: int = 0) -> None:
    """Drop a log's oldest lines if `more` bytes would make it too large. Its writers append, so they continue at the end."""
    with LogTurn(path, more):
        pass


def add_lines(path: str | os.PathLike[str], lines: list[str], most: int) -> None:
    """Add lines to a small file of at most `most` lines, the newest last. Two processes that add at once both do."""
    while True:
        end = os.open(path, os.O_RDWR | os.O_CREAT | os.O_CLOEXEC | os.O_NOFOLLOW, 0o600)
        try:
            locked_soon(end, seconds=ADD_SECONDS)
            # The file is replaced as a whole, so this may be an earlier one.
            if not is_same_file(end, path):
                continue
            before = os.read(end, 1 << 14).decode("utf-8", "replace").splitlines()
            after = [*(one for one in before if one not in lines), *lines][-most:]
            replace_text(path, "".join(f"{line}\n" for line in after))
            return
        finally:
            os.close(end)


def is_same_file(end: int, path: str | os.PathLike[str]) -> bool:
    """Return True if a path still names an open file."""
    try:
        return os.path.samestat(os.fstat(end), os.lstat(path))
    except OSError:
        return False


def replace_text(path: str | os.PathLike[str], text: str, new: str | None = None) -> None:
    """Replace a file's text atomically by way of a second file (`new`), so that a reader finds the old or the new text."""
    new = new or f"{path}.{os.getpid()}"
    try:
        with open(new, "w", encoding="utf-8") as file:
            file.write(text)
        os.replace(new, path)
    except OSError:
        with suppress(OSError):
            os.unlink(new)
        raise


def is_disk_full(path: str | os.PathLike[str]) -> bool:
    """Return True if nothing more can be written in the folder of a file, for lack of blocks or inodes."""
    try:
        found = os.statvfs(os.path.dirname(path))
    except OSError:
        return False
    return found.f_blocks > 0 and found.f_bavail == 0 or found.f_files > 0 and found.f_favail == 0


def is_locked(folder: str | os.PathLike[str]) -> bool:
    """Return True if a process has locked a folder, as a process does while the folder is in use."""
    end = os.open(folder, os.O_RDONLY | os.O_DIRECTORY | os.O_CLOEXEC)
    try:
        fcntl.flock(end, fcntl.LOCK_EX | fcntl.LOCK_NB)
    except BlockingIOError:
        return True
    finally:
        os.close(end)
    return False


def is_own_folder(path: str | os.PathLike[str]) -> bool:
    """Return True if this user owns the folder. A link to it has to belong to this user too."""
    try:
        return os.path.isdir(path) and os.getuid() == os.lstat(path).st_uid == os.stat(path).st_uid
    except OSError:
        return False
