"""Protects a session's folder from cleaners of old files, which on some systems remove from /tmp files unused for days."""
from __future__ import annotations

import errno
import fcntl
import os
import time

from roam_live.common.files import locked_soon
from roam_live.common.suppress import suppress
from roam_live.session.names import WINDOWS

TYPE_CHECKING = False
if TYPE_CHECKING:
    from collections.abc import Callable, Iterator

# The folder's files are marked as used again this many seconds after the last mark, and the check repeats as often. It uses the wall clock,
# which continues while the machine sleeps.
USED_EACH = 21600.0
LOOKS = 60.0


def identity(file: os.stat_result) -> tuple[int, int]:
    """Return the identity of a file, device and inode."""
    return file.st_dev, file.st_ino


class Lasting:
    """The folder of a session, for a process that lives as long as the session."""

    def __init__(self, folder: str, clock: Callable[[], float] = time.time):
        self.folder, self.clock = folder, clock
        self.own = self.found()
        self.session: bytes | None = None
        self.used_at = float("-inf")
        self.due = time.monotonic()
        # A flag for a folder to lock, and the lock's descriptor. A window's folder is inside one that is locked.
        self.holds, self.held = os.path.basename(os.path.dirname(os.path.abspath(folder))) != WINDOWS, -1

    def found(self) -> tuple[int, int] | None:
        """Return the identity of the folder; None if it is absent."""
        try:
            return identity(os.stat(self.folder))
        except OSError:
            return None

    def demand(self) -> None:
        """Raise OSError if the folder was removed or replaced: its files then belong to another session."""
        if self.own is None or self.found() != self.own:
            raise FileNotFoundError(errno.ENOENT, "the session's folder was removed", self.folder)

    def turn(self) -> bool:
        """Check the folder if that is due, and return True if so."""
        if time.monotonic() < self.due:
            return False
        self.due = time.monotonic() + LOOKS
        return self.look()

    def look(self) -> bool:
        """Check the folder, and return True unless it was removed or replaced: a replacement is left alone."""
        try:
            self.demand()
        except OSError:
            return False
        if self.holds:
            self.hold()
        self.keep_session()
        now = self.clock()
        if not self.used_at <= now < self.used_at + USED_EACH:
            self.used_at = now
            self.use()
        return True

    def hold(self) -> None:
        """Lock the folder for this process.

        Cleaners such as systemd-tmpfiles skip a locked folder with all its contents. Without notes and sockets the lock also identifies
        this process. If another process has the lock, each check tries again.
        """
        if self.held >= 0 and identity(os.fstat(self.held)) == self.own:
            return
        self.let_go()
        with suppress(OSError):
            end = os.open(self.folder, os.O_RDONLY | os.O_DIRECTORY | os.O_CLOEXEC)
            try:
                # Others lock it for a moment to see whether somebody has.
                self.held = end if locked_soon(end) else -1
            finally:
                if self.held != end:
                    os.close(end)

    def let_go(self) -> None:
        """Release it."""
        if self.held >= 0:
            os.close(self.held)
            self.held = -1

    def is_missing(self, name: str) -> bool:
        """Return True if a file is absent."""
        return not os.path.lexists(os.path.join(self.folder, name))

    def keep_session(self) -> None:
        """Restore the file of the session's id if it is gone, readable by this user alone. No process reports the id."""
        path = os.path.join(self.folder, "session")
        with suppress(OSError):
            if not self.is_missing("session"):
                with open(path, "rb") as file:
                    self.session = file.read(64)
            elif self.session:
                new = f"{path}.{os.getpid()}"
                with open(os.open(new, os.O_WRONLY | os.O_CREAT | os.O_TRUNC | os.O_CLOEXEC | os.O_NOFOLLOW, 0o600), "wb") as file:
                    file.write(self.session)
                os.replace(new, path)

    def use(self) -> None:
        """Mark all files of the folder as used now."""
        for path in self.paths():
            with suppress(OSError):
                os.utime(path, follow_symlinks=False)

    def paths(self) -> Iterator[str]:
        """Yield the folder, its contents, the notes of far ends, and the folders of windows with their contents."""
        yield self.folder
        windows = os.path.join(self.folder, WINDOWS)
        for folder in (self.folder, os.path.join(self.folder, "relays"), windows):
            found = entries_in(folder)
            yield from found
            if folder == windows:
                for window in found:
                    yield from entries_in(window)


def entries_in(folder: str) -> list[str]:
    """Return the paths in a folder; none if it is unreadable or no folder."""
    try:
        return [entry.path for entry in os.scandir(folder)]
    except OSError:
        return []
