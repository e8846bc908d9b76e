"""The lock that keeps a session's folder until all its front ends have read how the session ended.

Each front end has a shared lock on the file `front_ends`. The kernel releases it with the process.
"""
from __future__ import annotations

import fcntl
import os

from roam_live.common.errors import Fault, log_to, reason, say
from roam_live.common.files import is_own_folder, is_same_file, locked_soon
from roam_live.common.suppress import suppress

# The locked file in a session's folder.
FRONT_ENDS = "front_ends"

# A front end opens the file so often, since another process may remove the rest of an ended session at the same time.
MOST_TRIES = 8


class FrontEndLock:
    """Keeps a session's folder in a `with`, if it has one, and logs unexpected errors there. Fault if it is no folder."""

    def __init__(self, folder: str | os.PathLike[str] | None) -> None:
        self.folder = folder
        self.end: int | None = None

    def __enter__(self) -> None:
        for _ in range(MOST_TRIES if self.folder else 0):
            assert self.folder is not None
            self.end = opened(self.folder)
            if self.end is None or self.is_kept(os.path.join(self.folder, FRONT_ENDS)):
                break
            os.close(self.end)
            self.end = None

    def is_kept(self, path: str) -> bool:
        """Lock the file, and return False if somebody removed it before. Others lock it only for a moment, to look."""
        assert self.end is not None
        with suppress(OSError):
            locked_soon(self.end, fcntl.LOCK_SH)
        return is_same_file(self.end, path)

    def __exit__(self, *fault: object) -> None:
        if self.end is not None:
            os.close(self.end)


def opened(folder: str | os.PathLike[str]) -> int | None:
    """Return the open file that a front end locks; None, with a message, if it fails to open."""
    if not os.path.isdir(folder):
        raise Fault(f"{folder} is not a directory")
    if not is_own_folder(folder):
        say(f"{folder} is not a directory of yours: nothing is logged there")
        return None
    log_to(folder)
    path = os.path.join(folder, FRONT_ENDS)
    try:
        return os.open(path, os.O_RDONLY | os.O_CREAT | os.O_CLOEXEC | os.O_NOFOLLOW, 0o600)
    except OSError as fault:
        say(f"{path} cannot be locked: {reason(fault)}; the end of the session may be reported as a failure")
        return None


def has_front_ends(folder: str | os.PathLike[str]) -> bool:
    """Return True if a front end keeps a session's folder, or if that is unknown."""
    try:
        end = os.open(os.path.join(folder, FRONT_ENDS), os.O_RDONLY | os.O_CLOEXEC | os.O_NOFOLLOW)
    except FileNotFoundError:
        return False
    except OSError:
        return True
    try:
        fcntl.flock(end, fcntl.LOCK_EX | fcntl.LOCK_NB)
    except OSError:
        return True
    finally:
        os.close(end)
    return False
