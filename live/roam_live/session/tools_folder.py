"""A folder of roam's tools, of this build or of another one: who may change its files, and a sum that tells builds apart."""
from __future__ import annotations

import os
import stat

from roam_live.common.errors import Fault
from roam_live.common.suppress import suppress

TYPE_CHECKING = False
if TYPE_CHECKING:
    from collections.abc import Iterator

# The files of a folder of tools that a session runs, and the folder of compiled modules, which Python writes.
HOST, HOLDER, MUX = "pane_shells", "holder", "mux"
COMPILED = "__pycache__"

# The most files of a folder of tools, without compiled modules and with them. A larger one is none.
MOST_FILES, MOST_COMPILED = 2000, 20_000

# The bits of a mode by which others than the owner may write.
OTHERS_WRITE = stat.S_IWGRP | stat.S_IWOTH


def parents(path: str) -> Iterator[str]:
    """Yield the folders above a path, the nearest first."""
    while path != "/":
        path = os.path.dirname(path)
        yield path


def files_in(folder: str, has_compiled: bool = False) -> list[str]:
    """Return the folders and files below a folder in order, on request with compiled modules; Fault if there are too many."""
    found: list[str] = []
    most = MOST_COMPILED if has_compiled else MOST_FILES
    for place, folders, files in os.walk(folder):
        folders[:] = sorted(one for one in folders if has_compiled or one != COMPILED)
        found += [os.path.join(place, name) for name in (*folders, *sorted(files))]
        if len(found) > most:
            raise Fault(f"{folder} is no folder of roam's tools: it has more than {most} files")
    return found


def demand_safe(path: str) -> None:
    """Refuse a file or folder that another user than root and this one may change, or replace by a change of a parent."""
    if not os.path.isabs(path):
        raise Fault(f"{path!r} is no absolute path")
    for one in (path, *parents(path)):
        found = os.lstat(one)
        # In a sticky folder such as /tmp nobody replaces what belongs to another user.
        is_sticky = stat.S_ISDIR(found.st_mode) and found.st_mode & stat.S_ISVTX and one != path
        if stat.S_ISLNK(found.st_mode):
            raise Fault(f"{one} is a symbolic link")
        if found.st_uid not in (0, os.getuid()):
            raise Fault(f"{one} belongs to user {found.st_uid}")
        if found.st_mode & OTHERS_WRITE and not is_sticky:
            raise Fault(f"{one} can be written by other users")


def demand_safe_tools(folder: str) -> None:
    """Refuse a folder of tools that another user than root and this one may change. Python runs its compiled modules unread."""
    demand_safe(folder)
    if not os.path.isfile(os.path.join(folder, HOST)):
        raise Fault(f"{folder} is no folder of roam's tools")
    for path in (folder, *files_in(folder, has_compiled=True)):
        # Python replaces compiled modules at any time.
        with suppress(FileNotFoundError):
            found = os.lstat(path)
            if found.st_uid not in (0, os.getuid()) or found.st_mode & OTHERS_WRITE or stat.S_ISLNK(found.st_mode):
                demand_safe(path)


def build_sum(folder: str, program: str) -> str:
    """Return a number that changes with the tools in a folder, or with the program: their names, sizes and times."""
    import binascii

    names = [*(path for path in files_in(folder) if not os.path.isdir(path)), program]
    states = [(path, found.st_size, found.st_mtime_ns) for path, found in ((path, os.stat(path)) for path in names)]
    return f"{binascii.crc32(repr(states).encode('utf-8', 'surrogateescape')):08x}"
