"""Names of sessions, the folder that contains their folders, the folders of their windows, and the records of intended ends."""
from __future__ import annotations

import os
import stat

from roam_live.common.errors import Fault, is_absent, reason, say
from roam_live.common.file_path import FilePath
from roam_live.common.patterns import LazyPattern
from roam_live.common.suppress import suppress
from roam_live.common.text import decimal_in

LONGEST_NAME = 32

# The local name of a remote session: ssh, the host, the session, and a number if ssh is run in another way.
NEAR_NAME = LazyPattern(r"ssh:[A-Za-z0-9_.@-]{1,128}:[A-Za-z0-9_-]{1,32}(:[0-9a-f]{8})?")

# The most bytes of a socket's path.
LONGEST_PATH = 107


# Sessions are here if XDG_RUNTIME_DIR names no folder.
TMP = "/tmp"


def runtime_folder() -> FilePath | None:
    """Return the folder of XDG_RUNTIME_DIR.

    One of another user, as after `su`, is reported and not used. One that others may write is refused, since they could replace its
    contents.
    """
    chosen = os.environ.get("XDG_RUNTIME_DIR")
    if not chosen:
        return None
    if os.path.isdir(chosen) and os.stat(chosen).st_uid == os.getuid():
        if os.stat(chosen).st_mode & 0o022:
            raise Fault(f"other users may write to XDG_RUNTIME_DIR, {chosen}; run `chmod go-w` on it, or set another")
        return FilePath(os.path.join(chosen, "roam"))
    say(f"XDG_RUNTIME_DIR is {chosen}, which is not a directory of yours; using /tmp instead")
    return None


# The folder of the user's sessions, once it was checked.
bases: list[FilePath] = []


def base() -> FilePath:
    """Return the folder of the user's sessions. Create it if absent; refuse it if others may enter it."""
    if not bases:
        bases.append(made_base())
    return bases[0]


def made_base() -> FilePath:
    """Create the folder of the user's sessions if necessary, and return it; Fault if others may enter it."""
    path = runtime_folder() or FilePath(f"{TMP}/roam-{os.getuid()}")
    try:
        # Anything there except a folder is refused below, with its real cause.
        with suppress(FileExistsError):
            path.mkdir(mode=0o700)
        found = os.lstat(path)
    except OSError as fault:
        raise Fault(f"{path}: {fault.strerror}") from fault
    if not stat.S_ISDIR(found.st_mode) or found.st_uid != os.getuid() or found.st_mode & 0o077:
        raise Fault(f"{path} must be a directory of yours that nobody else may enter")
    return path


def is_name(word: str) -> bool:
    """Return True if a word may name a session: letters, digits, - and _."""
    return 0 < len(word) <= LONGEST_NAME and word.isascii() and word.replace("-", "_").replace("_", "0").isalnum()


def is_near_name(word: str) -> bool:
    """Return True if a word is the local name of a remote session."""
    return word.startswith("ssh:") and NEAR_NAME.fullmatch(word) is not None


def check_name(name: str) -> None:
    """Refuse an invalid session name."""
    if not is_name(name):
        raise Fault(f"{name!r} is not a valid name: use at most 32 letters, digits, - and _")


# This file marks a window's folder while its server is only a spare.
SPARE = "spare"

# This key in a window's note replaces a lost mark once the spare has become a window.
JOINED = "joined"

# The environment of a spare server has this variable, also after it has become a window's.
SPARE_VARIABLE = "ROAM_SPARE"

# A file in a window's folder: the client processes of other machines that its server knows.
REMOTE_CLIENTS = "remote_clients"

# The key in a session's note for the build of roam that last started its pty host or relay.
BUILD = "build"

# The key for the folder of the tools of that build.
TOOLS_FOLDER = "tools"

# The key for the number of pty hosts that followed one which had ended, while the programs went on.
REPLACED = "replaced"

# The format version of such a session's note.
WINDOWS_VERSION = 4

# The file with the state of a pty host, which another one reads.
HOST_STATE = "host.json"

# The folder beside the sessions with the name spaces of `roam tmux`, and the file with the state of each.
NAME_SPACES, SPACE_STATE = ".tmux", "state.json"

# The folder of window folders in a session's folder, and the numbers that name them.
WINDOWS = "w"
HIGHEST_NUMBER = 99


def windows_folder(common: str) -> str:
    """Return the folder that contains the folders of a session's windows."""
    return os.path.join(common, WINDOWS)


def window_folder(common: str, number: int) -> str:
    """Return the folder of a window."""
    return os.path.join(windows_folder(common), str(number))


def is_number(word: str) -> bool:
    """Return True if a word is the number of a window."""
    return bool(decimal_in(word, HIGHEST_NUMBER))


def numbers_in(folder: str) -> list[int]:
    """Return the numbers of the window folders, in order; Fault if they are unreadable."""
    try:
        return sorted(int(name) for name in os.listdir(folder) if is_number(name))
    except OSError as fault:
        if not is_absent(fault):
            raise Fault(f"cannot read {folder}: {reason(fault)}") from fault
        return []


def is_spare_server(server: int | None) -> bool:
    """Return True if a server was spawned as a spare for a window."""
    with suppress(OSError):
        with open(f"/proc/{server}/environ", "rb") as words:
            return f"{SPARE_VARIABLE}=1".encode() in words.read().split(b"\0")
    return False
