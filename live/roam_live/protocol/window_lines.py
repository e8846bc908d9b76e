"""The lines about windows at the sockets `host`: the list of windows, and the requests to open, name and close one."""
from __future__ import annotations

from roam_live.common.patterns import LazyPattern


# The words of request lines, and those of report lines.
WINDOWS, WINDOW, GONE, OPENED, BELL, ACTIVITY, RUNS = "windows", "window", "gone", "opened", "bell", "activity", "runs"

# The request lines to open a window, optionally with the name of uploaded start options, and with a name of the request itself; to name a
# window, and to close one. A size is cut to the largest of a session. A request that is repeated by its name opens no second window.
OPEN = LazyPattern(r"(?a)open ([1-9]\d{0,4}) ([1-9]\d{0,4})(?: ([0-9a-f]{16}))?(?: for ([0-9a-f]{16}))?")
NAME = LazyPattern(r"(?a)name ([1-9]\d?) (-|(?:[0-9a-f]{2}){1,119})")
SHUT = LazyPattern(r"(?a)shut ([1-9]\d?)")

# The refusal of a request that was made before, while its window is not open yet.
NOT_YET = "its window is being opened"

# Limits: windows of a session, and characters and bytes of a name, which a line contains in hexadecimal.
MOST_WINDOWS = 99
LONGEST_NAME = 64
LONGEST_BYTES = 119
LONGEST_REQUEST = 16

# The name of an unnamed window.
NO_NAME = "-"


def name_in(word: str) -> str | None:
    """Return the name that a word encodes, empty for no name; None if it is invalid."""
    if word == NO_NAME:
        return ""
    try:
        name = bytes.fromhex(word).decode("utf-8")
    except ValueError:
        return None
    return name if name.isprintable() and 0 < len(name) <= LONGEST_NAME else None


def name_word(name: str) -> str:
    """Return the word that encodes a name."""
    return name.encode("utf-8", "replace").hex() or NO_NAME
