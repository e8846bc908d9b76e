"""The ids of panes, and those of windows and sessions for `roam tmux`: each of this user has its own, and gets it once. A counter in the
folder of the sessions has the last one.
"""
from __future__ import annotations

import os

from roam_live.common.errors import Fault
from roam_live.common.files import locked_soon
from roam_live.common.patterns import LazyPattern
from roam_live.common.suppress import suppress
from roam_live.common.text import decimal_in
from roam_live.session.names import HOST_STATE, NAME_SPACES, SPACE_STATE, base

# The file with the last id, whose name is no session's, and its most characters.
COUNTER = "last.pane"
LONGEST, MOST_ID = 20, 1 << 53

# An id in the state of a host or of a name space, as JSON writes it.
ID = LazyPattern(rb'"id": (\d{1,16})')

# Seconds to wait for other hosts at the counter.
WAITS = 5.0

# The most bytes of a state that are searched.
MOST_SEARCHED = 1 << 24


def new_id(above: int, folder: str = "") -> int:
    """Return an id above all that are in use, of which the caller knows some. Without the counter those are unknown.

    The counter is in the folder of the sessions, unless the caller names another.
    """
    with suppress(Fault, OSError):
        return counted(folder or str(base()), above)
    return above + 1


def counted(folder: str, above: int) -> int:
    """Return the next id of the counter in a folder, and store it there. A lost counter is rebuilt above the largest id in use."""
    end = os.open(os.path.join(folder, COUNTER), os.O_RDWR | os.O_CREAT | os.O_CLOEXEC | os.O_NOFOLLOW, 0o600)
    try:
        if not locked_soon(end, seconds=WAITS):
            raise BlockingIOError("the counter of panes is locked")
        last = decimal_in(os.pread(end, LONGEST, 0).decode("ascii", "replace").strip(), MOST_ID)
        found = 1 + max(above, largest_in(folder) if last is None else last)
        os.ftruncate(end, 0)
        os.pwrite(end, b"%d\n" % found, 0)
        return found
    finally:
        os.close(end)


def largest_in(folder: str) -> int:
    """Return the largest id in the states of the sessions in a folder, and of the name spaces beside them; -1 if there is none."""
    found, spaces = [-1], os.path.join(folder, NAME_SPACES)
    names = [os.path.join(NAME_SPACES, name) for name in (os.listdir(spaces) if os.path.isdir(spaces) else ())]
    states = [os.path.join(name, SPACE_STATE) for name in names]
    states += [os.path.join(place, name, HOST_STATE) for place in ("", *names) for name in os.listdir(os.path.join(folder, place))]
    for state in states:
        with suppress(OSError), open(os.path.join(folder, state), "rb") as file:
            found += map(int, ID.findall(file.read(MOST_SEARCHED)))
    return max(found)
