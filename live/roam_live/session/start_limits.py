"""The umask and the resource limits of a session's first start.

The session's note has them. A restarted pty host gets them, and with it all new shells: not those of the login that noticed its end.
"""
from __future__ import annotations

import os
import resource

from roam_live.common.suppress import suppress

# The keys in the note.
UMASK, LIMITS = "umask", "limits"

# The most files that a process of a session opens.
MOST_FILES = 1 << 14

# The limits by the names of getrlimit(2).
KINDS = {name: number for name, number in vars(resource).items() if name.startswith("RLIMIT_")}


def current_limits() -> dict[str, object]:
    """Return the umask and the limits of this process, for a note."""
    mask = os.umask(0o077)
    os.umask(mask)
    return {UMASK: mask, LIMITS: {name: list(resource.getrlimit(number)) for name, number in KINDS.items()}}


def set_limits(state: dict[str, object]) -> None:
    """Set the umask and the limits of a note for this process, as far as it may. Invalid values change nothing."""
    mask, limits = state.get(UMASK), state.get(LIMITS)
    if type(mask) is int and 0 <= mask <= 0o777:
        os.umask(mask)
    for name, pair in limits.items() if isinstance(limits, dict) else ():
        is_pair = isinstance(pair, list) and len(pair) == 2 and all(type(one) is int for one in pair)
        if name in KINDS and is_pair:
            set_limit(KINDS[name], *pair)


def set_limit(number: int, soft: int, hard: int) -> None:
    """Set one limit. A process without privileges keeps its own hard limit if that is lower, and takes a soft one up to it."""
    with suppress(ValueError, OSError):
        resource.setrlimit(number, (soft, hard))
        return
    own = resource.getrlimit(number)[1]
    with suppress(ValueError, OSError):
        resource.setrlimit(number, (own if is_above(soft, own) else soft, own))


def raise_own() -> None:
    """Let this process open as many files as it may, up to MOST_FILES, and write as large ones. A session of many panes needs that."""
    soft, hard = resource.getrlimit(resource.RLIMIT_NOFILE)
    most = MOST_FILES if hard == resource.RLIM_INFINITY else min(MOST_FILES, hard)
    if is_above(most, soft):
        set_limit(resource.RLIMIT_NOFILE, most, hard)
    hard = resource.getrlimit(resource.RLIMIT_FSIZE)[1]
    set_limit(resource.RLIMIT_FSIZE, hard, hard)


def is_above(one: int, other: int) -> bool:
    """Return True if a limit is higher than another."""
    infinite = resource.RLIM_INFINITY
    return other != infinite and (one == infinite or one > other)
