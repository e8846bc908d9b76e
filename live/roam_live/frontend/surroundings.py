"""Checks the surroundings of a front end for surprises: a locale without UTF-8, and a session inside tmux or another roam."""
from __future__ import annotations

import os

from roam_live.common.text import printable
from roam_live.config.environment import PREFIX
from roam_live.session.foreground import own_pane

TYPE_CHECKING = False
if TYPE_CHECKING:
    from collections.abc import Mapping

# The variables that name the character locale; the first one set counts (setlocale(3)).
LOCALE = ("LC_ALL", "LC_CTYPE", "LANG")
LONGEST = 18


def wrong_locale(environment: Mapping[str, str]) -> str:
    """Return the name of a locale without UTF-8, "" for one with it."""
    name = next(filter(None, map(environment.get, LOCALE)), "C")
    return "" if "utf8" in name.lower().replace("-", "") else printable(name)[:LONGEST]


def advice(prefix: str, environment: Mapping[str, str] = os.environ) -> str:
    """Return a line with the problem and its remedy, "" if there is no problem."""
    name = wrong_locale(environment)
    if name:
        return f"locale {name} has no UTF-8: programs may print ?; set LC_ALL=C.UTF-8"
    if prefix != PREFIX or environment.get("ROAM_PREFIX"):
        # A user of nested sessions has already chosen another prefix.
        return ""
    outer = "another session" if own_pane()[0] else "tmux" if environment.get("TMUX") else ""
    return f"inside {outer}: {prefix} {prefix} reaches this one; ROAM_PREFIX=C-a avoids that" if outer else ""
