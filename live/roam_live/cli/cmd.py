"""`mux cmd`: runs a command of the table in a session from outside, unless it needs a terminal."""
from __future__ import annotations

import os

from roam_live.commands.flags import BadCommand, parted
from roam_live.commands.table import asked_by
from roam_live.common.errors import Fault
from roam_live.protocol.spawn_request import DONE, RAN

TYPE_CHECKING = False
if TYPE_CHECKING:
    from roam_live.commands.wishes import CommandWish
    from roam_live.protocol.spawn_request import Begins
    from roam_live.session.folder import SessionFolder

# The acts of requests that need nothing else.
ACTS = {"split right": "split right", "split down": "split down", "close": "close"}

OWN = "it concerns one terminal; use a key or C-b : there"


# The requests about a session's windows or terminals.
WINDOW_WISHES = ("window new", "window name", "window shut", "leave others")


class Target:
    """The window of a command and its pane, 0 for the one in focus. A command that opens a window or a pane moves it."""

    def __init__(self, window: SessionFolder, pane: int) -> None:
        self.window, self.pane = window, pane


def run(window: SessionFolder, pane: int, words: list[str]) -> int:
    """Run commands in a window, or for one of its panes, and return the status of the last. Fault gives the reason of a failure.

    Each is read before the first one runs. The first that fails ends the chain.
    """
    found = [read(command) for command in parted(words)]
    if not found:
        raise Fault("there is no command between the words `;`")
    target, status = Target(window, pane), 0
    for asked in found:
        status = run_one(target, asked)
        if status:
            break
    return status


def read(words: list[str]) -> CommandWish:
    """Return the request of a command; Fault if it is none, or if it needs a terminal."""
    try:
        asked = asked_by(words)
    except BadCommand as fault:
        raise Fault(str(fault)) from None
    is_named = asked.wish != "window name" or asked.text
    if asked.wish in ACTS or asked.acts or asked.wish in WINDOW_WISHES and is_named:
        return asked
    raise Fault(f"{words[0]}: {OWN}")


def run_one(target: Target, asked: CommandWish) -> int:
    """Run one command, and return its status."""
    if asked.wish in WINDOW_WISHES:
        return changed(target, asked)
    window, pane = target.window, target.pane
    if asked.wish.startswith("split") and not (asked.begins and asked.begins.is_aside):
        target.pane = 0
    if asked.begins and asked.wish in ACTS:
        return split(window, pane, asked.wish, placed(asked.begins))
    from roam_live.cli import send

    return send.send(window, [ACTS[asked.wish]] if asked.wish in ACTS else asked.acts, pane)


def placed(begins: Begins) -> Begins:
    """Return the start options of a pane with an absolute folder, by this process's working folder."""
    is_own = begins.folder and not begins.folder.startswith("~")
    return begins._replace(folder=os.path.abspath(begins.folder)) if is_own else begins


def split(window: SessionFolder, pane: int, act: str, begins: Begins) -> int:
    """Split a pane, by default the focused one, with a command in the new one, and return once it has begun there."""
    from roam_live.cli import send
    from roam_live.cli.targets import making_of, pane_places
    from roam_live.cli.windows import WindowsAsked
    from roam_live.protocol.spawn_request import WAITS

    number, generation = making_of(window, pane)
    back = [f"focus {pane_places(window, number).focus}"] if begins.is_aside else []
    asked = WindowsAsked(window)
    asked.hand(f"{number} {generation}", begins)
    status = send.send(window, [act, *back], number)
    if asked.until(RAN, seconds=2 * WAITS)[2:] != [DONE]:
        raise Fault(f"session {window.name}: no pane was created, so the command did not run")
    return status


def changed(target: Target, asked: CommandWish) -> int:
    """Carry out a request about a session's windows or terminals."""
    from roam_live.cli import windows

    window = target.window
    if asked.wish == "window new":
        begins = placed(asked.begins) if asked.begins else None
        number = windows.opened_window(window, "", begins)
        if not (begins and begins.is_aside):
            target.window, target.pane = window.window(number), 0
        return 0
    if asked.wish == "window name":
        return windows.rename(window, asked.text)
    if asked.wish == "window shut":
        return windows.shut(window)
    return windows.detach_others(window)
