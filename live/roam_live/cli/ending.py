"""`mux kill`: ends a session, closes a window, or closes a pane."""
from __future__ import annotations

import os
import sys

from roam_live.cli.targets import running, target_of, window_of
from roam_live.common.errors import Fault
from roam_live.common.text import printable
from roam_live.session.lookup import sweep

TYPE_CHECKING = False
if TYPE_CHECKING:
    from roam_live.cli.args import Asked
    from roam_live.session.folder import SessionFolder


def kill(asked: Asked) -> int:
    """End a session, close a window or close a pane. If a program other than a shell runs there, or may, ask first."""
    target = target_of(asked.name)
    session = running(asked.name)
    if target.pane:
        return close(window_of(session, target), target.pane, asked.is_forced)
    if target.window is not None:
        return shut(session.window(target.window), asked.is_forced)
    lost = "" if asked.is_forced else lost_with(session)
    if lost and not os.isatty(0):
        raise Fault(f"session {session.name} runs {lost}; `mux kill -f {session.name}` ends it")
    if lost and not confirmed(f"session {session.name} runs {lost}; end it? [y/N] "):
        return 1
    # The lock is free once the session has ended: a process that spawns its processes has the lock until then.
    session.end_all()
    if session.runs():
        raise Fault(f"session {session.name} did not end")
    with session.locked():
        session.tidy()
    sweep()
    return 0


def shut(window: SessionFolder, is_forced: bool) -> int:
    """Close a window. If a program other than a shell runs there, or may, ask first."""
    from roam_live.cli import windows
    from roam_live.session.foreground import told

    busy = {} if is_forced else window.busy()
    lost = "an unknown program" if busy is None else told(busy)
    if lost and not os.isatty(0):
        raise Fault(f"window {window.name} runs {lost}; `mux kill -f {window.name}` closes it")
    if lost and not confirmed(f"window {window.name} runs {lost}; close it? [y/N] "):
        return 1
    return windows.shut(window)


def close(session: SessionFolder, pane: int, is_forced: bool) -> int:
    """Close a pane. If a program other than a shell runs there, or may, ask first."""
    from roam_live.cli.targets import close_pane, pane_places
    from roam_live.session.foreground import told

    pane_places(session, pane)
    busy = {} if is_forced else session.busy()
    lost = "an unknown program" if busy is None else told({pane: busy[pane]}) if pane in busy else ""
    if lost and not os.isatty(0):
        raise Fault(f"session {session.name} runs {lost}; `mux kill -f {session.name}.{pane}` closes it")
    if lost and not confirmed(f"session {session.name} runs {lost}; close it? [y/N] "):
        return 1
    close_pane(session, pane)
    return 0


def lost_with(session: SessionFolder) -> str:
    """Return the programs that end with a session, in words; nothing for shells alone, and for a remote session, of which only the relay
    ends.
    """
    from roam_live.session.foreground import told, told_in_windows

    busy = session.busy_programs()
    if busy is None:
        return "" if session.served == "relay" else "unknown programs"
    return told_in_windows(busy) if len(session.windows()) > 1 else told({pane: name for (_, pane), name in busy.items()})


def confirmed(question: str) -> bool:
    """Return True if the user at standard input answers yes."""
    print(printable(question), end="", file=sys.stderr, flush=True)
    return sys.stdin.readline().strip().lower() in ("y", "yes")
