"""A session, or a window or a pane of one, in the arguments of `mux`: `NAME[:K][.P]`, with each part optional."""
from __future__ import annotations

import os
import time

from roam_live.common.errors import Fault
from roam_live.common.named_fields import NamedFields
from roam_live.common.patterns import LazyPattern
from roam_live.common.unix_socket import connected_in
from roam_live.protocol.panes import ASKED, BRACKETED, METADATA, AskedPanes
from roam_live.session.foreground import own_pane

TYPE_CHECKING = False
if TYPE_CHECKING:
    from roam_live.protocol.panes import Places
    from roam_live.session.folder import SessionFolder

# The name of a session, or the local name of a remote one, which may be missing; a window of it, and a pane.
WORD = LazyPattern(r"(?a)(?P<name>ssh:[^:]+:[^:.]+(?::[0-9a-f]{8})?|[^:.]*)(?::(?P<window>[1-9]\d?))?(?:\.(?P<pane>[1-9]))?|:")

# Seconds for a server to close a pane.
CLOSES = 5.0

NOWHERE = "name a session, since this is not a pane of one; `mux ls` lists them"


class Target(NamedFields):
    """A session's name, empty for the session of this process, and numbers of a window and a pane: None and 0 if unset."""

    name: str
    window: int | None
    pane: int


def target_of(word: str) -> Target:
    """Return the target in a word. Names of local sessions have no colon or dot."""
    found = WORD.fullmatch(word) if ":" in word or "." in word else None
    if not found:
        return Target(word, None, 0)
    return Target(found["name"] or "", int(found["window"]) if found["window"] else None, int(found["pane"] or 0))


def session_of(target: Target) -> SessionFolder:
    """Return the named session, or the one of this process."""
    from roam_live.session.lookup import session_named, window_in

    folder = own_pane()[0]
    if target.name:
        return session_named(target.name)
    if not folder:
        raise Fault(NOWHERE)
    return window_in(folder).whole_session()


def window_of(session: SessionFolder, target: Target) -> SessionFolder:
    """Return the named window of a running session; by default the one of this process, else the one used last."""
    from roam_live.session.lookup import window_in

    folder = own_pane()[0]
    is_own = target.window is None and folder and is_in(folder, session)
    window = session.window(window_in(folder).number or None if is_own else target.window)
    # Without other windows, the session's name alone identifies it.
    window.name = window.name if len(session.windows()) > 1 else session.name
    return window


def is_in(folder: str, session: SessionFolder) -> bool:
    """Return True if a folder is that of a session or of one of its windows."""
    return os.path.abspath(folder) == str(session.folder) or os.path.abspath(folder).startswith(f"{session.folder}/w/")


def pane_places(session: SessionFolder, pane: int) -> Places:
    """Return the pane positions of a session, one of whose panes is named; Fault if they are unreported, or the pane is missing."""
    places = session.places()
    if places is None:
        raise Fault(f"session {session.name}: its server does not report its panes")
    if pane not in places.rects:
        raise Fault(f"session {session.name} has no pane {pane}")
    return places


def making_of(session: SessionFolder, pane: int) -> tuple[int, int]:
    """Return a pane, by default the focused one, and its generation; Fault if they are unreported, or the pane is missing."""
    try:
        with connected_in(session.folder / "panes", ASKED) as peer:
            asked = AskedPanes(peer)
            asked.hear_all(ASKED, asked.told.is_whole)
    except OSError as fault:
        raise Fault(f"session {session.name}: its server does not report its panes") from fault
    places = asked.told.places()
    number = pane or (places.focus if places else 0)
    generation = asked.told.generations.get(number, "")
    if not places or number not in places.rects or not generation.isdigit():
        why = f" has no pane {number}" if places else ": its server does not report its panes"
        raise Fault(f"session {session.name}{why}")
    return number, int(generation)


def wants_brackets(session: SessionFolder, pane: int) -> bool:
    """Return True if the program in a pane, or in the focused one, is known to use bracketed paste."""
    try:
        with connected_in(session.folder / "panes", ASKED) as peer:
            peer.send(f"{METADATA}\n".encode())
            asked = AskedPanes(peer)
            asked.hear_all()
    except OSError:
        return False
    places = asked.told.places()
    return places is not None and asked.told.has_set(pane or places.focus, BRACKETED)


def close_pane(session: SessionFolder, pane: int) -> None:
    """Close a pane; Fault gives the reason of a failure."""
    try:
        with connected_in(session.folder / "panes", ASKED) as peer:
            asked = AskedPanes(peer)
            asked.hear_all()
            generation = asked.told.generations.get(pane)
            if pane not in asked.told.rects or generation is None:
                raise Fault(f"session {session.name} has no pane {pane}")
            peer.send(f"close {pane} {generation}\n".encode())
            if not is_closed(asked, pane, generation):
                raise Fault(f"session {session.name}: pane {pane} was not closed")
    except OSError as fault:
        raise Fault(f"session {session.name}: its server does not report its panes") from fault


def is_closed(asked: AskedPanes, pane: int, generation: str) -> bool:
    """Return True if that generation of a pane closes in time."""
    end = time.monotonic() + CLOSES
    while time.monotonic() < end:
        lines = asked.heard(end - time.monotonic())
        if lines is None:
            return False
        if "last pane" in lines:
            raise Fault(f"pane {pane} is the last one, and ends with its session")
        if pane not in asked.told.rects or asked.told.generations.get(pane) != generation:
            return True
    return False


def running(name: str) -> SessionFolder:
    """Return the running session that a word names."""
    session = session_of(target_of(name))
    session.demand()
    return session


def window_named(name: str) -> tuple[SessionFolder, int]:
    """Return the window that a word names, of a running session, and the pane, or 0."""
    target = target_of(name)
    return window_of(running(name), target), target.pane


def ready(session: SessionFolder) -> SessionFolder:
    """Return a window of a running session, after its client process is ready."""
    with session.locked():
        session.demand()
        session.note_found()
        session.demand_client()
    return session
