"""The targets of commands as in tmux(1): sessions, windows and panes by id, name, beginning, pattern, index, offset and place."""
from __future__ import annotations

import fnmatch

from roam_live.commands.flags import BadCommand
from roam_live.common.named_fields import NamedFields
from roam_live.common.text import decimal_in

TYPE_CHECKING = False
if TYPE_CHECKING:
    from collections.abc import Sequence
    from typing import Protocol

    from roam_live.protocol.panes import Rect

    class PaneLike(Protocol):
        """A pane: its id, and its rectangle within the window."""

        id: int

        @property
        def rect(self) -> Rect: ...

    class WindowLike(Protocol):
        """A window: its id, its index and its name."""

        id: int
        index: int

        @property
        def name(self) -> str: ...
        def panes(self) -> Sequence[PaneLike]: ...
        def active(self) -> PaneLike | None: ...
        def last_pane(self) -> PaneLike | None: ...
        def pane_base(self) -> int: ...

    class SessionLike(Protocol):
        """A session: its id and its name."""

        id: int
        name: str

        def windows(self) -> Sequence[WindowLike]: ...
        def current(self) -> WindowLike | None: ...
        def last_window(self) -> WindowLike | None: ...

MOST_INDEX = (1 << 31) - 1
WINDOW_WORDS = {"{start}": "^", "{last}": "!", "{end}": "$", "{next}": "+", "{previous}": "-"}
PANE_WORDS = {"{last}": "!", "{next}": "+", "{previous}": "-", **{f"{{{word}}}": word for word in (
    "top", "bottom", "left", "right", "top-left", "top-right", "bottom-left", "bottom-right")}}
SIDES = {"{up-of}": (-1, 0), "{down-of}": (1, 0), "{left-of}": (0, -1), "{right-of}": (0, 1)}


class FoundTarget(NamedFields):
    """A target: a session, a window and a pane, each None if it was not asked for; and the index of a window that may not exist."""

    session: SessionLike | None = None
    window: WindowLike | None = None
    pane: PaneLike | None = None
    at: int | None = None


class TargetParts(NamedFields):
    """The parts of a target, each None if it is missing: the session, the window and the pane. Flags: for exact names of the first two, for
    a window that may not be a session, and for a pane that may not be a window.
    """

    session: str | None
    window: str | None
    pane: str | None
    is_exact: bool
    is_exact_window: bool
    is_window_only: bool
    is_pane_only: bool


def parts_of(text: str, kind: str) -> TargetParts:
    """Return the parts of a target of a kind: session, window or pane."""
    before, colon, after = text.partition(":")
    name, period, pane = (after if colon else before).partition(".")
    session: str | None = before if colon else None
    window: str | None = name if colon or period else None
    found_pane: str | None = pane if period else None
    if not colon and not period:
        kind = {"$": "session", "@": "window", "%": "pane"}.get(text[:1], kind)
        session, window, found_pane = (text if kind == one else None for one in ("session", "window", "pane"))
    is_exact, is_exact_window = (session or "").startswith("="), (window or "").startswith("=")
    session = session[1:] if session and is_exact else session
    window = window[1:] if window and is_exact_window else window
    window = WINDOW_WORDS.get(window, window) if window else None
    found_pane = PANE_WORDS.get(found_pane, found_pane) if found_pane else None
    return TargetParts(session or None, window, found_pane, is_exact, is_exact_window, bool(colon), bool(period))


def number_in(text: str) -> int | None:
    """Return the number of a text; None if it is none."""
    return decimal_in(text, MOST_INDEX)


class Targets:
    """Finds targets among sessions. `here` is the session, window and pane of the caller, or the session used last."""

    def __init__(self, sessions: Sequence[SessionLike], here: FoundTarget, may_index: bool = False) -> None:
        self.sessions, self.here, self.may_index = sessions, here, may_index

    def find(self, text: str | None, kind: str) -> FoundTarget:
        """Return the target of a text; BadCommand in tmux's words if there is none."""
        if text in ("=", "{mouse}"):
            raise BadCommand("no mouse target")
        if text in ("~", "{marked}"):
            raise BadCommand("no marked target")
        parts = parts_of(text or "", kind)
        if not (parts.session or parts.window or parts.pane):
            return self.current(parts, kind)
        session = self.session(parts.session, parts.is_exact) if parts.session else None
        if parts.session and not session:
            raise BadCommand(f"can't find session: {parts.session}")
        found = self.in_session(session, parts) if session else self.anywhere(parts)
        return self.completed(found)

    def current(self, parts: TargetParts, kind: str) -> FoundTarget:
        """Return the target of the caller."""
        if not self.here.session:
            raise BadCommand("no current target")
        return self.completed(self.here)

    @staticmethod
    def completed(found: FoundTarget) -> FoundTarget:
        """Return a target with the current window of its session and the active pane of its window."""
        if found.at is not None and found.window is None:
            return found
        window = found.window or (found.session.current() if found.session else None)
        return found._replace(window=window, pane=found.pane or (window.active() if window else None))

    # ---- sessions

    def session(self, text: str, is_exact: bool) -> SessionLike | None:
        """Return the session of an id, a name, the beginning of one name, or a pattern that matches one; None if there is none."""
        if text.startswith("$"):
            return next((one for one in self.sessions if f"${one.id}" == text), None)
        exact = [one for one in self.sessions if one.name == text]
        if exact or is_exact:
            return exact[0] if exact else None
        near = [one for one in self.sessions if one.name.startswith(text)]
        near = near or [one for one in self.sessions if fnmatch.fnmatchcase(one.name, text)]
        return near[0] if len(near) == 1 else None

    def in_session(self, session: SessionLike, parts: TargetParts) -> FoundTarget:
        """Return the window and the pane in a session."""
        if not parts.window and not parts.pane:
            return FoundTarget(session)
        found = self.window_in(session, parts.window, parts.is_exact_window) if parts.window else FoundTarget(session, session.current())
        if not found:
            raise BadCommand(f"can't find window: {parts.window}")
        return self.with_pane(found, parts.pane)

    def with_pane(self, found: FoundTarget, text: str | None) -> FoundTarget:
        """Return a target with a pane of its window."""
        if not text:
            return found
        pane = self.pane_in(found.window, text) if found.window else None
        if not pane:
            raise BadCommand(f"can't find pane: {text}")
        return found._replace(pane=pane)

    # ---- windows

    def window_in(self, session: SessionLike, text: str, is_exact: bool) -> FoundTarget | None:
        """Return a window of a session, or only an index if windows may be new; None if there is none."""
        windows, current = session.windows(), session.current()
        if text.startswith("@"):
            return next((FoundTarget(session, one) for one in windows if f"@{one.id}" == text), None)
        if not is_exact and text[0] in "+-" and current:
            return self.at_offset(session, windows, current, text)
        if text == "!":
            return FoundTarget(session, session.last_window()) if session.last_window() else None
        if text in "^$" and windows:
            return FoundTarget(session, windows[0 if text == "^" else -1])
        number = number_in(text)
        at = next((one for one in windows if one.index == number), None) if number is not None else None
        if at:
            return FoundTarget(session, at, at=at.index)
        if number is not None and self.may_index:
            return FoundTarget(session, None, at=number)
        for near in ([one for one in windows if one.name == text], [one for one in windows if one.name.startswith(text)],
                     [one for one in windows if fnmatch.fnmatchcase(one.name, text)]):
            if len(near) == 1:
                return FoundTarget(session, near[0])
            if near or is_exact:
                return None
        return None

    def at_offset(self, session: SessionLike, windows: Sequence[WindowLike], current: WindowLike, text: str) -> FoundTarget | None:
        """Return the window so many places behind the current one, or before it, or that index if windows may be new."""
        steps = number_in(text[1:]) if text[1:] else 1
        if not steps:
            return None
        steps = steps if text[0] == "+" else -steps
        if self.may_index:
            index = current.index + steps
            at = next((one for one in windows if one.index == index), None)
            return FoundTarget(session, at, at=index) if 0 <= index <= MOST_INDEX else None
        place = next((place for place, one in enumerate(windows) if one.id == current.id), 0)
        return FoundTarget(session, windows[(place + steps) % len(windows)])

    def anywhere(self, parts: TargetParts) -> FoundTarget:
        """Return a window or a pane without a named session."""
        if parts.window:
            found = self.any_window(parts.window, parts.is_exact_window, parts.is_window_only)
            if not found:
                raise BadCommand(f"can't find window: {parts.window}")
            return self.with_pane(self.completed(found), parts.pane)
        found = self.any_pane(parts.pane or "", parts.is_pane_only)
        if not found:
            raise BadCommand(f"can't find pane: {parts.pane}")
        return found

    def any_window(self, text: str, is_exact: bool, is_only: bool) -> FoundTarget | None:
        """Return a window by its id, else one of the caller's session, else the current one of a session."""
        if text.startswith("@"):
            return next((FoundTarget(session, one) for session in self.sessions for one in session.windows() if f"@{one.id}" == text), None)
        found = self.window_in(self.here.session, text, is_exact) if self.here.session else None
        session = None if found or is_only else self.session(text, is_exact)
        if self.may_index and found and not found.window and session is None and not is_only:
            session = self.session(text, is_exact)
        return self.completed(FoundTarget(session)) if session else found

    # ---- panes

    def any_pane(self, text: str, is_only: bool) -> FoundTarget | None:
        """Return a pane by its id, else one of the caller's window, else the active one of a window."""
        if text.startswith("%"):
            return next((FoundTarget(session, window, pane) for session in self.sessions for window in session.windows()
                         for pane in window.panes() if f"%{pane.id}" == text), None)
        here = self.completed(self.here) if self.here.session else FoundTarget()
        pane = self.pane_in(here.window, text) if here.window else None
        if pane:
            return here._replace(pane=pane)
        return None if is_only else self.any_window(text.lstrip("="), text.startswith("="), False)

    def pane_in(self, window: WindowLike, text: str) -> PaneLike | None:
        """Return a pane of a window by its id, its index, an offset, a side, or a corner; None if there is none."""
        panes = list(window.panes())
        if text.startswith("%"):
            return next((one for one in panes if f"%{one.id}" == text), None)
        if text == "!":
            return window.last_pane()
        # As in tmux, offsets and sides count from the caller's pane, which may be in another window.
        here = self.completed(self.here).pane
        place = next((place for place, one in enumerate(panes) if here and one.id == here.id), None)
        if text in SIDES:
            return beside(panes, panes[place], *SIDES[text]) if place is not None else None
        if text[0] in "+-" and panes:
            steps = number_in(text[1:]) if text[1:] else 1
            begin = place if place is not None else -1 if text[0] == "+" else 0
            return panes[(begin + (steps if text[0] == "+" else -steps)) % len(panes)] if steps is not None else None
        number = number_in(text)
        if number is not None:
            place = number - window.pane_base()
            return panes[place] if 0 <= place < len(panes) else None
        return at_corner(panes, text)


def beside(panes: Sequence[PaneLike], active: PaneLike, down: int, right: int) -> PaneLike | None:
    """Return the first pane on a side of the active one, around the window's edges as in tmux; None if there is none."""
    here = active.rect
    last_row = max(one.rect.row + one.rect.rows for one in panes)
    last_col = max(one.rect.col + one.rect.cols for one in panes)
    row, col = here.row + here.rows + 1, here.col + here.cols + 1
    edge = (row if row <= last_row else 1) if down > 0 else here.row - 1 if here.row > 1 else last_row
    side = (col if col <= last_col else 1) if right > 0 else here.col - 1 if here.col > 1 else last_col
    for one in panes:
        rect = one.rect
        touches = (rect.row == edge if down > 0 else rect.row + rect.rows == edge) if down else (
            rect.col == side if right > 0 else rect.col + rect.cols == side)
        is_along = (rect.col < here.col + here.cols + 1 and here.col < rect.col + rect.cols + 1) if down else (
            rect.row < here.row + here.rows + 1 and here.row < rect.row + rect.rows + 1)
        if one.id != active.id and touches and is_along:
            return one
    return None


def at_corner(panes: Sequence[PaneLike], text: str) -> PaneLike | None:
    """Return the pane at a side or a corner of its window, at the middle of a side; None for another word."""
    words = text.lower().split("-")
    if not panes or not set(words) <= {"top", "bottom", "left", "right"} or len(words) > 2:
        return None
    first_row, first_col = min(one.rect.row for one in panes), min(one.rect.col for one in panes)
    last_row, last_col = max(one.rect.row + one.rect.rows for one in panes) - 1, max(one.rect.col + one.rect.cols for one in panes) - 1
    row = first_row if "top" in words else last_row if "bottom" in words else (first_row + last_row) // 2
    col = first_col if "left" in words else last_col if "right" in words else (first_col + last_col) // 2
    return next((one for one in panes if one.rect.row <= row <= one.rect.row + one.rect.rows
                 and one.rect.col <= col <= one.rect.col + one.rect.cols), None)
