"""Interfaces of upper parts of a front end for lower ones. Tools never load this module: it serves type checking."""
from __future__ import annotations

from typing import Protocol

from roam_live.input.keys import Key


class WaitingKeys(Protocol):
    """Input for a window that isn't there yet."""

    def open(self, handed: str = "", stays: bool = False) -> None:
        """Open a window, with uploaded start options if named."""

    def is_full(self) -> bool:
        """Return True if too much input waits to accept more."""

    def told_panes(self) -> None:
        """Open a list that waits for a report about the panes."""

    def hold(self, key: Key) -> bool:
        """Queue a key, and return True if it has to wait."""


class OtherWindows(Protocol):
    """The windows of a session, as the current one uses them."""

    @property
    def waiting(self) -> WaitingKeys:
        """Return the input for a window that isn't there yet."""

    def why_one(self) -> str:
        """Return the reason that this session has only one window, "" if it may have others."""

    def grant(self, wish: str) -> None:
        """Carry out a user's request about windows."""

    def go_to_shown(self, place: int) -> None:
        """Go to the window whose label is at a position in the last row."""

    def say(self, line: str) -> bool:
        """Send a line to the host, and return True if it is connected."""
