"""The interface of a session for the tools, however it is reached: local, remote, spawned by hand, or at a port.

None means unknown, and differs from an empty answer. Tools never load this module: it serves type checking and new kinds of sessions.
"""
from __future__ import annotations

from typing import Protocol

from roam_live.common.file_path import FilePath

TYPE_CHECKING = False
if TYPE_CHECKING:
    from collections.abc import Sequence


class HostedSession(Protocol):
    """A session whose shells run in a pty host that may end before it."""

    name: str

    def process(self, role: str) -> int | None:
        """Return the process of a role such as `server`, `host` or `client`; None if none runs or is known."""

    def owns_host(self) -> bool:
        """Return True if a front end of this session restarts its pty host."""

    def revive_host(self) -> bool:
        """Restart the pty host if it has ended and this process may, and return True if it runs."""


class AnySession(HostedSession, Protocol):
    """A session as a front end needs it. Its text names its location, as in `no server is {session}`."""

    # The role of the process whose end is the session's.
    served: str
    # The socket of the client process.
    terminals: FilePath

    @property
    def folder(self) -> FilePath | None:
        """Return the folder with the sockets for bells and panes; None if unknown."""

    @property
    def common(self) -> FilePath | None:
        """Return the folder in which front ends register: that of this window's session, or the same."""

    def read(self) -> None:
        """Reload its recorded state."""

    def runs(self, role: str | None = None) -> bool:
        """Return True if the process of a role is known to run; by default that of the role `served`."""

    def is_replaced(self) -> bool:
        """Return True if its folder is another session's by now."""

    def is_peer(self, name: str, process: int) -> bool:
        """Return True if the process at one of its sockets is its own, or unknown."""

    def has_met(self) -> bool:
        """Return True if the process of the role `served` was seen to run."""

    def is_served(self) -> bool:
        """Return True if a server answers at its address."""

    def busy(self) -> dict[int, str] | None:
        """Return the panes that run a program other than a shell, with its name; None if that is unknown, of one pane or of all."""

    def revive(self) -> None:
        """Spawn the client process if it is missing; Fault or OSError gives the reason of a failure."""

    def ending(self) -> tuple[str, int]:
        """Return the message about its end, and the front end's exit status."""

    @property
    def number(self) -> int:
        """Return the number of its window; 0 if the session is limited to one."""

    def window(self, number: int | None = None) -> AnySession:
        """Return another window of the session by its number; Fault if it does not exist."""

    def windows(self) -> Sequence[AnySession]:
        """Return the running windows of the session, in order."""

    def tools_folder(self) -> str:
        """Return the folder of the tools that the session's pty host runs, if that is on this machine and says so; else nothing."""

    def close(self) -> None:
        """Release it, and end the processes spawned for this front end alone."""
