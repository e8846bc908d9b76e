"""Connections to Unix sockets, and the credentials of their peers.

`UnixSocket` builds on the C module behind the standard library's `socket`. The Python module makes enums of some hundred numbers. With its
imports that takes 118,000 bytecodes, more than all of roam that an attach needs first.
"""
from __future__ import annotations

import errno
import os
import time

from roam_live.common.errors import Fault, is_absent, reason, say
from roam_live.common.event_loop import Loop
from roam_live.common.named_fields import NamedFields
from roam_live.common.suppress import suppress

TYPE_CHECKING = False
if TYPE_CHECKING:
    from collections.abc import Callable
    from socket import AF_UNIX, CMSG_SPACE, MSG_CMSG_CLOEXEC, MSG_PEEK, SCM_RIGHTS, SHUT_WR, SO_PEERCRED, SO_SNDBUF, SOCK_STREAM, SOL_SOCKET
    from socket import socket as SocketBase
else:
    from _socket import AF_UNIX, CMSG_SPACE, MSG_CMSG_CLOEXEC, MSG_PEEK, SCM_RIGHTS, SHUT_WR, SO_PEERCRED, SO_SNDBUF, SOCK_STREAM, SOL_SOCKET
    from _socket import socket as SocketBase

__all__ = ["CMSG_SPACE", "MSG_CMSG_CLOEXEC", "MSG_PEEK", "SCM_RIGHTS", "SHUT_WR", "SO_SNDBUF", "SOL_SOCKET"]

# Seconds to wait for a socket that is not there yet, and seconds until the wait is reported.
LONGEST_WAIT = 10.0
SAID_AFTER = 0.5

# The credentials of the peer of a Unix socket (SO_PEERCRED): pid, user and group, four bytes each.
CREDENTIALS = 12


class UnixSocket(SocketBase):
    """A Unix stream socket that a `with` closes."""

    def __init__(self, descriptor: int | None = None) -> None:
        super().__init__(AF_UNIX, SOCK_STREAM, 0, descriptor)

    if TYPE_CHECKING:

        def _accept(self) -> tuple[int, object]:
            """Accept a connection, and return its descriptor and its address."""

    def accept(self) -> tuple[UnixSocket, object]:
        """Accept a connection, and return it and its address."""
        descriptor, address = self._accept()
        return UnixSocket(descriptor), address

    def __enter__(self) -> UnixSocket:
        return self

    def __exit__(self, *fault: object) -> None:
        self.close()


class SocketPeer(NamedFields):
    """The process at the other end of a Unix socket."""

    process: int
    user: int

    @classmethod
    def of(cls, end: SocketBase) -> SocketPeer:
        """Return the credentials of a socket's peer: the process that connected, or that began to listen."""
        process, user, _ = memoryview(end.getsockopt(SOL_SOCKET, SO_PEERCRED, CREDENTIALS)).cast("I")
        return cls(process, user)

    def is_own(self) -> bool:
        """Return True if the peer is of this user. The superuser counts as another user."""
        return self.user == os.getuid()


def is_own_peer(end: SocketBase) -> bool:
    """Return True if the peer of a Unix socket is of this user."""
    try:
        return SocketPeer.of(end).is_own()
    except OSError:
        return False


def connected_now(path: str | os.PathLike[str]) -> UnixSocket:
    """Connect to a Unix socket at which this user listens. This never waits: BlockingIOError if the listener is busy."""
    peer = UnixSocket()
    try:
        peer.setblocking(False)
        peer.connect(str(path))
        if not is_own_peer(peer):
            raise PermissionError(errno.EPERM, f"user {SocketPeer.of(peer).user} listens there instead of you", str(path))
    except OSError:
        peer.close()
        raise
    return peer


def is_anybody(process: int) -> bool:
    """Return True: any process of this user may listen."""
    return True


def connected_to(path: str | os.PathLike[str], is_peer: Callable[[int], bool]) -> UnixSocket:
    """Connect like `connected_now`, to a process that a call accepts. Another one is refused: another session may have the folder by now."""
    peer = connected_now(path)
    if is_peer(SocketPeer.of(peer).process):
        return peer
    peer.close()
    raise ConnectionRefusedError(errno.ECONNREFUSED, "a process of another session listens there", str(path))


def connected_in(path: str | os.PathLike[str], seconds: float) -> UnixSocket:
    """Connect like `connected_now`, but retry a busy listener for so many seconds."""
    end = time.monotonic() + seconds
    while True:
        try:
            return connected_now(path)
        except BlockingIOError:
            if time.monotonic() >= end:
                raise
        time.sleep(0.01)


def connected(path: str | os.PathLike[str]) -> UnixSocket:
    """Return a connection to a Unix socket that may still be missing."""
    begun_at = time.monotonic()
    has_said = False
    while True:
        try:
            return connected_now(path)
        except OSError as fault:
            is_early = isinstance(fault, (FileNotFoundError, ConnectionRefusedError, BlockingIOError))
            if not is_early or time.monotonic() > begun_at + LONGEST_WAIT:
                raise Fault(f"{path}: {reason(fault)}") from fault
        if not has_said and time.monotonic() > begun_at + SAID_AFTER:
            has_said = True
            say(f"waiting for {path}")
        time.sleep(0.02)


def unheard(path: str | os.PathLike[str]) -> str:
    """Return the reason if nobody of this user listens at a Unix socket; else nothing. A busy listener counts."""
    try:
        connected_now(path).close()
    except OSError as fault:
        return reason(fault) if is_absent(fault) else ""
    return ""


def is_listened(path: str | os.PathLike[str]) -> bool:
    """Return True if somebody of this user listens at a Unix socket, or may."""
    return not unheard(path)


# Seconds that a new connection waits if the system has no descriptor for it.
DEAF = 1.0


def listening(path: str | os.PathLike[str]) -> UnixSocket:
    """Return a socket that listens at a path. It replaces a stale one, but not one with a listener."""
    if is_listened(path):
        raise Fault(f"another process already listens at {path}")
    try:
        os.unlink(path)
    except FileNotFoundError:
        pass
    one = UnixSocket()
    one.bind(str(path))
    one.listen(16)
    one.setblocking(False)
    return one


def heir_of(held: int) -> UnixSocket:
    """Return the listening socket of an earlier process. It names that process as its peer until this one listens, too."""
    one = UnixSocket(held)
    one.listen(16)
    one.setblocking(False)
    return one


class Listener:
    """Accepts connections of this user while there is room; others wait. With `is_told` the owner calls `room_changed`; otherwise the loop
    asks before each wait."""

    def __init__(self, loop: Loop, path: str | os.PathLike[str], takes: Callable[[UnixSocket], object], has_room: Callable[[], bool],
                 refused: Callable[[OSError], object], is_told: bool = False, held: int | None = None) -> None:
        self.loop, self.path, self.takes, self.has_room, self.refused, self.is_told = loop, path, takes, has_room, refused, is_told
        self.end = listening(path) if held is None else heir_of(held)
        self.made = os.lstat(path)
        self.is_deaf = False
        self.join()

    def join(self) -> None:
        """Add the socket to the loop."""
        self.loop.add(self.end, self.take, hears=self.hears, is_told=self.is_told)

    def is_found(self) -> bool:
        """Return True if the socket's file is still the one that was bound: a cleaner of old files may have removed it."""
        try:
            return os.path.samestat(self.made, os.lstat(self.path))
        except OSError:
            return False

    def move(self, path: str | os.PathLike[str]) -> None:
        """Bind a new socket at a path and listen there; Fault or OSError if that fails."""
        end = listening(path)
        self.loop.remove(self.end)
        self.end.close()
        self.end, self.path, self.made = end, path, os.lstat(path)
        self.join()

    def hears(self) -> bool:
        """Return True if another connection is accepted now."""
        return not self.is_deaf and self.has_room()

    def take(self) -> None:
        """Accept one connection."""
        try:
            peer = self.end.accept()[0]
        except BlockingIOError:
            # The peer has closed it.
            return
        except OSError as fault:
            self.is_deaf = True
            self.loop.later(f"hear {self.path}", DEAF, self.hear_again)
            self.refused(fault)
            return
        if is_own_peer(peer):
            peer.setblocking(False)
            self.takes(peer)
        else:
            peer.close()

    def hear_again(self) -> None:
        """Accept connections again after a lack of descriptors."""
        self.is_deaf = False
        self.room_changed()

    def room_changed(self) -> None:
        """Check if there is room now."""
        self.loop.changed(self.end)

    def close(self) -> None:
        """Close the socket, and remove it."""
        self.loop.remove(self.end)
        self.loop.drop(f"hear {self.path}")
        self.end.close()
        with suppress(OSError):
            # Another session's socket may be there by now.
            if os.path.samestat(self.made, os.lstat(self.path)):
                os.unlink(self.path)
