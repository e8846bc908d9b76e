"""The environment that an attaching front end passes to a session.

It points a symlink in the session's folder at the user's ssh agent. It also sends the variables of the display and of the ssh connection;
new panes inherit them.
"""
from __future__ import annotations

import os
import stat
import time

from roam_live.common.errors import Fault, reason
from roam_live.common.event_loop import comes
from roam_live.common.files import is_own_folder
from roam_live.common.io import LineReader
from roam_live.common.suppress import suppress
from roam_live.common.unix_socket import SocketPeer, connected_in, connected_now
from roam_live.protocol.host_lines import SESSION, led, parted
from roam_live.protocol.panes import ASKED

TYPE_CHECKING = False
if TYPE_CHECKING:
    import socket
    from collections.abc import Iterable

    from roam_live.protocol.session_interface import AnySession
    from roam_live.session.folder import SessionFolder

# The variables whose values are sent, and the word for an unset one. A line contains the longest value in hexadecimal.
NAMES = ("DISPLAY", "WAYLAND_DISPLAY", "SSH_CONNECTION")
LONGEST_VALUE = 112
NONE = "none"

# The word of a line that sends a value to the pty host, and the word that requests the values of new panes.
ENVIRONMENT = "environment"

# The variable of the ssh agent, and the name of its symlink in a session's folder.
AGENT, LINK = "SSH_AUTH_SOCK", "agent"

# The names of the relay tool, which replaces the server of a remote session.
RELAYS = (b"relay", b"roam-relay")

# The most links in a path, by the system's own limit.
MOST_LINKS = 40


def tellable(value: str) -> str:
    """Return a value that can be sent: 1 to 112 printable ASCII characters; nothing for others and for an unset one."""
    return value if len(value) <= LONGEST_VALUE and all(" " <= letter <= "~" for letter in value) else ""


def own_values() -> dict[str, str]:
    """Return the values in this process's environment; empty if unset or not sendable."""
    return {name: tellable(os.environ.get(name, "")) for name in NAMES}


def word_of(value: str) -> str:
    """Return the word that encodes a value."""
    return value.encode("ascii").hex() or NONE


def value_in(word: str) -> str | None:
    """Decode the wire form of a value: "" if the variable is unset, None if the word is invalid."""
    if word == NONE:
        return ""
    if len(word) % 2 or not all(letter in "0123456789abcdef" for letter in word):
        return None
    return tellable(bytes.fromhex(word).decode("latin-1")) or None


def value_lines(word: str, values: dict[str, str]) -> list[str]:
    """Return lines of a word, a variable and its value."""
    return [f"{word} {name} {word_of(value)}" for name, value in values.items()]


class PaneEnvironment:
    """The values for new panes: those sent last, else those in this process's environment."""

    def __init__(self, values: dict[str, str] | None = None) -> None:
        self.values = own_values() if values is None else values

    def take(self, line: str, leads: str = ENVIRONMENT) -> bool:
        """Take a value from a line with this word, and return True if the line is one."""
        word, _, rest = line.partition(" ")
        name, _, told = rest.partition(" ")
        value = value_in(told)
        if word != leads or name not in self.values or value is None:
            return False
        self.values[name] = value
        return True

    def lines(self) -> list[str]:
        """Return the lines that answer a request for them."""
        return value_lines(ENVIRONMENT, self.values)

    def set_values(self) -> dict[str, str]:
        """Return the values that are set."""
        return {name: value for name, value in self.values.items() if value}


# ---- the agent


def link_of(folder: str | os.PathLike[str]) -> str:
    """Return the path of the agent symlink in a session's folder."""
    return os.path.join(os.path.abspath(folder), LINK)


def is_socket(path: str, is_own: bool) -> bool:
    """Return True if an absolute path leads to a socket, and to one of this user if `is_own`."""
    try:
        found = os.stat(path)
    except OSError:
        return False
    return path.startswith("/") and stat.S_ISSOCK(found.st_mode) and (not is_own or found.st_uid == os.getuid())


def leads_over(path: str, link: str) -> bool:
    """Return True if a path leads over this link. The link would then lead to itself."""
    for _ in range(MOST_LINKS):
        try:
            if os.path.samestat(os.lstat(path), os.lstat(link)):
                return True
            path = os.path.join(os.path.dirname(path), os.readlink(path))
        except OSError:
            return False
    return True


def renew_agent(folder: str | os.PathLike[str]) -> None:
    """Point the symlink of a session's folder at the agent in this process's environment, a socket of this user.

    Without such a socket the symlink stays unchanged.
    """
    path, link = os.environ.get(AGENT, ""), link_of(folder)
    if not is_own_folder(folder) or not is_socket(path, True) or leads_over(path, link):
        return
    new = f"{link}.{os.getpid()}"
    with suppress(OSError):
        os.unlink(new)
    try:
        os.symlink(path, new)
        os.replace(new, link)
    except OSError:
        with suppress(OSError):
            os.unlink(new)


def begin_agent(folder: str | os.PathLike[str]) -> None:
    """Create the symlink if it is absent. An existing one may be of a later attach."""
    if not os.path.lexists(link_of(folder)):
        renew_agent(folder)


def agent_in(folder: str | os.PathLike[str]) -> str:
    """Return the agent path for a new pane: the symlink, even if its target comes with a later attach.

    While there is no symlink, return the socket in this process's environment that no symlink leads to, such as one of another user.
    """
    link, own = link_of(folder), os.environ.get(AGENT, "")
    return own if not os.path.lexists(link) and is_socket(own, False) else link


# ---- sending and requesting


def is_relayed(folder: str | os.PathLike[str]) -> bool:
    """Return True if a near relay replaces the server of a folder, by its process's command line."""
    try:
        with connected_now(os.path.join(folder, "clients")) as peer, open(f"/proc/{SocketPeer.of(peer).process}/cmdline", "rb") as told:
            words = told.read().split(b"\0")
    except OSError:
        return False
    return any(os.path.basename(word) in RELAYS for word in words[:2])


def environment_lines(session: AnySession, is_read_only: bool) -> list[str]:
    """Renew the agent symlink of a session, and return the lines that send this terminal's values.

    A read-only terminal sends nothing, and neither does one of a remote session. The far end sends the values there.
    """
    if is_read_only or session.folder is None or session.common is None or session.served != "server" or is_relayed(session.folder):
        return []
    renew_agent(session.common)
    return value_lines(ENVIRONMENT, own_values())


def send_environment(session: SessionFolder) -> None:
    """Send this process's environment to a session, whose host reads it once it can; a host still to be spawned inherits it."""
    lines = environment_lines(session, False)
    with suppress(OSError), connected_now(session.common / "host") as peer:
        peer.send(joined(lines))


def joined(lines: Iterable[str]) -> bytes:
    """Return lines about the session as bytes."""
    return "".join(f"{led(SESSION, line)}\n" for line in lines).encode()


def asked_values(session: SessionFolder) -> dict[str, str]:
    """Return the values that new panes of a session have, from its host; Fault gives the reason if they are unknown."""
    try:
        with connected_in(session.common / "host", ASKED) as peer:
            peer.send(joined([ENVIRONMENT]))
            told = read_environment(peer, time.monotonic() + ASKED)
    except OSError as fault:
        raise Fault(f"session {session.name}: its pty host is not running ({reason(fault)}); `mux {session.name}` restarts it") from fault
    if told is None:
        raise Fault(f"session {session.name}: the pty host did not report the environment")
    return told.values


def read_environment(peer: socket.socket, end: float) -> PaneEnvironment | None:
    """Return the values that a host reports before a deadline; None if they are incomplete."""
    told, left, lines = PaneEnvironment(), set(NAMES), LineReader()
    while left and comes(peer, max(0.0, end - time.monotonic())):
        heard = lines.read(peer.fileno())
        if heard is None:
            break
        left -= {line.split(" ")[1] for line in (parted(one)[1] for one in heard) if told.take(line, ENVIRONMENT)}
    return None if left else told


def shell_lines(session: SessionFolder) -> list[str]:
    """Return the lines that set a shell to the environment of a session's new panes, and that run nothing else, whatever the values are."""
    import shlex

    values = asked_values(session)
    link = link_of(session.common)
    if os.path.lexists(link):
        values[AGENT] = link
    return [f"export {name}={shlex.quote(value)}" if value else f"unset {name}" for name, value in values.items()]
