"""The address of a server, which is its folder, or a UDP port of loopback and the session's id."""
from __future__ import annotations

import errno
import os

from roam_live.common.process import program
from roam_live.common.unix_socket import is_listened, unheard

HOME = "name a server by its directory, or by its port, 1 to 65535, and the session's id, 1 to 16 hexadecimal digits"


def random_id() -> str:
    """Return a new random id: 15 hexadecimal digits, the first no zero, so that it is below every limit of an id."""
    return f"{int.from_bytes(os.urandom(8), 'big') >> 4 | 1 << 59:x}"


def is_id(word: str) -> bool:
    """Return True if a word is an id: 1 to 16 hexadecimal digits."""
    return 1 <= len(word) <= 16 and all(letter in "0123456789abcdefABCDEF" for letter in word)


def is_port(word: str) -> bool:
    """Return True if a word is a port number: 1 to 65535."""
    return word.isascii() and word.isdigit() and len(word) <= 5 and 1 <= int(word) <= 65535


def is_port_served(port: int) -> bool:
    """Return True if a process has bound this UDP port of loopback. The probe is one byte, which no server takes for a datagram."""
    import socket

    with socket.socket(socket.AF_INET, socket.SOCK_DGRAM) as probe:
        probe.connect(("127.0.0.1", port))
        probe.settimeout(0.005)
        try:
            probe.send(b"\0")
            probe.recv(1)
        except ConnectionRefusedError:
            return False
        except OSError:
            pass
        return True


class Home:
    """The address of a server: its folder, or a UDP port of loopback and the session's id."""

    def __init__(self, folder: str | None = None, port: int = 0, session: str = "") -> None:
        self.folder, self.port, self.session = folder, port, session

    @classmethod
    def of(cls, words: list[str]) -> Home | None:
        """Return the address in the words of a command line: DIR, or PORT SESSION; None if they are neither."""
        if len(words) == 1:
            return cls(folder=os.path.abspath(words[0]))
        if len(words) == 2 and is_port(words[0]) and is_id(words[1]):
            return cls(port=int(words[0]), session=words[1])
        return None

    def __str__(self) -> str:
        return f"in {self.folder}" if self.folder else f"at port {self.port}"

    def is_served(self) -> bool:
        """Return True if a server listens at this address."""
        return is_listened(f"{self.folder}/clients") if self.folder else is_port_served(self.port)

    def why_unserved(self) -> str:
        """Return the reason that no server is known here, if it is more than that nobody listens."""
        why = unheard(f"{self.folder}/clients") if self.folder and os.path.exists(f"{self.folder}/clients") else ""
        return f": {why}" if why and why != os.strerror(errno.ECONNREFUSED) else ""

    def attach_words(self, more: list[str]) -> list[str]:
        """Return the arguments of a client process. They omit the id if the folder's permissions protect the session."""
        if self.folder:
            return [program(), "attach", "--dir", self.folder, *more]
        return [program(), "attach", "--port", str(self.port), "--session", self.session, "--client", random_id(), *more]
