"""A session whose server has a UDP port of loopback. Anybody who knows its id can connect, since no folder protects it."""
from __future__ import annotations

import shutil
import subprocess
import tempfile

from roam_live.common.errors import Fault
from roam_live.common.file_path import FilePath
from roam_live.protocol.server_address import Home


# Seconds for the client to end.
END_WAIT = 1.0


class PortSession:
    """A session whose server has a UDP port. Each terminal spawns its own client, and a named folder has the other sockets."""

    served = "server"
    number = 0

    def __init__(self, home: Home, folder: str | None) -> None:
        self.home = home
        self.folder = self.common = FilePath(folder) if folder else None
        self.own = tempfile.mkdtemp(prefix="roam-terminals-")
        self.terminals = FilePath(self.own) / "terminals"
        self.client: subprocess.Popen[bytes] | None = None
        self.name = str(home)

    def __str__(self) -> str:
        return str(self.home)

    def windows(self) -> list[PortSession]:
        """Return an empty list: a port does not report which windows run."""
        return [self]

    def window(self, number: int | None = None) -> PortSession:
        """Return itself: no other window is known."""
        if number is not None:
            raise Fault(f"there is only one window {self}")
        return self

    def read(self) -> None:
        """Do nothing: there is no note of it."""

    def process(self, role: str) -> int | None:
        """Return the client process, the only one known."""
        return self.client.pid if role == "client" and self.client and self.client.poll() is None else None

    def runs(self, role: str | None = None) -> bool:
        """Return True if the process of a role runs."""
        return self.process(role or self.served) is not None

    def has_met(self) -> bool:
        """Return False: the server's process is unknown here."""
        return False

    def is_replaced(self) -> bool:
        """Return False: nothing is known of it."""
        return False

    def is_peer(self, name: str, process: int) -> bool:
        """Return True: its processes are unknown here."""
        return True

    def is_served(self) -> bool:
        """Return True if a process has the port. Without one the client is useless, which it does not notice itself."""
        is_there = self.home.is_served()
        if not is_there and self.client and self.runs("client"):
            self.client.terminate()
        return is_there

    def busy(self) -> dict[int, str] | None:
        """Return None: the programs in its panes are unknown here."""
        return None

    def owns_host(self) -> bool:
        """Return False: the pty host is unknown here."""
        return False

    def revive_host(self) -> bool:
        """Return False: the pty host is unknown here, and nothing is spawned."""
        return False

    def revive(self, earlier: int | None = None) -> None:
        """Spawn the client process if it does not run."""
        if not self.runs("client"):
            self.terminals.unlink(missing_ok=True)
            words = self.home.attach_words(["--terminals", str(self.terminals)])
            self.client = subprocess.Popen(words, stdin=subprocess.DEVNULL, stdout=subprocess.DEVNULL, stderr=subprocess.DEVNULL)

    def ending(self) -> tuple[str, int]:
        """Return the message and exit status after the session's end."""
        return "[the session has ended]", 0

    def tools_folder(self) -> str:
        """Return nothing: no session is known there."""
        return ""

    def close(self) -> None:
        """End the client process, by force if it is late, for example because it is stopped."""
        if self.client:
            self.client.terminate()
            try:
                self.client.wait(END_WAIT)
            except subprocess.TimeoutExpired:
                self.client.kill()
                self.client.wait()
        shutil.rmtree(self.own, ignore_errors=True)
