"""Queries many sockets of sessions in parallel for pane positions and the number of attached terminals."""
from __future__ import annotations

import os
import select
import time

from roam_live.common.io import LineReader
from roam_live.common.text import decimal_in
from roam_live.common.unix_socket import connected_now
from roam_live.protocol.host_lines import SESSION, led
from roam_live.protocol.panes import PanesState
from roam_live.protocol.presence import CLIENTS

TYPE_CHECKING = False
if TYPE_CHECKING:
    import socket

    from roam_live.protocol.panes import Places
    from roam_live.session.folder import SessionFolder

# Seconds for all answers together.
ANSWERS = 0.3

# The start of the last line in the answer to `clients`, before a number.
COUNT, MOST_COUNT = f"{led(SESSION, CLIENTS)} ", 9999


class PanesQuestion:
    """A query for the pane positions at the socket `panes` of a folder."""

    words = b""

    def __init__(self, folder: str | os.PathLike[str]) -> None:
        self.path = os.path.join(folder, "panes")
        self.told = PanesState()

    def take(self, line: str) -> bool:
        """Take a line of the answer, and return True if it is the last one."""
        self.told.take(line)
        return self.told.is_whole()


class ClientsQuestion:
    """A query for the number of terminals at the socket `host` of a folder."""

    words = f"{led(SESSION, CLIENTS)}\n".encode()

    def __init__(self, folder: str | os.PathLike[str]) -> None:
        self.path = os.path.join(folder, "host")
        self.count: int | None = None

    def take(self, line: str) -> bool:
        """Take a line of the answer, and return True if it is the last one."""
        self.count = decimal_in(line[len(COUNT) :], MOST_COUNT) if line.startswith(COUNT) else None
        return self.count is not None


class Asking:
    """A connection for a query."""

    def __init__(self, question: PanesQuestion | ClientsQuestion) -> None:
        self.question, self.lines = question, LineReader()
        self.peer: socket.socket = connected_now(question.path)

    def ask(self) -> bool:
        """Send the query, and return True if that worked."""
        try:
            self.peer.send(self.question.words)
        except OSError:
            return False
        return True

    def hear(self) -> bool:
        """Read the answer so far, and return True if it is complete."""
        lines = self.lines.read(self.peer.fileno())
        return lines is None or any([self.question.take(line) for line in lines])


class Survey:
    """The answers of many sessions' sockets, queried in parallel within `seconds`."""

    def __init__(self, panes: list[str], hosts: list[str], seconds: float = ANSWERS) -> None:
        self.panes = {folder: PanesQuestion(folder) for folder in panes}
        self.hosts = {folder: ClientsQuestion(folder) for folder in hosts}
        asked: dict[int, Asking] = {}
        questions: list[PanesQuestion | ClientsQuestion] = [*self.panes.values(), *self.hosts.values()]
        for question in questions:
            try:
                asking = Asking(question)
            except OSError:
                continue
            asked[asking.peer.fileno()] = asking
        self.wait(asked, time.monotonic() + seconds)
        for asking in asked.values():
            asking.peer.close()

    @staticmethod
    def wait(asked: dict[int, Asking], end: float) -> None:
        """Send queries, and take the answers that come before a deadline."""
        poll = select.poll()
        waits = [number for number, asking in asked.items() if asking.ask()]
        for number in waits:
            poll.register(number, select.POLLIN)
        while waits:
            left = end - time.monotonic()
            for number, _ in poll.poll(left * 1000) if left > 0 else ():
                if asked[number].hear():
                    poll.unregister(number)
                    waits.remove(number)
            if left <= 0:
                return

    def places(self, folder: str | os.PathLike[str]) -> Places | None:
        """Return the pane positions of a folder; None if its server did not answer."""
        question = self.panes.get(str(folder))
        return question.told.places() if question else None

    def terminals(self, folder: str | os.PathLike[str]) -> int | None:
        """Return the number of terminals at the session of a folder; None if its pty host did not answer."""
        question = self.hosts.get(str(folder))
        return question.count if question else None


def surveyed(sessions: list[tuple[SessionFolder, list[SessionFolder]]]) -> list[str]:
    """Return the lines of `mux ls` for running sessions, each with its windows. Their sockets are queried in parallel."""
    survey = Survey([str(window.folder) for _, windows in sessions for window in windows],
                    [str(session.folder) for session, _ in sessions])
    width = max((len(session.name) for session, _ in sessions), default=0)
    return [session.line(survey, windows, width) for session, windows in sessions]
