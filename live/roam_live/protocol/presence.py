"""The terminals of a session: their reports to the pty host, and its lines about the others."""
from __future__ import annotations

import os
import time

from roam_live.common.named_fields import NamedFields
from roam_live.common.text import decimal_in

TYPE_CHECKING = False
if TYPE_CHECKING:
    from collections.abc import Callable

# The report of a terminal's presence or new size, and the subscription to the others.
HERE, WHO = "here", "who"

# The reports of another terminal or its new size, of one that left, and last the count of the others.
THERE, GONE, OTHERS = "there", "gone", "others"

# The query for the terminals of all windows, and the word of each answer; the request to one terminal to detach; the line that detaches all
# others; and the request to a terminal to show another window.
CLIENTS, CLIENT, LEAVE, LEAVE_OTHERS, SHOW = "clients", "client", "leave", "leave others", "show"

# Seconds in which a departed terminal counts as the same if it returns, for example to another window; and the most that are known.
STAYS = 5.0
MOST_ATTENDED = 256

# The longest name of a terminal, the name of an unnamed one, and the highest rows, columns and numbers.
LONGEST_NAME = 64
KINDS = ("read-write", "read-only")
MOST_SIZE, MOST_NUMBER = 99999, 9999999999

# Most others that are reported. Reports may come from another machine.
MOST_OTHERS = 64


class Presence(NamedFields):
    """A terminal at a session: its name, its size, and its kind, `read-write` or `read-only`."""

    name: str
    rows: int
    cols: int
    kind: str

    def __str__(self) -> str:
        return f"{self.name} {self.rows} {self.cols} {self.kind}"


def number_in(word: str, most: int) -> int:
    """Return the number in a word, from 1 to the most, without leading zeros; else 0."""
    return decimal_in(word, most) or 0


def presence_in(words: list[str]) -> Presence | None:
    """Return the terminal that four words describe; None if they are invalid."""
    if len(words) != 4 or words[3] not in KINDS or not 0 < len(words[0]) <= LONGEST_NAME or not all("!" <= one <= "~" for one in words[0]):
        return None
    rows, cols = (number_in(word, MOST_SIZE) for word in words[1:3])
    return Presence(words[0], rows, cols, words[3]) if rows and cols else None


def presence_said(line: str) -> Presence | None:
    """Return the terminal that a line reports as present; None if the line has another form."""
    word, *words = line.split(" ")
    return presence_in(words) if word == HERE else None


def terminal_name() -> str:
    """Return the machine's name and this process's terminal: printable ASCII without blanks, 64 characters at most."""
    try:
        path = os.ttyname(0)
    except OSError:
        path = "?"
    name = f"{os.uname().nodename[:32]}:{path[-31:]}"
    return "".join(letter if "!" <= letter <= "~" else "?" for letter in name)


class Attended:
    """The arrival of terminals at a session, by the wall clock: one that moves between windows stays."""

    def __init__(self, clock: Callable[[], float] = time.time) -> None:
        self.clock = clock
        # The arrival of each terminal, and its departure if it has left.
        self.since: dict[str, tuple[float, float | None]] = {}

    def comes(self, name: str, now: float) -> int:
        """Record that a terminal arrives, and return the number of the moment since it has been there."""
        since, left = self.since.get(name, (self.clock(), None))
        if left is not None and now > left + STAYS:
            since = self.clock()
        self.since.pop(name, None)
        self.since[name] = since, None
        while len(self.since) > MOST_ATTENDED:
            del self.since[next(iter(self.since))]
        return int(since)

    def leaves(self, name: str, now: float) -> None:
        """Record a departure."""
        if name in self.since:
            self.since[name] = self.since[name][0], now


class OtherTerminals:
    """The reported other terminals at a session."""

    def __init__(self) -> None:
        self.there: dict[int, Presence] = {}
        # True once all of them are known.
        self.is_whole = False

    def take(self, line: str) -> bool:
        """Take a line, and return True if it is valid here."""
        word, *words = line.split(" ")
        number = number_in(words[0], MOST_NUMBER) if words else 0
        presence = presence_in(words[1:])
        if word == THERE and number and presence:
            if len(self.there) < MOST_OTHERS or number in self.there:
                self.there[number] = presence
        elif word == GONE and number and len(words) == 1:
            self.there.pop(number, None)
        elif word == OTHERS and (words == ["0"] or 0 < number <= MOST_OTHERS) and len(words) == 1:
            self.is_whole = number == len(self.there)
        else:
            return False
        return True

    def has_typing(self) -> bool | None:
        """Return True if one of them is read-write; None if unknown."""
        return any(one.kind == "read-write" for one in self.there.values()) if self.is_whole else None
