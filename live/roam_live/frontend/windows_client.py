"""The windows of a session, as the pty host reports them to a front end: names, programs, and events."""
from __future__ import annotations

from roam_live.common.text import decimal_in, printable
from roam_live.frontend.status_line import cut, window_label
from roam_live.protocol.panes import is_pane
from roam_live.protocol.window_lines import ACTIVITY, BELL, GONE, LONGEST_NAME, MOST_WINDOWS, NO_NAME, RUNS, WINDOW, WINDOWS, name_in

# Limits of reports, which may come from another machine: a name in hexadecimal digits, and a program's name in characters.
LONGEST_WORD, LONGEST_PROGRAM = 512, 255

# Columns of a window's name in the last row, and of its program's name.
MOST_COLUMNS = 24


class WindowsState:
    """The reported windows of a session."""

    def __init__(self) -> None:
        self.names: dict[int, str] = {}
        self.runs: dict[int, str] = {}
        # The windows with a bell, and those with output, since the user was there.
        self.rung: set[int] = set()
        self.wrote: set[int] = set()
        # True if these are all; and the windows reported on this connection.
        self.is_whole = False
        self.anew: set[int] = set()

    def begin(self) -> None:
        """Begin a new report of all windows."""
        self.anew.clear()

    def numbers(self) -> list[int]:
        """Return the numbers of the windows, in order."""
        return sorted(self.names)

    def take(self, line: str) -> list[int] | None:
        """Take a line, and return the windows that are gone by it; None if it is invalid here."""
        word, _, rest = line.partition(" ")
        first, _, more = rest.partition(" ")
        if word == WINDOWS:
            return self.take_count(rest)
        number = decimal_in(first, MOST_WINDOWS) or 0
        if not number:
            return None
        if word == WINDOW:
            return self.take_name(number, more)
        if word == RUNS:
            return self.take_program(number, more)
        if word == GONE and rest == first:
            return self.forget({number})
        if word == BELL and is_pane(more) or word == ACTIVITY and rest == first:
            (self.rung if word == BELL else self.wrote).add(number)
            return []
        return None

    def take_count(self, count: str) -> list[int] | None:
        """Take the number of windows, after all of them."""
        if not (count.isascii() and count.isdigit() and len(count) <= len(str(MOST_WINDOWS))):
            return None
        self.is_whole = True
        return self.forget(set(self.names) - self.anew)

    def take_name(self, number: int, word: str) -> list[int] | None:
        """Take a window and its name."""
        is_hexadecimal = 0 < len(word) <= LONGEST_WORD and len(word) % 2 == 0 and not word.strip("0123456789abcdef")
        if word != NO_NAME and not is_hexadecimal:
            return None
        self.names[number] = name_in(word) or ""
        self.anew.add(number)
        return []

    def take_program(self, number: int, program: str) -> list[int] | None:
        """Take the program of a window."""
        if not 0 < len(program) <= LONGEST_PROGRAM or "\n" in program:
            return None
        self.runs[number] = printable(program)[:LONGEST_NAME]
        return []

    def forget(self, numbers: set[int]) -> list[int]:
        """Forget windows that are gone, and return those that were known."""
        gone = sorted(numbers & self.names.keys())
        for number in numbers:
            self.names.pop(number, None)
            self.runs.pop(number, None)
        self.rung -= numbers
        self.wrote -= numbers
        return gone

    def seen(self, number: int) -> None:
        """Record that the user is in a window."""
        self.rung.discard(number)
        self.wrote.discard(number)

    def label(self, number: int, here: int, last: int) -> str:
        """Return a window's label in the last row: its name or program, and its flags."""
        flags = "#" * (number in self.wrote) + "!" * (number in self.rung) + ("*" if number == here else "-" * (number == last))
        name = self.names.get(number, "") or self.runs.get(number, "")
        return window_label(number, cut(name, MOST_COLUMNS), flags)
