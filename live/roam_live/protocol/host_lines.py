"""The lines at the socket `host`, for both ends: their subjects, the words of those about rows, and their limits.

Each line begins with the number of a window, 0 for the session.
"""
from __future__ import annotations

from roam_live.common.text import decimal_in

# The number of the session, and the highest of a window.
SESSION, HIGHEST = 0, 99

# A line to the host is shorter. Then the answer to a malformed line, and the placeholder of unknown values.
LONGEST_HOST_LINE = 256
BAD_LINE, NONE = "bad line", "none"

# The request for reports of each pane's foreground command.
COMMANDS = "commands"

# The words of lines about scrollback rows; `log` ends with END. Then the most rows, and bytes of several, in one answer.
COUNT, ROWS, FIND, FOUND, SNAPSHOT, RELEASE, MORE, LOG = "count", "rows", "find", "found", "snapshot", "release", "more", "log"
BACK, ON, END = "back", "on", "end"
MOST_ROWS = 2000
MOST_ROW_BYTES = 1 << 18
MOST_NUMBER = 10**15 - 1


def led(number: int, line: str) -> str:
    """Return a line about a window, or about the session, with its number."""
    return f"{number} {line}"


def parted(line: str) -> tuple[int | None, str]:
    """Return the number at the start of a line, None if there is none, and the rest."""
    word, _, rest = line.partition(" ")
    number = decimal_in(word, HIGHEST)
    return (None, line) if number is None else (number, rest)
