"""Terminal queries of the panes' programs, as a server reports them at `panes`, and the answers typed there."""
from __future__ import annotations

from roam_live.common.build_info import version
from roam_live.common.file_path import FilePath
from roam_live.common.text import decimal_in
from roam_live.protocol.colours import NUMBERS, Colours

TYPE_CHECKING = False
if TYPE_CHECKING:
    from roam_live.common.tty import Size

# The subscription of the process that answers, and the word that begins each of its lines. Numbers there are bounded.
QUERIES, QUERY = "queries", "query"
MOST_NUMBER = 10**19 - 1

# The name and version of a pane's terminal (XTVERSION).
NAMED = b"\x1bP>|roam %s\x1b\\"

# The queried modes with words of their own. A number, at most that of any parameter of a program, follows the word of another private mode,
# or of a mode of ECMA-48.
MODES = {"frames": 2026, "pastes": 2004}
MODE, ANSI_MODE, MOST_MODE = "mode", "ansi-mode", 9999

# The state of a mode in the answer (DECRPM), by the words that follow it in a line. A mode that the terminal doesn't have is unknown.
UNKNOWN = 0
STATES = {"set": 1, "": 2, "unknown": UNKNOWN}

# The report of the size of the text area in characters: rows and columns (xterm, window manipulation).
SIZED = b"\x1b[8;%d;%dt"

# The end of an answer about a colour, the same as the query's.
BELL, ENDED = b"\x07", b"\x1b\\"

# With this option a server buffers synchronized updates.
AS_MEANT = b"--normalize"


def holds_frames(process: int | None) -> bool:
    """Return True if a server's process buffers synchronized updates, by its options; False if those can't be read."""
    try:
        return process is not None and AS_MEANT in FilePath(f"/proc/{process}/cmdline").read_bytes().split(b"\0")
    except OSError:
        return False


def mode_told(mode: int, state: int, is_private: bool = True) -> bytes:
    """Return the report of a mode's state."""
    return b"\x1b[%s%d;%d$y" % (b"?" if is_private else b"", mode, state)


class PaneQuery:
    """A terminal query of a pane generation's program, in the words of a line."""

    def __init__(self, words: list[str]) -> None:
        self.pane, self.generation, self.what = int(words[0]), int(words[1]), words[2]
        self.more = " ".join(words[3:])

    def answer(self, colours: Colours, has_frames: bool, size: Size) -> bytes:
        """Return the answer to type into a pane of this size, in rows and columns; nothing if it needs an unknown colour."""
        if self.what == "version":
            return NAMED % version().encode()
        if self.what == "size":
            return SIZED % size
        if self.what in (MODE, ANSI_MODE):
            number, _, state = self.more.partition(" ")
            return mode_told(int(number), STATES[state], self.what == MODE)
        if self.what in MODES:
            return mode_told(MODES[self.what], STATES[self.more] if has_frames or self.what != "frames" else UNKNOWN)
        colour = colours.known.get(self.what)
        end = BELL if self.more else ENDED
        return b"\x1b]%d;rgb:%s%s" % (NUMBERS[self.what], colour.encode(), end) if colour else b""


# The words of which one may follow each query, behind the number of a mode.
BEHIND: dict[str, list[str]] = {"version": [], "size": [], "frames": ["set"], "pastes": ["set"], "foreground": ["bell"],
                                "background": ["bell"], MODE: ["set", "unknown"], ANSI_MODE: ["set", "unknown"]}


def query_in(line: str) -> PaneQuery | None:
    """Return the query of a line `query P GENERATION WHAT`; None for another line."""
    word, *words = line.split(" ")
    numbers, what, behind = words[:2], "".join(words[2:3]), words[3:]
    if word != QUERY or what not in BEHIND or any(decimal_in(number, MOST_NUMBER) is None for number in numbers):
        return None
    if what in (MODE, ANSI_MODE) and (not behind or decimal_in(behind.pop(0), MOST_MODE) is None):
        return None
    return PaneQuery(words) if len(behind) <= 1 and all(more in BEHIND[what] for more in behind) else None
