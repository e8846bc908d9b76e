"""Common parts of the test scripts: checks that print a line each, scenes by name, and a pseudo-terminal with a tool on it."""
import fcntl
import json
import os
import pathlib
import pty
import re
import shutil
import signal
import struct
import subprocess
import sys
import termios
import threading
import time

# The tools, and their package; the terminal of the unit tests; and the actors of the tables.
LIVE = pathlib.Path(__file__).resolve().parents[2] / "live"
sys.path[:0] = [str(LIVE), str(LIVE.parent / "tests/unit"), str(LIVE.parent / "tests/program")]

from actors import comes
from emulated import Emulated
from roam_live.cli.capture import asked_screen
from roam_live.common import tty
from roam_live.common.errors import Fault
from roam_live.common.process import TOOLS, program
from roam_live.protocol.client_link import ClientLink
from roam_live.protocol.screen_cells import ShownCells, Style, cells_of

# The default seconds for an expected event, which takes less than one on a quiet machine.
WAIT = 60.0

# The session of a scene, and this process's program.
SESSION = "tried"
PROGRAM = os.environ.get("ROAM", "")

# The session's name at the start of the last row: no number, since panes have those.
NAMED = re.compile(r"\[[a-z][a-z0-9_-]*\] ")

# The label of a window in the last row, with a name, which comes from the pty host.
LABEL = re.compile(r"(?:^|[ >])\d+:\S")

# The end of a painted last row. Another may follow in the same read, after the message that it replaces.
PUT = b"\x1b8"

# The most tries for the cells of a session, which a busy machine reports late.
TRIES = 6

failed = []

# The scenes by name: functions of a folder of their own.
SCENES = {}

# The scenes that the gate doesn't run, each with the reason.
OUTSIDE_GATE = {}


def scene(does):
    """Register a function as a scene."""
    if does.__name__ in SCENES:
        raise ValueError(f"{does.__name__}: {does.__module__} and {SCENES[does.__name__].__module__} both have this scene")
    SCENES[does.__name__] = does
    return does


def outside_gate(reason):
    """Return a decorator that marks a scene as one that the gate doesn't run, with the reason."""

    def marked(does):
        OUTSIDE_GATE[does.__name__] = reason
        return does

    return marked


def is_missing(name, *tools):
    """Return True if one of these tools isn't installed, and print that what needs it is skipped."""
    lacking = [one for one in tools if not shutil.which(one)]
    if lacking:
        print(f"skipped {name}: without {' and '.join(lacking)}", flush=True)
    return bool(lacking)


def check(name, holds, seen=""):
    """Print a check's line, with the value seen if it fails."""
    if callable(seen) and not holds:
        seen = seen()
    print(f"ok      {name}" if holds else f"FAILED  {name}: {seen}", flush=True)
    if not holds:
        failed.append(name)


def tool(name, *words):
    """Return the words of a tool."""
    return [str(TOOLS / name), *words]


def script(name, *words):
    """Return the words of a test script."""
    return [str(LIVE.parent / "tests/stress" / name), *words]


def children(process):
    """Return the children of a process."""
    return [int(word) for word in pathlib.Path(f"/proc/{process}/task/{process}/children").read_text(encoding="utf-8").split()]


def is_scrollback_process(process):
    """Return True if a process is a scrollback process, by its arguments."""
    try:
        return pathlib.Path(f"/proc/{process}/cmdline").read_bytes().split(b"\0")[1:2] == [b"rows"]
    except OSError:
        return False


def commands(name):
    """Return the commands of a session's panes, which its holder has started."""
    return children(noted(name)["holder"][0])


def listed():
    """Return the output of `mux ls`."""
    return subprocess.run(tool("mux", "ls"), stdout=subprocess.PIPE, check=True).stdout.decode().split()


def folder_of(name, base=None):
    """Return the folder of a session."""
    return pathlib.Path(base or os.environ["XDG_RUNTIME_DIR"], "roam", name)


def window_of(name, number=1, base=None):
    """Return the folder of a session's window, by default the first."""
    return folder_of(name, base) / f"w/{number}"


def noted(name, number=1, base=None):
    """Return the note of a session, and of a window of it."""
    paths = (window_of(name, number, base) / "state.json", folder_of(name, base) / "state.json")
    return {role: one for path in paths for role, one in json.loads(path.read_text(encoding="utf-8")).items()}


def terminals_of(name, number=1):
    """Return the socket of a window's client process."""
    return window_of(name, number) / "terminals"


def connected(name, is_read_only=True):
    """Return a connection to a session's client process that receives records."""
    link = ClientLink(terminals_of(name), is_read_only)
    link.connect()
    return link


def told_cells(name):
    """Return the cells of a session, as its client process sends them to a read-only connection."""
    for _ in range(TRIES - 1):
        try:
            return cells_of(asked_screen(connected(name), "look sgr"))
        except Fault:
            time.sleep(1)
    return cells_of(asked_screen(connected(name), "look sgr"))


def said(*words):
    """Return the status of `mux` with these words, its standard output and its standard error."""
    run = subprocess.run(tool("mux", *words), stdin=subprocess.DEVNULL, stdout=subprocess.PIPE, stderr=subprocess.PIPE, check=False)
    return run.returncode, run.stdout.decode(), run.stderr.decode()


def after_name(row):
    """Return a last row without the session's name at its begin."""
    named = NAMED.match(row)
    return row[named.end() :] if named else row


class Outer:
    """A terminal with a tool on it. Its old screen has a line, `before`."""

    # All terminals of the scene.
    made = []

    def __init__(self, words, size=(24, 80), environment=None):
        self.size = size
        self.master, self.slave = pty.openpty()
        tty.set_size(self.slave, *size)
        self.modes = termios.tcgetattr(self.slave)
        self.written = bytearray(b"before\r\n")
        self.emulated, self.read_to, self.is_resized = Emulated(*size), 0, False
        self.made.append(self)
        # The moments at which so many bytes had been written, and the number of those whose output the emulation has read. The number of
        # bytes that had been written at the last key.
        self.moments, self.looked, self.typed_at = [], 0, 0
        ends = {"stdin": self.slave, "stdout": self.slave, "stderr": self.slave}
        known = {"TERM": "xterm-256color", **os.environ, **(environment or {})}
        if os.environ.get("TERM") == "dumb" and "TERM" not in (environment or {}):
            known["TERM"] = "xterm-256color"
        self.process = subprocess.Popen(words, **ends, env=known, start_new_session=True, preexec_fn=own_terminal)
        threading.Thread(target=self.read, daemon=True).start()

    def read(self):
        """Read the tool's output."""
        while True:
            try:
                chunk = os.read(self.master, 65536)
            except OSError:
                return
            self.written += chunk
            self.moments.append((time.monotonic(), len(self.written)))

    def type(self, text):
        """Type all these bytes."""
        self.typed_at = len(self.written)
        view = memoryview(text)
        while view:
            view = view[os.write(self.master, view[:4096]) :]

    def is_taken(self):
        """Return True if the tool reads in time what was typed. The system passes keys on a moment after they are typed."""
        time.sleep(0.1)
        return comes(lambda: struct.unpack("i", fcntl.ioctl(self.slave, termios.FIONREAD, bytes(4)))[0] == 0)

    def read_up_to(self, end):
        """Let the emulation take the output up to an end."""
        if end > self.read_to:
            self.emulated.fed(bytes(self.written[self.read_to : end]))
            self.read_to = end

    def emulation(self):
        """Return the terminal after all output so far."""
        self.read_up_to(len(self.written))
        return self.emulated

    def rows(self):
        """Return the visible rows."""
        return self.emulation().lines()

    def cells(self):
        """Return the visible cells, with their styles, and the cursor."""
        return self.emulation().painted()

    def is_as_shown(self):
        """Return True if `roam show` shows the same from the whole output. A size that changed meanwhile prevents that."""
        self.await_rest()
        seen = self.emulation()
        words = [program(), "show", "--rows", str(self.size[0]), "--cols", str(self.size[1])]
        run = subprocess.run(words, input=bytes(self.written[: self.read_to]), stdout=subprocess.PIPE, check=True)
        shown = run.stdout.decode().splitlines()
        cursor = f"cursor {seen.row + 1} {seen.col + 1} {'shown' if seen.has_cursor else 'hidden'}"
        return self.is_resized or [f"|{line}|" for line in seen.lines()] + [cursor] == shown[: self.size[0] + 1]

    def await_rest(self):
        """Wait until no output comes for 0.1 s, for at most 5 s, since the last read may have ended within a character."""
        length, end = -1, time.monotonic() + 5
        while length != len(self.written) and time.monotonic() < end:
            length = len(self.written)
            time.sleep(0.1)

    def next_end(self):
        """Return the end of the next unread piece of output: of a chunk, or of a painted last row in it."""
        while self.looked < len(self.moments) and self.moments[self.looked][1] <= self.read_to:
            self.looked += 1
        end = self.moments[self.looked][1] if self.looked < len(self.moments) else len(self.written)
        put = self.written.find(PUT, self.read_to, end)
        return put + len(PUT) if put >= 0 else end

    def paintings(self):
        """Yield the terminal after each piece of output since the last look, or since the last key if that came later; then as it is."""
        self.read_up_to(self.typed_at)
        while self.read_to < len(self.written):
            self.read_up_to(self.next_end())
            yield self.emulated
        yield self.emulated

    def sees(self, test, seconds=WAIT):
        """Return True if the terminal passes a test in time, be it for a moment.

        A message may be shown and gone before this call, so what came since the last look or key counts too.
        """
        return comes(lambda: any(map(test, self.paintings())), seconds)

    def shows(self, text, seconds=WAIT):
        """Return True if a text appears anywhere in time."""
        return self.sees(lambda seen: any(text in row for row in seen.lines()), seconds)

    def shown_at(self, text, seconds=WAIT):
        """Return the moment at which a text appeared, by the rows after each painted chunk; None if it doesn't in time.

        The output is parsed once it contains the text literally, or pauses for a moment. Parsing takes this process long, which may relay
        the measured data itself.
        """
        begun, searched, found = time.monotonic(), len(self.written), -1
        while True:
            is_over = time.monotonic() > begun + seconds
            end, searched = searched, len(self.written)
            found = self.written.find(text.encode(), max(0, end - len(text))) if searched > end else -1
            if is_over or found >= 0 or self.is_still():
                for moment, length in [chunk for chunk in list(self.moments) if chunk[1] > self.read_to]:
                    self.emulated.fed(bytes(self.written[self.read_to : length]))
                    self.read_to = length
                    if begun < moment <= begun + seconds and any(text in row for row in self.emulated.lines()):
                        return moment
            if is_over:
                return None
            time.sleep(0.002)

    def is_still(self):
        """Return True if there is unread output, and nothing new for a second."""
        return bool(self.moments) and self.moments[-1][1] > self.read_to and self.moments[-1][0] < time.monotonic() - 1

    def stands(self, row, col, text, seconds=WAIT):
        """Return True if a text appears at a row and a column in time, from 0."""
        return comes(lambda: self.rows()[row][col:].startswith(text), seconds)

    def last_row(self):
        """Return the last row after the session's name, which it begins with if there is room."""
        return after_name(self.rows()[-1])

    def status(self, text, seconds=WAIT, end=""):
        """Return True if the last row begins with a text after the session's name, and ends with another, in time. The painting above may
        come before or after that.
        """

        def is_there(seen):
            row = after_name(seen.lines()[-1])
            return row.startswith(text) and row.endswith(end)

        return self.sees(is_there, seconds)

    def was_told(self, *texts, begin=0):
        """Return True if one of these lines is written after so many bytes. It is shown for a moment, and may be gone before the next
        check.
        """
        return comes(lambda: any(self.written.find(text.encode(), begin) >= 0 for text in texts))

    def is_known(self):
        """Return True once the pty host names the windows. Before that it may not know this terminal: no message of it comes, and no copy
        mode opens.
        """
        return comes(lambda: LABEL.search(self.last_row()) is not None)

    def begins(self):
        """Return True once a shell's prompt is shown, and the pty host knows the terminal."""
        return self.shows("$ ") and self.is_known()

    def has_size(self, rows, cols):
        """Return True if a shell reports a size in time. It is asked again, since the pty host sets the size while keys pass it."""
        return comes(lambda: self.type(b"clear; stty size\r") or self.shows(f"{rows} {cols}", 5))

    def settled(self, row):
        """Return the rows once a shell's prompt is at a row, from 0, and the last row shows the shell."""
        self.stands(row, 0, "$")
        comes(lambda: self.rows()[-1].rstrip().endswith(":sh*"))
        return self.rows()

    def resize(self, rows, cols):
        """Change the terminal's size, like a user."""
        self.emulation().resize(rows, cols)
        self.size, self.is_resized = (rows, cols), True
        tty.set_size(self.slave, rows, cols)

    def display_keypad(self):
        """Return the last keypad code in the output, for applications or numbers; nothing if there is none."""
        last = max(bytes(self.written).rfind(code) for code in (b"\x1b=", b"\x1b>"))
        return bytes(self.written[last : last + 2]) if last >= 0 else b""

    def ends(self):
        """Return True if the tool ends in time."""
        return comes(lambda: self.process.poll() is not None)

    def is_restored(self):
        """Return True if the terminal is restored: the modes, and the old screen."""
        is_kept = comes(lambda: self.rows()[0].startswith("before"), 15)
        return is_kept and termios.tcgetattr(self.slave) == self.modes and b"\x1b[?1049l" in self.written[-200:]


def part_at(cells, row, col, size):
    """Return a part of a session's cells from a row and a column on, from 1. A cut wide character is a space in its style, and the outside
    is blank.

    The cursor's position in the part is included, or nothing if it is hidden or outside.
    """
    rows, cols = size
    blank = (" ", Style())
    found = {}
    for down in range(rows):
        for right in range(cols):
            letters, style = cells.cells.get((row + down, col + right), blank)
            is_wide = cells.cells.get((row + down, col + right + 1), blank)[0] == ""
            is_cut = not letters and right == 0 or is_wide and right == cols - 1
            found[down + 1, right + 1] = (" " if is_cut else letters, style)
    place = cells.row - row + 1, cells.col - col + 1
    return found, place if cells.has_cursor and 1 <= place[0] <= rows and 1 <= place[1] <= cols else None


def shown_above(outer):
    """Return the cells above a terminal's last row, and its cursor if visible."""
    seen = outer.emulation()
    cells = {(row, col): cell for row, line in enumerate(seen.screen[:-1], 1) for col, cell in enumerate(line, 1)}
    return cells, (seen.row + 1, seen.col + 1) if seen.has_cursor else None


def is_part_of(outer, cells):
    """Return True if a terminal shows above its last row a part of a session's area, or all of it and blanks, cell by cell."""
    rows, cols = outer.size
    shown = shown_above(outer)
    starts = [(row, col) for row in range(1, max(1, cells.rows - rows + 1) + 1) for col in range(1, max(1, cells.cols - cols + 1) + 1)]
    below = {place: (" ", Style()) if place[0] >= cells.rows else cell for place, cell in cells.cells.items()}
    area = ShownCells(cells.rows - 1, cells.cols)
    area.cells, area.row, area.col, area.has_cursor = below, cells.row, cells.col, cells.has_cursor
    return any(part_at(area, *start, (rows - 1, cols)) == shown for start in starts)


def is_part(small, large):
    """Return True if a terminal shows a part of another one's contents, row by row."""
    rows = [row.rstrip() for row in small.rows()[:-1]]
    others = large.rows()[:-1]
    return any(rows == [other[col : col + small.size[1]].rstrip() for other in others[row : row + len(rows)]]
               for row in range(len(others) - len(rows) + 1) for col in range(large.size[1] - small.size[1] + 1))


def own_terminal():
    """Make standard input the controlling terminal, whose hangup and interrupt this process may ignore in the background."""
    for number in (signal.SIGINT, signal.SIGQUIT, signal.SIGHUP):
        signal.signal(number, signal.SIG_DFL)
    fcntl.ioctl(0, termios.TIOCSCTTY, 0)


# With this a session stores no rows, so that the shared view scrolls in place of copy mode.
KEEPS_NONE = {"ROAM_HISTORY": "0"}


def three_panes(name=SESSION, environment=None):
    """Return a terminal on a session of three panes, the first beside two others and focused."""
    outer = Outer(tool("mux", name), environment=environment)
    # The pty host is subscribed to the panes from here on, and knows the earlier focus.
    outer.shows("$ ")
    for keys, label in ((b"", "[1]"), (b"\x02%", " 1 [2]"), (b'\x02"', " 1  2 [3]"), (b"\x02q1", "[1] 2  3")):
        outer.type(keys)
        outer.status(label)
    for place in ((0, 0), (0, 40), (12, 40)):
        outer.stands(*place, "$")
    outer.is_known()
    return outer
