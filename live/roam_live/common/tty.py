"""The user's terminal: its modes, its size, its alternate screen, and output in addition to the painter's."""
from __future__ import annotations

import errno
import fcntl
import os
import sys
import termios

from roam_live.common.errors import Fault
from roam_live.common.suppress import suppress

TYPE_CHECKING = False
if TYPE_CHECKING:
    from typing import Any

    # Rows and columns.
    Size = tuple[int, int]

    # A terminal's modes as returned by `termios`: numbers, and last a list of bytes, which a list type cannot express.
    Modes = list[Any]

# The smallest and largest sizes of a session.
LEAST = (4, 8)
MOST = (200, 500)

# The system's limit on rows or columns of a terminal.
MOST_CELLS = 65535

# The smallest terminal that shows part of a session: two rows and four columns, above the row of the front end.
LEAST_SHOWN = (3, 4)

# The start of a painting that clears the terminal.
RESET = b"\x1bc"

# The effect of a reset as far as a user's terminal may be changed: the modes that alter the painter's functions, the margins, the sets and
# the style. Then all is erased. RIS itself would also erase the user's own screen and scrollback.
CLEARED = b"\x1b[0m\x1b[r\x1b(B\x0f\x1b[4l\x1b[20l\x1b[?5l\x1b[?6l\x1b[?7h\x1b[?1l\x1b[?25h\x1b[2J\x1b[H"

# Bracketed paste is on, so that pasted text never triggers a key binding.
ENTERED = b"\x1b[?1049h\x1b[?2004h\x1b>" + CLEARED
LEFT = b"\x1b[?2004l\x1b>\x1b[0m\x1b[r\x1b(B\x0f\x1b[?25h\x1b[?1049l"

# The keypad sends application codes (DECKPAM), or numbers (DECKPNM).
KEYPAD = {True: b"\x1b=", False: b"\x1b>"}

# TERM of a terminal that cannot position its cursor.
DUMB = "dumb"


def demand_able() -> None:
    """Refuse a terminal that cannot position its cursor, like tmux."""
    if os.environ.get("TERM") == DUMB:
        raise Fault(f"TERM is {DUMB}: this terminal cannot place its cursor; set TERM to its real type, such as xterm-256color")


def unwrapped(text: str) -> bytes:
    """Return a text with autowrap off, for rows that may be longer than the terminal's: nothing wraps into the next row."""
    return f"\x1b[?7l{text}\x1b[?7h".encode("utf-8", "replace")


def size_of(terminal: int) -> Size:
    """Return a terminal's rows and columns; 24 and 80 if it reports none."""
    cols, rows = os.get_terminal_size(terminal)
    return rows or 24, cols or 80


def set_size(terminal: int, rows: int, cols: int) -> None:
    """Set the size of a terminal. The system signals its programs if it changed."""
    size = b"".join(min(max(one, 0), MOST_CELLS).to_bytes(2, sys.byteorder) for one in (rows, cols, 0, 0))
    fcntl.ioctl(terminal, termios.TIOCSWINSZ, size)


def is_large_enough(size: Size) -> bool:
    """Return True if a terminal has at least the smallest size of a session."""
    return size[0] >= LEAST[0] and size[1] >= LEAST[1]


def largest(size: Size) -> Size:
    """Return the largest size of a session on a terminal of this size."""
    return min(size[0], MOST[0]), min(size[1], MOST[1])


def size_act(size: Size) -> str:
    """Return the act that sets a session to a terminal's size, within the limits."""
    return "size {} {}".format(*largest(size))


def set_modes(terminal: int, when: int, modes: Modes) -> None:
    """Set a terminal's modes. After an interrupting signal, such as a stop in the background and `fg`, try again."""
    while True:
        try:
            termios.tcsetattr(terminal, when, modes)
            return
        except termios.error as fault:
            if fault.args[0] != errno.EINTR:
                raise


def make_raw(terminal: int) -> Modes | None:
    """Switch a terminal to raw input, and return the modes before; None if the terminal refuses or is gone."""
    try:
        before = termios.tcgetattr(terminal)
        # TCSADRAIN would wait for output, and a terminal that hangs never shows it.
        set_modes(terminal, termios.TCSANOW, raw(termios.tcgetattr(terminal)))
    except (termios.error, OSError):
        return None
    return before


def raw(modes: Modes) -> Modes:
    """Return a terminal's modes changed for raw input."""
    modes[0] &= ~(termios.BRKINT | termios.ICRNL | termios.INLCR | termios.IGNCR | termios.INPCK | termios.ISTRIP | termios.IXON)
    modes[1] &= ~termios.OPOST
    modes[2] = modes[2] & ~(termios.CSIZE | termios.PARENB) | termios.CS8
    modes[3] &= ~(termios.ECHO | termios.ICANON | termios.IEXTEN | termios.ISIG)
    modes[6][termios.VMIN], modes[6][termios.VTIME] = 1, 0
    return modes


def restore(terminal: int, modes: Modes) -> None:
    """Restore a terminal's modes, and drop unread input, so that it does not become a command of the shell.

    Unlike TCSAFLUSH this does not wait until the terminal has shown all output.
    """
    with suppress(termios.error, OSError):
        termios.tcflush(terminal, termios.TCIFLUSH)
        set_modes(terminal, termios.TCSANOW, modes)


def opened_for_writing(terminal: int) -> int:
    """Return a second descriptor of a terminal, on which writes needn't wait for those of other programs.

    Open it by its name. If that is absent here or forbidden, as after `su`, open the controlling terminal of this process. If both fail,
    return the terminal itself.
    """
    flags = os.O_WRONLY | os.O_NOCTTY | os.O_NONBLOCK
    try:
        return os.open(os.ttyname(terminal), flags)
    except OSError:
        pass
    try:
        # This fails for a terminal that doesn't control this process.
        os.tcgetpgrp(terminal)
        return os.open("/dev/tty", flags)
    except OSError:
        return os.dup(terminal)
