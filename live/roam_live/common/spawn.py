"""Commands on new pseudo-terminals: their start, environment and signals."""
from __future__ import annotations

import fcntl
import os
import termios

from roam_live.common.signals import signal
from roam_live.common.suppress import suppress
from roam_live.common.text import printable
from roam_live.common.tty import set_size

TYPE_CHECKING = False
if TYPE_CHECKING:
    from roam_live.common.tty import Size

# The terminal erases UTF-8 characters and not bytes. Python has no name for it before 3.13.
IUTF8 = 0o40000

# Signals that a tool may handle itself. A command on its terminal does not inherit that.
SIGNALS = (signal.SIGCHLD, signal.SIGTERM, signal.SIGHUP, signal.SIGINT, signal.SIGPIPE, signal.SIGXFSZ)

# TERM of a pane, and the folders of terminfo. Its erased cells have the default style, so an entry with `bce` would show wrong colours.
ENTRIES = ("tmux-256color", "screen-256color", "vt220")
FOLDERS = ("/etc/terminfo", "/lib/terminfo", "/usr/lib/terminfo", "/usr/share/terminfo", "/usr/local/share/terminfo")


def has_entry(name: str) -> bool:
    """Return True if this machine's terminfo has an entry."""
    own = [os.environ[word] for word in ("TERMINFO",) if os.environ.get(word)]
    folders = [*own, os.path.expanduser("~/.terminfo"), *os.environ.get("TERMINFO_DIRS", "").split(":"), *FOLDERS]
    return any(os.path.exists(f"{folder}/{part}/{name}") for folder in folders if folder for part in (name[0], f"{ord(name[0]):x}"))


def names() -> dict[str, str]:
    """Return the variables that name the terminal of a pane: the first entry that this machine has."""
    return {"TERM": next((name for name in ENTRIES if has_entry(name)), ENTRIES[-1]), "COLORTERM": "truecolor"}


def forget_signals() -> None:
    """Restore the default actions of signals that the parent process handled, and stop reporting them to the parent."""
    signal.set_wakeup_fd(-1)
    for number in SIGNALS:
        signal.signal(number, signal.SIG_DFL)


def forked_apart() -> int:
    """Fork a process, and return 0 in the child and the child's pid in the parent.

    A signal to the child, however early, does not reach the parent's wakeup pipe. Otherwise the host would take the SIGHUP of a pane that
    closes at once for its own.
    """
    before = signal.pthread_sigmask(signal.SIG_BLOCK, SIGNALS)
    process = -1
    try:
        process = os.fork()
    finally:
        if process == 0:
            forget_signals()
        signal.pthread_sigmask(signal.SIG_SETMASK, before)
    return process


def forked(size: Size) -> tuple[int, int]:
    """Fork a process on a new terminal. Return 0 and 0 in the child, and its pid and the terminal's master in the parent.

    The terminal has its size before the process exists, so that no later size precedes this one.
    """
    master, slave = os.openpty()
    try:
        set_size(slave, *size)
        process = forked_apart()
    except OSError:
        os.close(master)
        os.close(slave)
        raise
    if process:
        os.close(slave)
        return process, master
    try:
        take(slave)
    except BaseException:
        os._exit(127)
    return 0, 0


def take(slave: int) -> None:
    """Make a terminal the controlling terminal of this process, and its standard input, output and error."""
    os.setsid()
    fcntl.ioctl(slave, termios.TIOCSCTTY, 0)
    for end in range(3):
        os.dup2(slave, end)


def become(command: list[str], environment: dict[str, str], instead: str | None = None) -> None:
    """Execute a command on standard input, a terminal; if that fails, the shell instead."""
    with suppress(termios.error, OSError):
        modes = termios.tcgetattr(0)
        modes[0] |= IUTF8
        termios.tcsetattr(0, termios.TCSANOW, modes)
    forget_signals()
    execute(command, environment, f"; this is {instead}" if instead else "")
    if instead:
        execute([instead], {**environment, "SHELL": instead})


def execute(command: list[str], environment: dict[str, str], more: str = "") -> None:
    """Execute a command in place of this process. If that fails, a line on standard error explains why."""
    try:
        os.execvpe(command[0], command, environment)
    except OSError as fault:
        os.write(2, f"{printable(f'{command[0]}: {fault.strerror}{more}')}\n".encode("utf-8", "replace"))
