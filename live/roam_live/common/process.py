"""Processes by pid and start time, and the paths of the program and the tools."""
from __future__ import annotations

import os

from roam_live.common.errors import Fault, is_absent, reason
from roam_live.common.file_path import FilePath
from roam_live.common.files import add_lines
from roam_live.common.signals import signal
from roam_live.common.suppress import suppress

# The most intended ends that are recorded.
MOST_ENDED = 128

TOOLS = FilePath(os.path.realpath(__file__)).parent.parent.parent

# The paths of the program: built by make, or installed beside the tools.
PLACES = (TOOLS.parent / "crates/roam/out/roam", TOOLS / "roam", TOOLS.parent / "bin/roam", TOOLS.parent.parent / "bin/roam")


def program() -> str:
    """Return the path of `roam`: ROAM in the environment, else the built program, else the installed one."""
    named = os.environ.get("ROAM")
    for path in [FilePath(named)] if named else PLACES:
        if path.is_file() and os.access(path, os.X_OK):
            return str(path)
    if named:
        raise Fault(f"{named} is no program; the variable ROAM names it")
    if os.path.exists(TOOLS.parent / "crates.txt"):
        raise Fault(f"{PLACES[0]} does not exist; `make` builds it")
    raise Fault("the program roam was removed or moved; install roam again")


def read_stat(process: int) -> list[str]:
    """Return the fields of /proc/PID/stat from the state on; OSError if there is no such process or it is hidden."""
    return FilePath(f"/proc/{process}/stat").read_text(errors="replace").rpartition(")")[2].split()


def stated(process: int) -> list[str]:
    """Return the same fields; an empty list if there is no such process."""
    try:
        return read_stat(process)
    except OSError:
        return []


def begun(process: int) -> int | None:
    """Return the start time of a process in clock ticks; None if it does not exist or is a zombie."""
    words = stated(process)
    return None if not words or words[0] in "ZX" else int(words[19])


def age_of(process: int) -> float:
    """Return the age of a process in seconds; 0 if unknown."""
    moment = begun(process)
    with suppress(OSError, ValueError):
        with open("/proc/uptime", encoding="ascii") as uptime:
            return float(uptime.read().split()[0]) - moment / os.sysconf("SC_CLK_TCK") if moment is not None else 0.0
    return 0.0


def is_stopped(process: int) -> bool:
    """Return True if a process is stopped, and so waits for SIGCONT."""
    return stated(process)[:1] in (["T"], ["t"])


def is_running(process: int, moment: int | None) -> bool:
    """Return True if the process that started at this moment still runs. The pid alone may have been reused.

    If the system does not report the start time, as without descriptors, the pid alone decides.
    """
    if moment is None:
        return False
    try:
        words = read_stat(process)
    except (FileNotFoundError, ProcessLookupError):
        return False
    except OSError:
        return is_there(process)
    return bool(words) and words[0] not in "ZX" and int(words[19]) == moment


def is_there(process: int) -> bool:
    """Return True if a process has this pid."""
    try:
        os.kill(process, 0)
    except ProcessLookupError:
        return False
    except OSError:
        pass
    return True


def end_words(process: int, moment: int | None) -> str:
    """Return the words that record the end of a process: its pid and its start time."""
    return f"{process} {moment}"


def note_ends(folder: str | os.PathLike[str], lines: list[str]) -> None:
    """Record in a session's folder that processes are about to be ended on purpose. Nobody then reports a failure."""
    if lines:
        with suppress(OSError):
            add_lines(os.path.join(folder, "ended"), lines, MOST_ENDED)


def note_end(folder: str | os.PathLike[str], process: int, moment: int | None) -> None:
    """Record the same of one process."""
    note_ends(folder, [end_words(process, moment)])


def opened_process(process: int) -> int:
    """Return a descriptor of a process that is readable once it has ended."""
    try:
        return os.pidfd_open(process)
    except OSError as fault:
        raise Fault("the session has ended") from fault


def woken(*signals: int) -> int:
    """Return a pipe that receives a byte for each of these signals, which have no other effect."""
    reader, writer = os.pipe2(os.O_NONBLOCK | os.O_CLOEXEC)
    for number in signals:
        signal.signal(number, lambda number, frame: None)
    signal.set_wakeup_fd(writer, warn_on_full_buffer=False)
    return reader


def unwoken(*signals: int) -> None:
    """Restore the default action of these signals."""
    for number in signals:
        signal.signal(number, signal.SIG_DFL)


def holder_of(folder: str | os.PathLike[str]) -> int | None:
    """Return the process that has locked a folder, from /proc/locks; None if there is none or it is hidden."""
    try:
        found = os.stat(folder)
        with open("/proc/locks", encoding="ascii", errors="replace") as locks:
            words = [line.split() for line in locks]
    except OSError as fault:
        if not is_absent(fault):
            raise Fault(f"cannot find the process that locked {folder}: {reason(fault)}") from fault
        return None
    # A line has its number, the kind, two more words, the pid, and the file's device and inode.
    ours = [line[4] for line in words if len(line) > 5 and line[1] == "FLOCK" and line[5].endswith(f":{found.st_ino}")]
    holders = [int(word) for word in ours if word.isdigit()]
    return next((process for process in holders if has_open(process, found)), None)


def has_open(process: int, file: os.stat_result) -> bool:
    """Return True if a process has a file open."""
    with suppress(OSError):
        for end in os.listdir(f"/proc/{process}/fd"):
            with suppress(OSError):
                if os.path.samestat(file, os.stat(f"/proc/{process}/fd/{end}")):
                    return True
    return False
