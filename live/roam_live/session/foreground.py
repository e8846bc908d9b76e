"""The programs that run in a session's panes, and their working folders."""
from __future__ import annotations

import os

from roam_live.common.file_path import FilePath
from roam_live.common.json_reader import read_json
from roam_live.common.named_fields import NamedFields
from roam_live.common.suppress import suppress
from roam_live.common.text import printable
from roam_live.session.names import HOST_STATE

TYPE_CHECKING = False
if TYPE_CHECKING:
    from collections.abc import Iterable, Iterator

# Programs that a pane may lose without a confirmation.
SHELLS = {"sh", "ash", "bash", "dash", "zsh", "fish", "ksh", "mksh", "csh", "tcsh", "nu", "xonsh", "elvish", "rc", "es"}

# The variable that identifies a program's pane: its window's folder, and its number there.
PANE = "ROAM_PANE"

# The positions of a process's state, process group, session and foreground process group in /proc/PID/stat, from 0 after its name.
STATE, GROUP, SESSION, FOREGROUND = 0, 2, 3, 5

# A question names at most so many jobs of a pane.
MOST_NAMED = 3


def busy_panes(session: str, folder: str = "") -> dict[int, str] | None:
    """Return the panes in which a program other than a shell has the terminal, and its name.

    The session's folder selects them, and a window's folder a single window. None if the state of the pty host is unreadable, or if the
    system hides the pane of such a program.
    """
    busy = busy_programs(session)
    return None if busy is None else {pane: name for (where, pane), name in busy.items() if folder in ("", where)}


def busy_programs(session: str) -> dict[tuple[str, int], str] | None:
    """Return the same for all windows, by their folders and panes."""
    try:
        own = kept_programs(session)
    except (OSError, ValueError, LookupError, TypeError, AttributeError):
        return None
    jobs = jobs_of(int(process) for process in own)
    found = {}
    for process in own:
        pane, names = pane_of(process), running(process, jobs[int(process)])
        if names:
            if pane is None:
                return None
            found[pane] = names
    # A process that is about to execute a pane's command has no pane yet, and neither has another one of this number.
    found.pop(NOWHERE, None)
    return found


def kept_programs(session: str) -> list[str]:
    """Return the processes of the panes' commands, from the state of a session's pty host."""
    state = read_json(FilePath(os.path.join(session, HOST_STATE)).read_text())
    panes = [pane for window in state["windows"].values() for pane in window["panes"].values()]
    return [str(pane["process"]) for pane in panes if pane["process"] and not pane["has_ended"]]


def running(process: str, jobs: list[str]) -> str:
    """Name what closing the pane of this session leader would end: a program other than a shell in front, and the jobs of the session.
    Return "" if there is nothing, or if the process has ended."""
    front = foreground(process)
    names = [front, *jobs] if front and not is_shell(front) and front not in jobs else jobs if front else []
    more = [f"{len(names) - MOST_NAMED} more"] if len(names) > MOST_NAMED else []
    return " and ".join(filter(None, (", ".join(names[:MOST_NAMED]), *more)))


class Process(NamedFields):
    """A process as /proc/PID/stat describes it. `front` is the foreground process group of its terminal."""

    number: int
    state: str
    group: int
    session: int
    front: int


def processes() -> Iterator[Process]:
    """Yield the processes that /proc shows to this user, without those that have ended. If /proc is mounted with `hidepid`, the processes
    of other users are missing."""
    for number in filter(str.isdigit, os.listdir("/proc")):
        with suppress(OSError, IndexError, ValueError):
            text = FilePath(f"/proc/{number}/stat").read_text(encoding="utf-8", errors="replace")
            words = text.rpartition(")")[2].split()
            if words[STATE] not in "ZXx":
                yield Process(int(number), words[STATE], *(int(words[place]) for place in (GROUP, SESSION, FOREGROUND)))


def jobs_of(leaders: Iterable[int]) -> dict[int, list[str]]:
    """Return for each of these session leaders the names of the jobs in its session: of the process groups other than its own.

    The group in front is first, by its name alone; `(stopped)` or `(background)` follows the names of the others. A process that left the
    session by setsid(2) isn't ended with the pane, so it is no job.
    """
    found: dict[int, dict[int, list[Process]]] = {leader: {} for leader in leaders}
    for process in processes() if found else ():
        if process.group != process.session and process.session in found:
            found[process.session].setdefault(process.group, []).append(process)
    return {leader: [job_name(group) for group in sorted(groups.values(), key=is_behind)] for leader, groups in found.items()}


def is_behind(group: list[Process]) -> bool:
    """Return True if another process group than this one has the terminal."""
    return group[0].front != group[0].group


def job_name(group: list[Process]) -> str:
    """Name a process group by its leader or else another of its processes, and add its state unless it is in front."""
    name = name_of(next((process.number for process in group if process.number == process.group), group[0].number))
    if not is_behind(group):
        return name
    return f"{name} (stopped)" if all(process.state in "Tt" for process in group) else f"{name} (background)"


# The pane of a process outside panes.
NOWHERE = "", 0


def pane_of(process: str) -> tuple[str, int] | None:
    """Return a process's window folder and pane from its environment.

    Return NOWHERE if none is set or the process has ended, and None if the environment is unreadable.
    """
    try:
        words = FilePath(f"/proc/{process}/environ").read_bytes().split(b"\0")
    except PermissionError:
        return None
    except OSError:
        return NOWHERE
    leads = f"{PANE}=".encode()
    return next((pane_in(os.fsdecode(word[len(leads) :])) for word in words if word.startswith(leads)), NOWHERE)


def pane_in(value: str) -> tuple[str, int]:
    """Return the folder and the pane in a value of the environment; NOWHERE if it has none."""
    folder, _, pane = value.rpartition(":")
    return (folder, int(pane)) if pane.isascii() and pane.isdigit() and len(pane) == 1 and pane != "0" else NOWHERE


def own_pane() -> tuple[str, int]:
    """Return the window folder and pane of this process; NOWHERE if it runs outside panes."""
    return pane_in(os.environ.get(PANE, ""))


def foreground(process: str) -> str:
    """Return the printable name of the foreground program on a process's terminal, as far as known; empty if the process has ended."""
    try:
        words = FilePath(f"/proc/{process}/stat").read_text(encoding="utf-8", errors="replace").rpartition(")")[2].split()
        state, group = words[0], words[FOREGROUND]
    except (OSError, IndexError):
        return ""
    if state in "ZX":
        return ""
    return name_of(group)


def name_of(group: int | str) -> str:
    """Return the printable name of a process group's leading program."""
    try:
        name = FilePath(f"/proc/{group}/comm").read_bytes()[:-1].decode("utf-8", "replace")
    except OSError:
        # The first of several programs may have ended.
        name = ""
    # A program may have given itself any name, even an empty one.
    return printable(name) or "a program"


def group_in_front(terminal: int) -> int | None:
    """Return the foreground process group of a pseudo-terminal, from its master; None if it has none."""
    try:
        return os.tcgetpgrp(terminal) or None
    except OSError:
        return None


def working_folder(processes: Iterable[int | None]) -> str:
    """Return the first readable working folder of these processes that still exists; nothing if there is none."""
    for process in processes:
        with suppress(OSError):
            folder = os.readlink(f"/proc/{process}/cwd")
            if os.path.isdir(folder):
                return folder
    return ""


def is_shell(name: str) -> bool:
    """Return True if a program of this name is a shell."""
    return name.lstrip("-") in SHELLS | {os.path.basename(os.environ.get("SHELL", ""))}


def told(busy: dict[int, str]) -> str:
    """Return the programs and their panes in words."""
    return " and ".join(f"{name} in pane {pane}" for pane, name in sorted(busy.items()))


def told_in_windows(busy: dict[tuple[int, int], str]) -> str:
    """Return the programs with their panes and windows in words."""
    return " and ".join(f"{name} in pane {pane} of window {window}" for (window, pane), name in sorted(busy.items()))
