"""Errors of the tools: how they are reported and logged, and how a tool ends."""
from __future__ import annotations

import errno
import os
import select
import sys

from roam_live.common.files import LogTurn
from roam_live.common.signals import signal
from roam_live.common.suppress import suppress
from roam_live.common.text import one_line, printable

TYPE_CHECKING = False
if TYPE_CHECKING:
    from collections.abc import Callable
    from typing import NoReturn

# This variable asks a program to print why it ended. roam removes it from the environment of panes.
ASKS_WHY = "ROAM_WHY"

# The log files that receive full tracebacks: that of the session, once it is known.
logs: list[str] = []


class Fault(Exception):
    """An error with a message of one line for the user."""


def tool_name() -> str:
    """Return the name under which this tool was spawned."""
    return os.path.basename(sys.argv[0])


def say(line: str) -> None:
    """Print a line on standard error, which may be full or gone, or a log that has to stay small."""
    with log_turn(len(line)), suppress(OSError, ValueError):
        print(f"{tool_name()}: {printable(line)}", file=sys.stderr, flush=True)


def log_turn(more: int) -> LogTurn:
    """Return this process's turn at the log, if one is known, for so many more bytes."""
    return LogTurn(logs[0] if logs else "", more)


def reason(fault: BaseException) -> str:
    """Return the system's text for the cause of an error."""
    return (fault.strerror if isinstance(fault, OSError) else "") or str(fault)


def log_to(folder: str | os.PathLike[str]) -> None:
    """Log unexpected errors in full in the log of a session's folder, if that log exists."""
    path = os.path.join(folder, "log")
    logs[:] = [path] if os.path.isfile(path) else []


def log_in_full(text: str) -> None:
    """Append several lines to the logs."""
    told = "\n".join(map(printable, text.split("\n")))
    for path in logs:
        with LogTurn(path, len(told)), suppress(OSError), open(path, "a", encoding="utf-8", errors="backslashreplace") as log:
            log.write(f"{tool_name()}, process {os.getpid()}:\n{told}")


def unforeseen(fault: Exception) -> str:
    """Return the line for an unexpected error, and write its traceback to the logs."""
    import traceback

    log_in_full(traceback.format_exc())
    line = one_line(traceback.format_exception_only(type(fault), fault)[-1])
    return f"roam: {tool_name()} failed: {line}" + "".join(f"; {path} has more" for path in logs)


def run_tool(main: Callable[[], int | None]) -> NoReturn:
    """Run a tool. A Fault becomes one line on standard error and exit status 1.

    `python3 -X dev` shows the traceback of an unexpected error. The programs that it runs print why they ended. With --version alone, print
    the build.
    """
    os.environ.setdefault(ASKS_WHY, "1")
    main = print_version if sys.argv[1:] in (["--version"], ["-V"]) else main
    signal.signal(signal.SIGINT, signal.default_int_handler)
    try:
        status = main()
        if sys.stdout:
            sys.stdout.flush()
        sys.exit(status)
    except Fault as fault:
        sys.exit(one_line(f"{tool_name()}: {fault}"))
    except OSError as fault:
        if isinstance(fault, BrokenPipeError) and nobody_reads():
            sys.exit(128 + signal.SIGPIPE)
        sys.exit(one_line(f"{tool_name()}: {f'{fault.filename}: ' if fault.filename else ''}{reason(fault)}"))
    except KeyboardInterrupt:
        sys.exit(130)
    except Exception as fault:
        if sys.flags.dev_mode:
            raise
        sys.exit(unforeseen(fault))


def print_version() -> None:
    """Print which build of roam this is."""
    from roam_live.common.build_info import build

    print(build().line())


def nobody_reads() -> bool:
    """Return True if the reader of standard output is gone, as with `| head`, and discard the rest of the output."""
    output = select.poll()
    output.register(1, 0)
    if not output.poll(0):
        return False
    os.dup2(os.open(os.devnull, os.O_WRONLY), 1)
    return True


# With these errors nobody of this user listens: the file is absent, nobody listens, or another user does. Any other error is temporary, for
# example a lack of descriptors.
ABSENT = {None, errno.ENOENT, errno.ENOTDIR, errno.ECONNREFUSED, errno.EPERM, errno.EACCES, errno.ELOOP, errno.ENAMETOOLONG}


def is_absent(fault: OSError) -> bool:
    """Return True if an error means that the socket or file is absent, and not merely unavailable for now."""
    return fault.errno in ABSENT


def all_done(*steps: Callable[[], object]) -> None:
    """Do each of these steps, even if others fail. Afterwards raise the first error, unless another exception is already in flight."""
    is_raised, first = sys.exc_info()[1] is not None, None
    for step in steps:
        try:
            step()
        except BaseException as fault:
            first = first or fault
    if first and not is_raised:
        raise first
