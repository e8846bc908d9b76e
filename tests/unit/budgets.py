"""Counts bytecodes and system calls, which clock and load do not change, and compares them with those of a usual run.

`bench/budget.py` prints them for a person. Unit tests refuse counts above the usual ones by more than ROOM.
"""
import math
import os
import shutil
import subprocess
import sys
import time

from aids import plain_environment

# The usual bytecodes and system calls, with Python 3.11. Other versions of Python have other bytecodes.
USUAL = {
    "attach, until the window is painted": (58900, 635),
    "attach, until the last row has all reports": (106100, 790),
    "mux ls": (38800, 537),
    "mux help": (36200, 525),
    "mux help ls": (39500, 539),
    "mux send --help": (39400, 493),
    "front end: a key and its echo": (2995, 6),
    "front end: a painting of 200 bytes": (1294, 3),
    "pty host: a key and its echo": (2560, 16),
    "pty host: 200 bytes of output": (1060, 7),
}

# The most counts that the tests accept, in parts of the usual ones: a regression that a user may feel is larger.
ROOM = 1.3

# The counts of this run, by the same names.
counts = {}

# Runs a tool, and prints the number of its bytecodes to a file: until it writes a text, or to its end.
CHILD = """
import os, sys
out, until, tool, *words = sys.argv[1:]
sys.argv, sys.path[0] = [tool, *words], os.path.dirname(tool)
count, write = 0, os.write

def trace(frame, event, argument):
    global count
    frame.f_trace_opcodes, frame.f_trace_lines = True, False
    count += event == "opcode"
    return trace

def end():
    sys.settrace(None)
    with open(out, "w") as file:
        file.write(str(count))
    os._exit(0)

def written(descriptor, data):
    if until and os.fsencode(until) in data:
        end()
    return write(descriptor, data)

with open(tool, encoding="utf-8") as file:
    code = compile(file.read(), tool, "exec")
os.write = written
sys.settrace(trace)
try:
    exec(code, {"__name__": "__main__", "__file__": tool, "__builtins__": __builtins__})
finally:
    end()
"""

# Seconds for a run.
WAIT = 30.0


def limits(name):
    """Return the most bytecodes and system calls of a thing."""
    return tuple(math.ceil(usual * ROOM) for usual in USUAL[name])


def ended(words, environment, terminal, is_done):
    """Run words on a terminal, None for none, until they end or something is true."""
    given = subprocess.DEVNULL if terminal is None else terminal
    end = time.monotonic() + WAIT
    with subprocess.Popen(words, env=environment, stdin=given, stdout=given, stderr=given, start_new_session=True) as process:
        while process.poll() is None and not is_done() and time.monotonic() < end:
            time.sleep(0.01)
        process.kill()


def bytecodes(folder, tool, words, environment, until=b"", terminal=None):
    """Return the bytecodes of a tool with these words, until it writes a text."""
    out = folder / "bytecodes"
    ended([sys.executable, "-S", "-c", CHILD, str(out), os.fsdecode(until), str(tool), *words], environment, terminal, lambda: False)
    return int(out.read_text(encoding="ascii"))


def system_calls(folder, tool, words, environment, until=b"", terminal=None):
    """Return the system calls of a tool with these words, until it writes a text. They are 0 if strace is missing or forbidden."""
    if not shutil.which("strace"):
        return 0
    out, wanted = folder / "calls", "".join(f"\\x{byte:02x}" for byte in until)

    def lines():
        text = out.read_text(encoding="ascii") if out.exists() else ""
        return [line for line in text.splitlines() if not line.startswith(("---", "+++"))]

    ended(["strace", "-qq", "-xx", "-s", "65536", "-o", str(out), sys.executable, "-S", str(tool), *words], environment, terminal,
          lambda: until and any(wanted in line for line in lines()))
    found = lines()
    out.unlink(missing_ok=True)
    return next((number for number, line in enumerate(found) if until and line.startswith("write(") and wanted in line), len(found))


class TurnCounter:
    """Counts the bytecodes of roam's modules in a `with`, and their calls of C functions that are system calls."""

    # The modules, and the classes in C, whose functions are nearly all system calls.
    OWNERS = {"posix", "fcntl", "termios", "epoll", "poll", "socket", "UnixSocket"}
    OTHERS = {"fspath", "fsencode", "fsdecode", "fileno", "urandom", "getcwd"}

    def __init__(self):
        self.bytecodes = self.calls = 0

    def trace(self, frame, event, _):
        """Count a bytecode."""
        if "roam_live/" not in frame.f_code.co_filename:
            return None
        frame.f_trace_opcodes, frame.f_trace_lines = True, False
        self.bytecodes += event == "opcode"
        return self.trace

    def profile(self, frame, event, function):
        """Count a system call."""
        if event == "c_call" and "roam_live/" in frame.f_code.co_filename:
            owner = getattr(function, "__self__", None)
            name = getattr(owner, "__name__", type(owner).__name__)
            self.calls += name in self.OWNERS and function.__name__ not in self.OTHERS

    def __enter__(self):
        self.before = sys.gettrace(), sys.getprofile()
        sys.setprofile(self.profile)
        sys.settrace(self.trace)
        return self

    def __exit__(self, *fault):
        sys.settrace(self.before[0])
        sys.setprofile(self.before[1])


def per_event(event, times, before):
    """Return the bytecodes and system calls of each of so many events, behind some that are not counted."""
    for _ in range(before):
        event()
    with TurnCounter() as counter:
        for _ in range(times):
            event()
    return counter.bytecodes / times, counter.calls / times
