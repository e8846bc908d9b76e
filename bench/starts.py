#!/usr/bin/env python3
"""bench/starts.py ROAM [TIMES]: the time that a user waits for a session, of roam and tmux, and the session's memory.

It measures TIMES times (15), alternating, on a terminal of 24 by 80. The first time is from the call that starts a session to the shell's
prompt; the second from the call that attaches to it to its display; the third from the call that lists ten sessions to its end. It prints
the best and the median of each, since on a busy machine the best reflects the programs themselves.

Then follows the memory of a session's processes, with each shared page divided among them (PSS). roam is `roam mux`. Without tmux, its
column is absent.
"""
import fcntl
import json
import os
import pathlib
import pty
import select
import shutil
import statistics
import struct
import subprocess
import sys
import tempfile
import termios
import time

TOOLS = pathlib.Path(__file__).resolve().parent.parent / "live"
LIMIT = 20.0
LISTED = 10
SHOWN = b"seen-here"


class Terminal:
    """A terminal of 24 by 80 with a command on it, and the moment of its start."""

    def __init__(self, words, environment):
        self.end, other = pty.openpty()
        fcntl.ioctl(other, termios.TIOCSWINSZ, struct.pack("HHHH", 24, 80, 0, 0))
        self.begun_at, self.seen = time.monotonic(), b""
        own = {"stdin": other, "stdout": other, "stderr": other, "env": environment, "start_new_session": True}
        self.process = subprocess.Popen(words, preexec_fn=lambda: fcntl.ioctl(0, termios.TIOCSCTTY, 0), **own)
        os.close(other)

    def took(self, wanted):
        """Return the milliseconds from the call until these bytes have come."""
        while wanted not in self.seen:
            if not select.select([self.end], [], [], LIMIT)[0]:
                sys.exit(f"starts: {wanted} didn't come, and this did: {self.seen[-200:]}")
            self.seen += os.read(self.end, 65536)
        return (time.monotonic() - self.begun_at) * 1000

    def types(self, text):
        """Type bytes."""
        self.seen = b""
        os.write(self.end, text)

    def close(self):
        """End the command, and hang up."""
        self.process.terminate()
        self.process.wait()
        os.close(self.end)


def run(words, environment):
    """Run a command to its end, and return the milliseconds."""
    begun_at = time.monotonic()
    subprocess.run(words, env=environment, stdin=subprocess.DEVNULL, stdout=subprocess.DEVNULL, check=True)
    return (time.monotonic() - begun_at) * 1000


class Side:
    """One of the programs: its words, and the environment of a folder of its own."""

    def __init__(self, folder, program):
        self.folder = pathlib.Path(folder)
        kept = {name: value for name, value in os.environ.items() if name not in ("TMUX", "ROAM_PANE", "ENV")}
        self.environment = {**kept, "XDG_RUNTIME_DIR": folder, "TMUX_TMPDIR": folder, "SHELL": "/bin/sh", "PS1": "$ ", "ROAM": program,
                            "TERM": "xterm-256color"}
        mux, tmux = ["python3", "-S", str(TOOLS / "mux")], ["tmux", "-f", "/dev/null"]
        is_roam = program != "tmux"
        self.new = [*mux, "new"] if is_roam else [*tmux, "new-session", "-s"]
        self.new_detached = [*mux, "new", "-d"] if is_roam else [*tmux, "new-session", "-d", "-s"]
        self.attach = [*mux, "attach"] if is_roam else [*tmux, "attach", "-t"]
        self.ls = [*mux, "ls"] if is_roam else [*tmux, "ls"]
        self.kill = [*mux, "kill", "-f"] if is_roam else [*tmux, "kill-session", "-t"]

    def session(self):
        """Return the milliseconds from the start of a session to its prompt, and from an attach to its display."""
        first = Terminal([*self.new, "s", "/bin/sh"], self.environment)
        started = first.took(b"$")
        first.types(b"echo seen''-here\r")
        first.took(SHOWN)
        second = Terminal([*self.attach, "s"], self.environment)
        attached = second.took(SHOWN)
        for terminal in (second, first):
            terminal.close()
        run([*self.kill, "s"], self.environment)
        return started, attached

    def listed(self, times):
        """Return the milliseconds of a list of ten sessions, for each of so many times, and the memory of their recorded processes in KiB.
        """
        names = [f"s{number}" for number in range(LISTED)]
        for name in names:
            run([*self.new_detached, name], self.environment)
        found = [run(self.ls, self.environment) for _ in range(times)]
        notes = [json.loads(path.read_text(encoding="utf-8")) for path in self.folder.glob("roam/*/state.json")]
        roles = ("server", "host", "client") if notes else ()
        memory = {role: statistics.median(memory_of(note[role][0]) for note in notes) for role in roles}
        for name in names:
            run([*self.kill, name], self.environment)
        return found, memory

    def end(self):
        """End the remaining processes after an aborted measurement."""
        for name in ("s", *(f"s{number}" for number in range(LISTED))):
            subprocess.run([*self.kill, name], env=self.environment, stdin=subprocess.DEVNULL, stderr=subprocess.DEVNULL, check=False)


def memory_of(process):
    """Return a process's memory in KiB, with its share of shared pages."""
    lines = pathlib.Path(f"/proc/{process}/smaps_rollup").read_text(encoding="utf-8").splitlines()
    return next(int(line.split()[1]) for line in lines if line.startswith("Pss:"))


def told(name, found):
    """Print the best and the median."""
    print(f"  {name:24} best {min(found):6.0f} ms, median {statistics.median(found):6.0f} ms", flush=True)


def measure(sides, times):
    """Measure, and print the results."""
    found = {name: [] for name in sides}
    for _ in range(times):
        for name, side in sides.items():
            found[name].append(side.session())
    for name, side in sides.items():
        print(name)
        told("start to prompt", [started for started, _ in found[name]])
        told("attach to paint", [attached for _, attached in found[name]])
        lists, memory = side.listed(times)
        told(f"list of {LISTED} sessions", lists)
        for role, size in memory.items():
            print(f"  memory of a session's {role}: {size:.0f} KiB", flush=True)


def main():
    if len(sys.argv) not in (2, 3) or sys.argv[1] in ("-h", "--help"):
        print(__doc__.rstrip())
        sys.exit(len(sys.argv) not in (2, 3) and 2)
    times = int(sys.argv[2]) if len(sys.argv) > 2 else 15
    with tempfile.TemporaryDirectory() as folder:
        sides = {"roam": Side(f"{folder}/roam", os.path.abspath(sys.argv[1]))}
        if shutil.which("tmux"):
            sides["tmux"] = Side(f"{folder}/tmux", "tmux")
        for side in sides.values():
            side.folder.mkdir(mode=0o700)
        try:
            measure(sides, times)
        finally:
            for side in sides.values():
                side.end()


if __name__ == "__main__":
    main()
