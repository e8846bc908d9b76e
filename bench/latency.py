#!/usr/bin/env python3
"""bench/latency.py ROAM [COUNT]: milliseconds until a client's terminal gets the expected output, of roam, tmux and mosh.

It measures two ways, each COUNT times: from bytes that a pane's program writes, and from a key typed at the client's terminal, through the
echo of a shell. roam is `serve` and `attach` over UDP on loopback with a Unix socket as pane 1, and for keys the processes of live/mux.
tmux and mosh run a copy of a pipe, and for keys a shell; mosh predicts nothing.

All run at once and are measured in turn, so that other load affects each alike. A pause of 25 to 60 ms precedes each letter. It needs
python3, and tmux and mosh for their rows. It prints the median, the 99th percentile, and both as multiples of tmux's.
"""
import fcntl
import os
import pathlib
import pty
import random
import re
import select
import shutil
import signal
import struct
import subprocess
import sys
import tempfile
import termios
import socket
import time
from contextlib import ExitStack, contextmanager

WAIT = 5.0
TOOLS = pathlib.Path(__file__).resolve().parent.parent / "live"

# Letters that occur in no painted control function and in no prompt; after so many the line is erased.
LETTERS = b"QVWYNOU"
LINE = 28
ERASE = b"\x15"


def until(source, wanted):
    """Read until this byte comes; return False if it is late."""
    end = time.monotonic() + WAIT
    while True:
        left = end - time.monotonic()
        if left <= 0 or not select.select([source], [], [], left)[0]:
            return False
        try:
            if wanted in os.read(source, 65536):
                return True
        except OSError:
            return False


def drained(source):
    """Read until nothing has come for a quarter of a second."""
    while select.select([source], [], [], 0.25)[0] and os.read(source, 65536):
        pass


def measured(sides, count, before):
    """Return the times of each side in milliseconds, sorted. Before each letter its side gets some bytes, which a number selects."""
    random.seed(1)
    times = {name: [] for name in sides}
    for k in range(count):
        letter = LETTERS[k % len(LETTERS) : k % len(LETTERS) + 1]
        for name, (write, source) in sides.items():
            if k % LINE == 0 and before == ERASE:
                write(ERASE)
                drained(source)
            time.sleep(random.uniform(0.025, 0.060))
            begun = time.perf_counter()
            write(letter if before == ERASE else before + letter)
            if not until(source, letter):
                sys.exit(f"latency: a letter didn't come: {name}")
            times[name].append((time.perf_counter() - begun) * 1000)
    return {name: sorted(found) for name, found in times.items()}


def report(title, times):
    """Print the times of all sides."""
    print(f"{title:<40} {'median':>8} {'99th':>8}   of tmux's")
    marks = {name: (found[len(found) // 2], found[len(found) * 99 // 100]) for name, found in times.items()}
    for name, found in marks.items():
        ratios = "".join(f"{one / other:7.1f}" for one, other in zip(found, marks["tmux"])) if "tmux" in marks else ""
        print(f"  {name:<38} {found[0]:8.2f} {found[1]:8.2f} {ratios}", flush=True)


@contextmanager
def running(words, **options):
    """Run a process that ends with the block."""
    process = subprocess.Popen(words, **options)
    try:
        yield process
    finally:
        process.kill()
        process.wait()


@contextmanager
def on_terminal(words, **environment):
    """Return the master of a pseudo-terminal of 24 by 80 on which a program runs."""
    master, slave = pty.openpty()
    fcntl.ioctl(slave, termios.TIOCSWINSZ, struct.pack("HHHH", 24, 80, 0, 0))
    known = dict(os.environ, TERM="xterm-256color", LC_ALL="C.UTF-8", PS1="$ ", SHELL="/bin/sh", **environment)
    with running(words, stdin=slave, stdout=slave, stderr=slave, env=known, start_new_session=True):
        yield master


def piped(folder, name):
    """Return a pipe, and a shell command that copies it to its terminal."""
    pipe = os.path.join(folder, name)
    os.mkfifo(pipe)
    return pipe, f"stty raw -echo; exec cat {pipe}"


def writer_of(pipe):
    """Return a function that writes to a pipe."""
    end = os.open(pipe, os.O_WRONLY)
    return lambda piece: os.write(end, piece)


@contextmanager
def roam_pane(program, folder):
    """Run a server with a pane whose program is this one, and a client."""
    port = str(random.Random(os.getpid()).randrange(20000, 60000))
    keys = os.path.join(folder, "keys")
    open(keys, "w").close()
    with running([program, "serve", "--dir", folder, "--port", port, "--session", "5e55"]):
        while not os.path.exists(os.path.join(folder, "p9")):
            time.sleep(0.01)
        pane = socket.socket(socket.AF_UNIX, socket.SOCK_STREAM)
        pane.connect(os.path.join(folder, "p1"))
        words = [program, "attach", "--port", port, "--session", "5e55", "--client", "c1", "--keys", keys]
        with running(words, stdout=subprocess.PIPE) as client:
            yield pane.sendall, client.stdout.fileno()


@contextmanager
def tmux(folder, shell, socket_name, **environment):
    """Return the terminal of a tmux client that runs a shell command."""
    words = ["tmux", "-S", os.path.join(folder, socket_name), "-f", "/dev/null"]
    with on_terminal([*words, "new-session", shell], **environment) as master:
        yield master
        subprocess.run([*words, "kill-server"], stderr=subprocess.DEVNULL, check=False)


@contextmanager
def mosh(shell, port, **environment):
    """Return the terminal of a mosh client whose server runs a shell command."""
    words = ["mosh-server", "new", "-i", "127.0.0.1", "-p", str(port), "--", "sh", "-c", shell]
    known = dict(os.environ, LC_ALL="C.UTF-8", PS1="$ ", **environment)
    said = subprocess.run(words, env=known, capture_output=True, text=True, check=True)
    bound, key = re.search(r"MOSH CONNECT (\d+) (\S+)", said.stdout).groups()
    server = int(re.search(r"pid = (\d+)", said.stderr + said.stdout).group(1))
    try:
        with on_terminal(["mosh-client", "127.0.0.1", bound], MOSH_KEY=key, MOSH_PREDICTION_DISPLAY="never", **environment) as master:
            yield master
    finally:
        os.kill(server, signal.SIGTERM)


@contextmanager
def roam_keys(program, folder, **environment):
    """Return the terminal of a session that live/mux starts."""
    known = {"ROAM": program, "XDG_RUNTIME_DIR": folder, **environment}
    with on_terminal([str(TOOLS / "mux"), "measured"], **known) as master:
        yield master
        subprocess.run([str(TOOLS / "mux"), "kill", "-f", "measured"], env=dict(os.environ, **known), check=False)


def pane_sides(stack, program, folder):
    """Return for each side how a pane's program writes, and its display."""
    sides = {"roam": stack.enter_context(roam_pane(program, folder))}
    if shutil.which("tmux"):
        pipe, shell = piped(folder, "tmux_pipe")
        master = stack.enter_context(tmux(folder, shell, "tmux_pane"))
        sides["tmux"] = (writer_of(pipe), master)
    if shutil.which("mosh-server"):
        pipe, shell = piped(folder, "mosh_pipe")
        master = stack.enter_context(mosh(shell, 60001 + os.getpid() % 400))
        sides["mosh"] = (writer_of(pipe), master)
    return sides


def key_sides(stack, program, folder, known=lambda name: {}):
    """Return for each side how a user types, and its display. `known` returns the environment of a side by name."""
    masters = {"roam": stack.enter_context(roam_keys(program, folder, **known("roam")))}
    if shutil.which("tmux"):
        masters["tmux"] = stack.enter_context(tmux(folder, "exec sh", "tmux_keys", **known("tmux")))
    if shutil.which("mosh-server"):
        masters["mosh"] = stack.enter_context(mosh("exec sh", 60501 + os.getpid() % 400, **known("mosh")))
    return {name: (lambda piece, master=master: os.write(master, piece), master) for name, master in masters.items()}


def main():
    program = os.path.abspath(sys.argv[1])
    count = int(sys.argv[2]) if len(sys.argv) > 2 else 1000
    ways = (("ms from a pane's program", pane_sides, b"\r"), ("ms from a key, by a shell's echo", key_sides, ERASE))
    for title, sides_of, before in ways:
        with tempfile.TemporaryDirectory() as folder, ExitStack() as stack:
            sides = sides_of(stack, program, folder)
            time.sleep(1)
            for _, source in sides.values():
                drained(source)
            report(title, measured(sides, count, before))


if __name__ == "__main__":
    main()
