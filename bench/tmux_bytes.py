#!/usr/bin/env python3
"""bench/tmux_bytes.py ROWS COLS: the bytes that tmux sends its client for an echoed key, a scrolled screen and a full one.

The changes are those of `roam_bench paint`: a screen full of letters; one letter in its fifth row; a line feed with another line at the
bottom; another letter in each cell. The client is a pseudo-terminal of ROWS by COLS with TERM=xterm-256color, and the status line is off.
It counts bytes until none has come for half a second. It needs tmux and python3.
"""
import fcntl
import os
import pty
import select
import struct
import subprocess
import sys
import tempfile
import termios

QUIET = 0.5


def letters(rows, cols, first):
    return b"".join(bytes(ord("a") + (first + row * 7 + col) % 26 for col in range(cols)) for row in range(rows))


def drained(terminal):
    """Return the bytes that come until it is quiet."""
    count = 0
    while select.select([terminal], [], [], QUIET)[0]:
        count += len(os.read(terminal, 65536))
    return count


def main():
    rows, cols = int(sys.argv[1]), int(sys.argv[2])
    with tempfile.TemporaryDirectory() as folder:
        fifo = os.path.join(folder, "pane")
        os.mkfifo(fifo)
        socket = os.path.join(folder, "tmux")
        terminal, inner = pty.openpty()
        fcntl.ioctl(inner, termios.TIOCSWINSZ, struct.pack("HHHH", rows, cols, 0, 0))
        words = ["tmux", "-f", "/dev/null", "-S", socket, "new-session", f"stty raw -echo; cat {fifo}", ";", "set", "status", "off"]
        environment = dict(os.environ, TERM="xterm-256color", LC_ALL="C.UTF-8")
        environment.pop("TMUX", None)
        client = subprocess.Popen(words, stdin=inner, stdout=inner, stderr=inner, env=environment, start_new_session=True)
        pane = os.open(fifo, os.O_WRONLY)
        drained(terminal)
        home = b"\x1b[H"
        os.write(pane, home + letters(rows, cols, 0))
        drained(terminal)
        for name, change in (
            ("key", b"\x1b[5;5H!"),
            ("scrolled", b"\x1b[%d;%dH\r\nanother line" % (rows, cols)),
            ("full", home + letters(rows, cols, 1)),
        ):
            os.write(pane, change)
            print(name, drained(terminal))
        subprocess.run(["tmux", "-S", socket, "kill-server"], env=environment, check=False)
        client.wait()
        os.close(pane)


main()
