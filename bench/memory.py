#!/usr/bin/env python3
"""bench/memory.py ROAM [STARTS [SECONDS]]: the peak memory of a server with so many client starts (64), over UDP and over streams.

The session has 200 rows and 500 columns, and the program of its one pane writes for so many seconds (10). It writes one cell at a random
position 50 times a second; or all cells in a loop, in one style, in colours, or as wide characters. So many starts can't keep up with that
on few processors.

Each load has a server of its own. For each it prints the peak of the server's resident memory in MB, the texts that were written, and the
mean MB that a start painted. It needs python3.
"""
import os
import random
import socket
import subprocess
import sys
import tempfile
import threading
import time
from contextlib import ExitStack

ROWS, COLS = 200, 500
LETTERS = b"abcdefghijklmnopqrstuvwxyz"
SCREENS = 6


def resident(pid):
    """Return the peak of a process's resident memory, in MB."""
    with open(f"/proc/{pid}/status") as status:
        return next(int(line.split()[1]) / 1024 for line in status if line.startswith("VmHWM"))


def row_of(load):
    """Return the text of a row of a screen."""
    if load == "letters":
        return bytes(random.choices(LETTERS, k=COLS))
    if load == "colours":
        return b"".join(b"\x1b[%dm%c" % (31 + random.randrange(7), random.choice(LETTERS)) for _ in range(COLS))
    return "".join(chr(0x4E00 + random.randrange(5000)) for _ in range(COLS // 2)).encode()


def screen_of(load):
    """Return the text that shows a screen of a load."""
    return b"".join(b"\x1b[%d;1H%s" % (row + 1, row_of(load)) for row in range(ROWS))


def cell():
    """Return the text that writes one cell."""
    return b"\x1b[%d;%dH%c" % (1 + random.randrange(ROWS), 1 + random.randrange(COLS), random.choice(LETTERS))


def write(pane, load, seconds):
    """Write a load into a pane for so many seconds; return the number of texts."""
    screens, count = [screen_of(load) for _ in range(SCREENS if load != "cells" else 0)], 0
    end = time.monotonic() + seconds
    while time.monotonic() < end:
        pane.sendall(screens[count % SCREENS] if screens else cell())
        count += 1
        if not screens:
            time.sleep(0.02)
    return count


def serving(roam, folder):
    """Start a server in a folder and at a free port; return it and the port that it reports."""
    words = ["serve", "--dir", folder, "--session", "1", "--port", "0"]
    server = subprocess.Popen([roam, *words], stderr=subprocess.PIPE)
    return server, server.stderr.readline().split()[-1].decode()


class Start:
    """A client start, and its count of painted bytes."""

    def __init__(self, roam, *words):
        self.process = subprocess.Popen([roam, "attach", *words], stdout=subprocess.PIPE, stderr=subprocess.DEVNULL)
        self.painted = 0
        threading.Thread(target=self.read, daemon=True).start()

    def read(self):
        """Read its painting."""
        while text := self.process.stdout.read1(65536):
            self.painted += len(text)

    def end(self):
        """End it."""
        self.process.kill()
        self.process.wait()


def measure(roam, way, load, starts, seconds):
    """Return the peak of a server under a load, the texts written, and the mean MB that a start painted."""
    with tempfile.TemporaryDirectory() as folder, ExitStack() as stack:
        server, port = serving(roam, folder)
        stack.callback(server.wait)
        stack.callback(server.kill)
        with open(f"{folder}/keys", "w") as keys:
            keys.write(f"size {ROWS} {COLS}\n")
        everyone = []
        for number in range(starts):
            words = ["--port", port, "--session", "1", "--client", f"{number + 1:x}"] if way == "UDP" else ["--dir", folder]
            everyone.append(Start(roam, *words, *(["--keys", f"{folder}/keys"] if number == 0 else [])))
            stack.callback(everyone[-1].end)
        time.sleep(2)
        pane = stack.enter_context(socket.socket(socket.AF_UNIX))
        pane.connect(f"{folder}/p1")
        count = write(pane, load, seconds)
        return resident(server.pid), count, sum(start.painted for start in everyone) / starts / 1e6


def main(roam, starts=64, seconds=10):
    random.seed(1)
    print(f"{starts} client starts at {ROWS} by {COLS}, {seconds} s each\n\nway     load     peak, MB  written  painted, MB")
    for way in ("UDP", "streams"):
        for load in ("cells", "letters", "colours", "wide"):
            peak, count, painted = measure(roam, way, load, starts, seconds)
            print(f"{way:7} {load:8} {peak:8.1f} {count:8} {painted:12.1f}", flush=True)


if __name__ == "__main__":
    if len(sys.argv) < 2:
        sys.exit(__doc__)
    main(sys.argv[1], *map(int, sys.argv[2:]))
