#!/usr/bin/env python3
"""bench/pasted.py ROAM [TIMES]: the duration of a paste, of roam, tmux and mosh.

A program on a terminal of 24 by 80 uses bracketed paste and writes all its input into a file. Texts of 20,000 bytes and of 1 MB are pasted,
TIMES times (9), on each side by turns. It prints the seconds from the first byte written to the terminal to the last one in the file, best
and median. It needs python3, and tmux and mosh for their columns.
"""
import os
import pathlib
import random
import select
import statistics
import sys
import tempfile
import time
from contextlib import ExitStack

from latency import drained, key_sides

LENGTHS = (20_000, 1_000_000)
OPENS, CLOSES = b"\x1b[200~", b"\x1b[201~"

# Seconds for a paste.
LIMIT = 120.0


def pasted(side, text, path):
    """Return the seconds of a text until it is in a file that already has all earlier ones."""
    begun, before = time.perf_counter(), path.stat().st_size
    left, length = memoryview(text), len(text)
    while path.stat().st_size < before + length:
        if time.perf_counter() > begun + LIMIT:
            sys.exit(f"pasted: {path.stat().st_size - before} of {length} bytes came")
        readable, writable, _ = select.select([side], [side] if left else [], [], 0.001)
        if readable:
            os.read(side, 65536)
        if writable:
            left = left[os.write(side, left[:4096]) :]
    took = time.perf_counter() - begun
    if path.read_bytes()[before:] != text:
        sys.exit(f"pasted: other bytes came to {path}")
    return took


def main():
    times = int(sys.argv[2]) if len(sys.argv) > 2 else 9
    random.seed(1)
    with tempfile.TemporaryDirectory() as folder, ExitStack() as stack:
        sides = key_sides(stack, os.path.abspath(sys.argv[1]), folder)
        time.sleep(1.5)
        paths = {name: pathlib.Path(folder, f"{name}.bytes") for name in sides}
        for name, (type_bytes, side) in sides.items():
            type_bytes(f"stty raw -echo; printf '\\033[?2004h'; exec cat > {paths[name]}\r".encode())
            time.sleep(1)
            drained(side)
        for length in LENGTHS:
            found = {name: [] for name in sides}
            for _ in range(times):
                text = OPENS + bytes(random.choices(range(0x20, 0x7F), k=length)) + CLOSES
                for name, (_, side) in sides.items():
                    found[name].append(pasted(side, text, paths[name]))
            for name, took in found.items():
                print(f"{name:<8} {length:>9} bytes: {min(took):7.3f} {statistics.median(took):7.3f} s", flush=True)


if __name__ == "__main__":
    main()
