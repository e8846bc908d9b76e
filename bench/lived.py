#!/usr/bin/env python3
"""bench/lived.py ROAM [KEYS]: the waiting times of a user of a session, and their cost, of roam, tmux and mosh.

Each side runs, at a shell on a terminal of 24 by 80: KEYS keys (200), timed to their echo; a paste of 20,000 bytes to a program that counts
them; `seq 1 2000000`; and `cat` of a file of 50 MB. roam is the processes of live/mux; mosh predicts nothing.

For each it prints the seconds until the shell reports the end, and the processor seconds of that side's processes meanwhile, without those
of the shell. It needs python3, and tmux and mosh for their columns.
"""
import os
import pathlib
import random
import select
import statistics
import sys
import tempfile
import time
from contextlib import ExitStack

from latency import LETTERS, drained, key_sides, until

MARK = "LIVED_SIDE"

# Commands that show one letter each, which no other command and no other output contains.
DONE = {b"Z": rb"printf '\132\n'", b"X": rb"printf '\130\n'", b"J": rb"printf '\112\n'"}
LIMIT = 60.0
TICK = os.sysconf("SC_CLK_TCK")
PASTED = 20000
MEGABYTES = 50


def told_of(pid, name):
    """Return a file of a process in /proc, or nothing if the process has ended."""
    try:
        return pathlib.Path(f"/proc/{pid}/{name}").read_bytes()
    except OSError:
        return b""


def ids_of(folder):
    """Return the processes of a side: those started with its mark, except shells."""
    mark = f"{MARK}={folder}\0".encode()
    pids = [name for name in os.listdir("/proc") if name.isdigit()]
    return [pid for pid in pids if mark in told_of(pid, "environ") and told_of(pid, "comm").strip() not in (b"sh", b"dash", b"bash")]


def processor(folder):
    """Return the processor seconds of a side so far."""
    ticks = 0
    for pid in ids_of(folder):
        fields = told_of(pid, "stat").rpartition(b")")[2].split()
        ticks += int(fields[11]) + int(fields[12]) if len(fields) > 12 else 0
    return ticks / TICK


def write_all(side, text):
    """Write a whole text to a terminal, and return the output meanwhile."""
    seen = b""
    while text:
        readable, writable, _ = select.select([side], [side], [], LIMIT)
        if readable:
            seen += os.read(side, 65536)
        if writable:
            text = text[os.write(side, text[:1024]) :]
    return seen


def wait_for(side, wanted, seen=b""):
    """Read until these bytes have come, or end the run."""
    end = time.monotonic() + LIMIT
    while wanted not in seen:
        if not select.select([side], [], [], max(0.0, end - time.monotonic()))[0]:
            sys.exit(f"lived: {wanted} didn't come")
        seen = seen[-256:] + os.read(side, 65536)


def echo_time(side, count):
    """Return the median of the milliseconds from a key to its echo."""
    times = []
    for k in range(count):
        letter = LETTERS[k % len(LETTERS) : k % len(LETTERS) + 1]
        if k % 28 == 0:
            os.write(side, b"\x15")
            drained(side)
        time.sleep(random.uniform(0.025, 0.060))
        begun = time.perf_counter()
        os.write(side, letter)
        if not until(side, letter):
            sys.exit("lived: a letter didn't come")
        times.append((time.perf_counter() - begun) * 1000)
    os.write(side, b"\x15")
    drained(side)
    return statistics.median(times)


def paste(side):
    """Paste lines to wc, which has to count them all."""
    os.write(side, b"stty -echo; wc -c; stty echo; " + DONE[b"Z"] + b"\r")
    time.sleep(0.5)
    line = b"a line of text that is pasted, of fifty bytes, yes.\r"[-50:]
    seen = write_all(side, line * (PASTED // 50) + b"\x04")
    wait_for(side, b"Z", seen)


def run(side, command, letter):
    """Run a shell command to its end."""
    os.write(side, command.encode() + b"; " + DONE[letter] + b"\r")
    wait_for(side, letter)


def timed(folder, do):
    """Return elapsed and processor seconds."""
    begun, spent = time.perf_counter(), processor(folder)
    do()
    time.sleep(0.2)
    return time.perf_counter() - begun - 0.2, processor(folder) - spent


def main():
    count = int(sys.argv[2]) if len(sys.argv) > 2 else 200
    random.seed(1)
    with tempfile.TemporaryDirectory() as folder, ExitStack() as stack:
        large = os.path.join(folder, "large")
        with open(large, "wb") as out:
            out.write((b"%079d\n" % 7) * (MEGABYTES * 1_000_000 // 80))
        sides = key_sides(stack, os.path.abspath(sys.argv[1]), folder, lambda name: {MARK: os.path.join(folder, name)})
        time.sleep(1.5)
        print(f"{'':<8} {'echo ms':>8} {'paste s':>15} {'seq s':>15} {'cat s':>15}    (clock, processor)")
        for name, (_, side) in sides.items():
            marked = os.path.join(folder, name)
            drained(side)
            tried = [timed(marked, lambda: paste(side))]
            for command, letter in (("seq 1 2000000", b"X"), (f"cat {large}", b"J")):
                tried.append(timed(marked, lambda command=command, letter=letter: run(side, command, letter)))
            told = " ".join(f"{clock:7.2f} {spent:7.2f}" for clock, spent in tried)
            print(f"{name:<8} {echo_time(side, count):8.2f} {told}", flush=True)


if __name__ == "__main__":
    main()
