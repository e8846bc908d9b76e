#!/usr/bin/env python3
"""bench/kept.py ROAM [ROUNDS]: the cost of scrollback, in roam and in tmux.

It alternates between the sides, at a shell on a terminal of 24 by 80: `seq 1 2000000`, and `cat` of a file of 50 MB, ROUNDS times (3). The
sides are roam from live/mux, which stores 10,000 rows; roam that stores none (ROAM_HISTORY=0); and tmux with history-limit 10000.

For each it prints two medians: the seconds until the shell reports the end, and the processor seconds of all processes of that side
meanwhile, without those of the shell. It also prints if roam with scrollback is below tmux. It needs python3, and tmux for its column.
"""
import os
import pathlib
import shutil
import statistics
import subprocess
import sys
import tempfile
import time
from contextlib import ExitStack, contextmanager

from latency import drained, on_terminal, roam_keys
from lived import MARK, MEGABYTES, run, timed

KEPT, WITHOUT, TMUX = "roam", "roam without", "tmux"


@contextmanager
def tmux_kept(folder, **environment):
    """Return the terminal of a tmux client that stores as many rows."""
    chosen = pathlib.Path(folder, "tmux.conf")
    chosen.write_text("set -g history-limit 10000\n", encoding="utf-8")
    words = ["tmux", "-S", os.path.join(folder, "tmux_kept"), "-f", str(chosen)]
    with on_terminal([*words, "new-session", "exec sh"], **environment) as master:
        yield master
        subprocess.run([*words, "kill-server"], stderr=subprocess.DEVNULL, check=False)


def sides_of(stack, program, folder):
    """Return the terminal of each side, and the folder that identifies its processes."""
    found = {}
    for name, history in ((KEPT, "10000"), (WITHOUT, "0")):
        own = os.path.join(folder, name.replace(" ", "_"))
        os.mkdir(own, 0o700)
        found[name] = stack.enter_context(roam_keys(program, own, **{MARK: own, "ROAM_HISTORY": history})), own
    if shutil.which("tmux"):
        own = os.path.join(folder, TMUX)
        found[TMUX] = stack.enter_context(tmux_kept(folder, **{MARK: own})), own
    return found


def main():
    rounds = int(sys.argv[2]) if len(sys.argv) > 2 else 3
    with tempfile.TemporaryDirectory() as folder, ExitStack() as stack:
        large = os.path.join(folder, "large")
        with open(large, "wb") as out:
            out.write((b"%079d\n" % 7) * (MEGABYTES * 1_000_000 // 80))
        sides = sides_of(stack, os.path.abspath(sys.argv[1]), folder)
        time.sleep(2)
        commands = {"seq 1 2000000": b"X", f"cat {large}": b"J"}
        took = {(name, command): [] for name in sides for command in commands}
        for _ in range(rounds):
            for command, letter in commands.items():
                for name, (side, marked) in sides.items():
                    drained(side)
                    times = timed(marked, lambda side=side, command=command, letter=letter: run(side, command, letter))
                    took[name, command].append(times)
    medians = {key: [statistics.median(one) for one in zip(*times)] for key, times in took.items()}
    print(f"{'':<14} {'seq 1 2000000':>15} {'cat of 50 MB':>15}    (clock, processor)")
    for name in sides:
        print(f"{name:<14} " + " ".join(f"{clock:7.2f} {spent:7.2f}" for clock, spent in (medians[name, command] for command in commands)))
    if TMUX in sides:
        pairs = [pair for command in commands for pair in zip(medians[KEPT, command], medians[TMUX, command])]
        is_below = all(ours < theirs for ours, theirs in pairs)
        print("roam that keeps rows is below tmux" if is_below else "roam isn't below tmux in all of these")


if __name__ == "__main__":
    main()
