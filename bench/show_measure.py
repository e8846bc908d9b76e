#!/usr/bin/env python3
"""The table of show.sh: show_measure.py METER ROAM VTERM INPUTS RUNS. VTERM may be a dash if there is no libvterm.

MB/s are bytes by processor time (user and system) of a whole process: the best of the runs, in which the programs alternate. Peak memory is
the greatest resident set of any run.
"""
import os
import subprocess
import sys

NAMES = ("prose", "cjk", "colours", "redraw", "log")
SIZES = (("24", "80"), ("100", "250"))


def once(meter, words, path):
    out = subprocess.run([meter, path] + words, check=True, capture_output=True, text=True).stdout.split()
    return int(out[0]), int(out[1])


def row(name, values, last):
    print(f"| {name} | " + " | ".join(values) + f" | {last} |", flush=True)


def main():
    meter, roam, vterm, inputs, runs = sys.argv[1:5] + [int(sys.argv[5])]
    speeds = {}
    print("| MB/s | " + " | ".join(NAMES) + " | peak KiB |")
    print("|---|" + "---:|" * (len(NAMES) + 1))
    for rows, cols in SIZES:
        peers = {"roam show": [roam, "show", "--rows", rows, "--cols", cols]}
        if vterm != "-":
            peers["libvterm"] = [vterm, rows, cols]
        best = {name: [] for name in peers}
        peak = {name: 0 for name in peers}
        for kind in NAMES:
            path = os.path.join(inputs, kind)
            took = {name: [] for name in peers}
            for _ in range(runs):
                for name, words in peers.items():
                    micros, set_size = once(meter, words, path)
                    took[name].append(max(micros, 1))
                    peak[name] = max(peak[name], set_size)
            for name in peers:
                best[name].append(os.path.getsize(path) / min(took[name]))
        for name in peers:
            row(f"{name}, {rows} by {cols}", [f"{s:.1f}" for s in best[name]], peak[name])
        speeds[rows] = best["roam show"]
        if vterm != "-":
            row(f"roam to libvterm, {rows} by {cols}", [f"{a / b:.2f}" for a, b in zip(best["roam show"], best["libvterm"])], "")
    row("roam, 100 by 250 to 24 by 80", [f"{a / b:.2f}" for a, b in zip(speeds["100"], speeds["24"])], "")


main()
