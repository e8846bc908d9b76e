#!/usr/bin/env python3
"""bench/budget.py: the cost of an attach, of short commands, of a key and of a painting, in bytecodes and system calls.

Clock and load do not change these counts. Each row also shows the usual count and the most that the unit tests accept. The session is
simulated, so this needs no built program. It needs strace for the system calls of processes; without it they are 0.
"""
import pathlib
import sys
import unittest

TOP = pathlib.Path(__file__).resolve().parent.parent
sys.dont_write_bytecode = True
sys.path[:0] = [str(TOP / "live"), str(TOP / "tests/unit")]

import budgets
import test_budget


def main():
    """Run the tests that count, and print the counts."""
    if sys.argv[1:]:
        print(__doc__.rstrip())
        return 0 if sys.argv[1:] in (["-h"], ["--help"]) else 2
    result = unittest.TextTestRunner(verbosity=0).run(unittest.defaultTestLoader.loadTestsFromModule(test_budget))
    print("| | bytecodes | usual | most | system calls | usual | most |\n|---|---:|---:|---:|---:|---:|---:|")
    for name, usual in budgets.USUAL.items():
        cells = [f"{cell:,.0f}" for three in zip(budgets.counts.get(name, (0, 0)), usual, budgets.limits(name)) for cell in three]
        print(f"| {name} | {' | '.join(cells)} |")
    return 0 if result.wasSuccessful() else 1


if __name__ == "__main__":
    sys.exit(main())
