#!/usr/bin/env python3
"""Runs each made set that there is by a program, and compares its line with one that is worked out here.

    tools/made.py [PROGRAM]     PROGRAM is bin/jsobj where none is named

A made set depends on its number modulo 1,009 and modulo 7, so there are 7,063 different ones. It is no part of the gate."""

import concurrent.futures
import os
import pathlib
import subprocess
import sys

TOP = pathlib.Path(__file__).resolve().parent.parent
SETS = 1009 * 7


def draws(number):
    """The draws of a set, six for each script."""
    x = number % 1009
    for _ in range(2 + number % 7):
        script = []
        for _ in range(6):
            x = (37 * x + 11) % 1009
            script.append(x)
        yield script


def wanted(number):
    """The line of the set: each script is done, and leaves six names, 1,100 elements and these numbers."""
    scripts = list(draws(number))
    total = 0
    for _, second, third, fourth, fifth, sixth in scripts:
        names = sixth + second + third + fourth + 999
        own = sum(range(1000)) + 1000 * fifth
        shared = sum(range(900, 1000))
        total += names + own + shared
    count = len(scripts)
    return (
        f"made {number}: scripts {count}, done {count}, objects {count + 1}, names {6 * count}, "
        f"elements {1100 * count}, sum {total}\n"
    )


def fault_of(program, number):
    """What is wrong with the run of a set, or nothing."""
    run = subprocess.run([program, "run-made", str(number)], stdin=subprocess.DEVNULL, capture_output=True, text=True, check=False)
    if (run.returncode, run.stdout) == (0, wanted(number)):
        return None
    return f"{number}: exit code {run.returncode}, {run.stdout!r}"


def main():
    program = sys.argv[1] if len(sys.argv) > 1 else str(TOP / "bin" / "jsobj")
    workers = max(1, (os.cpu_count() or 2) // 2)
    with concurrent.futures.ThreadPoolExecutor(workers) as pool:
        faults = [fault for fault in pool.map(lambda number: fault_of(program, number), range(SETS)) if fault]
    print(*faults, f"{SETS - len(faults)} of {SETS} made sets are as they should be", sep="\n")
    return 1 if faults else 0


if __name__ == "__main__":
    sys.exit(main())
