#!/usr/bin/env python3
"""Counts the machine instructions that a turn of a loop takes, and prints them as a table.

    tools/count.py [PROGRAM]    PROGRAM is crates/jsobj/out/jsobj, which bin/jsobj builds, where none is named

Each loop is run twice by the program, under `valgrind --tool=callgrind`, with a different number of turns. The
difference of the counts, divided by that of the turns, is what a turn takes, with all that the program does for it.
It is no part of the gate, which has no valgrind."""

import concurrent.futures
import os
import pathlib
import re
import subprocess
import sys

TOP = pathlib.Path(__file__).resolve().parent.parent
FEW = 1_000

# The name of a loop, how many turns are counted, and what a turn does beside counting `i`.
LOOPS = [
    ("empty", 100_000, ""),
    ("s = s + i;", 100_000, "s = s + i;"),
    ("s = o.x;", 20_000, "s = o.x;"),
    ("o.x = i;", 20_000, "o.x = i;"),
    ('cas(o, "x", 0, 0);', 20_000, 'cas(o, "x", 0, 0);'),
    ("if (i < 2000000) continue;", 100_000, "if (i < 2000000) continue;"),
    ("if (i % 2 === 0) continue;", 100_000, "if (i % 2 === 0) continue;"),
    ("s = s + i * 3 % 7;", 100_000, "s = s + i * 3 % 7;"),
    ("print of eight numbers", 10_000, "print(1, 2, 3, 4, 5, 6, 7, 8);"),
]


def script(turns, body):
    """A script that takes so many turns."""
    return f"let o = {{x: 0}}, s = 0, i = 0; while (i < {turns}) {{ i += 1; {body} }}"


def count(program, text):
    """How many machine instructions a run of a script takes."""
    command = ["valgrind", "--tool=callgrind", "--callgrind-out-file=/dev/null", program, "run"]
    run = subprocess.run(command, input=text, capture_output=True, text=True, check=False)
    collected = re.search(r"Collected : (\d+)", run.stderr)
    if run.returncode != 0 or "1= done" not in run.stdout or collected is None:
        sys.exit(f"{text}\nexit code {run.returncode}\n{run.stdout[-200:]}\n{run.stderr[-2000:]}")
    return int(collected.group(1))


def turn(program, turns, body):
    """What a turn takes."""
    return (count(program, script(FEW + turns, body)) - count(program, script(FEW, body))) / turns


def main():
    program = sys.argv[1] if len(sys.argv) > 1 else str(TOP / "crates" / "jsobj" / "out" / "jsobj")
    workers = max(1, (os.cpu_count() or 2) // 2)
    with concurrent.futures.ThreadPoolExecutor(workers) as pool:
        counts = list(pool.map(lambda loop: turn(program, loop[1], loop[2]), LOOPS))
    print("| What a turn does beside `i += 1;` | Machine instructions | More than an empty turn |", "|---|---|---|", sep="\n")
    for (name, _, _), each in zip(LOOPS, counts):
        print(f"| {name} | {each:.0f} | {each - counts[0]:.0f} |")


if __name__ == "__main__":
    main()
