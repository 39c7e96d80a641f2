#!/usr/bin/env python3
"""Runs the merge gate and prints the table of docs/GATE.md: processor minutes for each crate, and its lines.

    tools/gate.py            in a clean clone, on a machine where nothing is kept and nothing else runs
    tools/gate.py -- rt ci jo_lex

What follows `--` is run in place of `rt ci`. Twice a second, each process below it is looked at: which crate it works on, for
what, and how much processor time it has had. So a process's last half second may be missing. Crates that an earlier run
proved are kept by `rt ci` and count nothing; the last line of the table says how many were.
"""
import os
import re
import subprocess
import sys
import threading
import time
from collections import defaultdict

INTERVAL = 0.5
TICKS = os.sysconf("SC_CLK_TCK")
KINDS = ("proof", "tests", "edits", "program")


def read(path):
    try:
        with open(path, "rb") as file:
            return file.read().decode(errors="replace")
    except OSError:
        return ""


def processes():
    """Yields number, parent and processor seconds of each process."""
    for name in os.listdir("/proc"):
        if name.isdigit():
            fields = read(f"/proc/{name}/stat").rpartition(") ")[2].split()
            if len(fields) > 12:
                yield int(name), int(fields[1]), (int(fields[11]) + int(fields[12])) / TICKS


def below(root, parents):
    """The processes below one."""
    found = {root}
    while True:
        more = {one for one, parent in parents.items() if parent in found} - found
        if not more:
            return found - {root}
        found |= more


def work_of(number):
    """The crate that a process works on, and for what."""
    words = read(f"/proc/{number}/cmdline").split("\0")
    try:
        folder = os.readlink(f"/proc/{number}/cwd")
    except OSError:
        folder = ""
    if "--crate-name" in words:
        crate = words[words.index("--crate-name") + 1]
        if "/rt-edit-" in folder:
            return crate, "edits"
        return crate, "tests" if "--test" in words else "proof"
    named = re.search(r"/crates/(\w+)", folder)
    return (named[1], "program") if named else None


class Watch:
    """Adds up what the processes below one take."""

    def __init__(self, root):
        self.root = root
        self.seconds = {}
        self.work = {}
        self.spans = {}
        self.ended = threading.Event()

    def look(self):
        now, found = time.time(), list(processes())
        parents = {number: parent for number, parent, _ in found}
        wanted = below(self.root, parents)
        for number, _, seconds in found:
            if number in wanted:
                work = work_of(number)
                if work:
                    self.seconds[number, work] = max(seconds, self.seconds.get((number, work), 0))
                    first, _ = self.spans.get(work, (now, now))
                    self.spans[work] = first, now

    def run(self):
        while not self.ended.wait(INTERVAL):
            self.look()

    def minutes(self):
        sums = defaultdict(float)
        for (_, work), seconds in self.seconds.items():
            sums[work] += seconds / 60
        return sums


def crates():
    """Each crate with the crates of the repository that it stands on, lowest first."""
    found = {}
    for line in read("crates.txt").splitlines():
        if line.strip() and not line.startswith("#"):
            name, _, deps = line.partition(":")
            found[name.split()[0]] = deps.split()
    return {name: [dep for dep in deps if dep in found] for name, deps in found.items()}


def lines_of(crate, part, ending, comment):
    """Lines that are neither blank nor a comment alone."""
    count = 0
    for folder, _, files in os.walk(f"crates/{crate}/{part}"):
        for name in files:
            if name.endswith(ending):
                text = read(f"{folder}/{name}").splitlines()
                count += sum(1 for line in text if line.strip() and not line.strip().startswith(comment))
    return count


def longest_chain(stands_on, spans):
    """The chain of crates whose proofs, one after another, take longest by the clock."""
    best = {}
    for crate, deps in stands_on.items():
        first, last = spans.get((crate, "proof"), (0, 0))
        before = max((best[dep] for dep in deps if dep in best), default=(0, []))
        best[crate] = before[0] + last - first, before[1] + [crate]
    return max(best.values())


def table(watch, elapsed):
    stands_on, minutes = crates(), watch.minutes()
    print("| Crate | Lines of code | Lines of specs and proofs | Edits | Proof | Tests | Edits and what they begin with | Sum |")
    print("|---|---|---|---|---|---|---|---|")
    sums = [0.0] * 7
    for crate in stands_on:
        folder = f"crates/{crate}/must-fail"
        edits = len([it for it in os.listdir(folder) if it.endswith(".edit")]) if os.path.isdir(folder) else 0
        proof, tests, tried, program = (minutes[crate, kind] for kind in KINDS)
        row = [
            lines_of(crate, "src", ".rt", "//"),
            lines_of(crate, "specs", ".antt", "--") + lines_of(crate, "proofs", ".antt", "--"),
            edits,
            proof + program,
            tests,
            tried,
            proof + program + tests + tried,
        ]
        sums = [one + more for one, more in zip(sums, row)]
        print(f"| `{crate}` | {row[0]:,} | {row[1]:,} | {row[2]} | " + " | ".join(f"{it:.1f}" for it in row[3:]) + " |")
    print(f"| together | {sums[0]:,.0f} | {sums[1]:,.0f} | {sums[2]:.0f} | " + " | ".join(f"{it:.1f}" for it in sums[3:]) + " |")
    seconds, chain = longest_chain(stands_on, watch.spans)
    seen = sum(1 for crate in stands_on if (crate, "proof") in watch.spans)
    print(f"\nBy the clock: {elapsed / 60:.1f} minutes on {os.cpu_count()} processors; {seen} of {len(stands_on)} crates were proved in this run.")
    print(f"Longest chain of proofs: {seconds / 60:.1f} minutes ({', '.join(chain)}).")
    print(f"Processor minutes for 1,000 lines of code: {1000 * sums[6] / max(sums[0], 1):.1f}.")


def main(words):
    command = words[words.index("--") + 1 :] if "--" in words else ["rt", "ci"]
    begun = time.time()
    gate = subprocess.Popen(command, stdout=sys.stderr)
    watch = Watch(gate.pid)
    looking = threading.Thread(target=watch.run)
    looking.start()
    status = gate.wait()
    watch.ended.set()
    looking.join()
    table(watch, time.time() - begun)
    return status


if __name__ == "__main__":
    sys.exit(main(sys.argv[1:]))
