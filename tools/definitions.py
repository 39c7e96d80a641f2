#!/usr/bin/env python3
"""Prints the table of the definition files that have to be believed, with their lines; blanks and comments do not count.

With --write it puts the table between the two marker comments of docs/DEFINITIONS.md. Files in specs/inner/ are left out, since
nobody has to believe them, and so are those that only list modules. A file is one of `run` where its contract leads there."""

import pathlib
import re
import sys

TOP = pathlib.Path(__file__).resolve().parent.parent
CRATES = TOP / "crates"
PAGE = TOP / "docs" / "DEFINITIONS.md"
BEGIN, END = "<!-- begin: tools/definitions.py -->", "<!-- end: tools/definitions.py -->"
LISTS = {"Lib.antt", "inner.antt"}


def read(path):
    return path.read_text(encoding="utf-8")


def lines_of(path):
    stripped = (line.strip() for line in read(path).splitlines())
    return sum(1 for line in stripped if line and not line.startswith("--"))


def files():
    """The files, by crates in the order of crates.txt."""
    names = [line.split(":")[0].split()[0] for line in read(TOP / "crates.txt").splitlines() if line and line[0] != "#"]
    return [path for name in names for path in sorted((CRATES / name / "specs").glob("*.antt")) if path.name not in LISTS]


def cited_in(path):
    """The files of this repository that a file imports words from."""
    found = re.findall(r"Rattle\.(\w+)\.specs\.([A-Z]\w*|inner\.[A-Z]\w*)", read(path))
    return [CRATES / crate / "specs" / (module.replace(".", "/") + ".antt") for crate, module in found]


def reached():
    """The files to which the contract of `run` leads."""
    seen, todo = set(), cited_in(CRATES / "jo_program" / "src" / "top.rt")
    while todo:
        path = todo.pop()
        if path not in seen and path.exists():
            seen.add(path)
            todo += cited_in(path)
    return seen


def table():
    paths, of_run = files(), reached()
    rows = [f"| `{path.relative_to(CRATES)}` | {lines_of(path):,} | {'yes' if path in of_run else ''} |" for path in paths]
    total, total_of_run = (sum(map(lines_of, list_)) for list_ in (paths, [path for path in paths if path in of_run]))
    last = f"| {len(paths)} files | {total:,} | {sum(path in of_run for path in paths)} files, {total_of_run:,} lines |"
    return "\n".join(["| File | Lines | Of `run` |", "|---|---:|---|", *rows, last])


def main():
    if sys.argv[1:] != ["--write"]:
        print(table())
        return
    before, rest = read(PAGE).split(BEGIN)
    after = rest.split(END)[1]
    PAGE.write_text(f"{before}{BEGIN}\n{table()}\n{END}{after}", encoding="utf-8")


main()
