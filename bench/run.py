#!/usr/bin/env python3
"""Measures the program, and makes the table of docs/performance.md again.

    bench/run.py [--program PATH] [--only NAME]... [--write] [--part N]

The program is that of crates/raven if none is named. Each figure is a ratio of two things that are measured in the
same run. The part of the page with the table is printed, with what was measured, and the other figures as the page has them.
With --write it takes the place of that part of the page.
--only measures one group of figures, and may be given several times: puts, file, memory, batches, idle, finds, queries,
indexes, totals, reduces, several, million, threads, instructions. Without it all are measured but million, which takes long.
--part divides all sizes, to try the command.

What a group needs and this machine lacks is said, and its figures stay as they were; if the group was asked for, the status is then 1.
If the program is not built, it says `skipped` and ends with 0. It ends with 1 if a reply is wrong; whether an aim is met does not matter.
"""

import argparse
import os
import pathlib
import sys
import tempfile
import time

sys.dont_write_bytecode = True
import harness
import report
from figures import GROUPS, LINES, LONG
from raven_tools import programs
from raven_tools.places import PROGRAM, TOP

PAGE = TOP / "docs/performance.md"


def options() -> argparse.Namespace:
    given = argparse.ArgumentParser(description="Measures the program, and makes the table of docs/performance.md again.")
    given.add_argument("--program", default=str(PROGRAM), type=os.path.abspath)
    given.add_argument("--only", action="append", choices=list(GROUPS), metavar="NAME", help=", ".join(GROUPS))
    given.add_argument("--write", action="store_true", help="write the table into the page")
    given.add_argument("--part", type=int, default=1, metavar="N", help="divide all sizes by N, to try the command")
    return given.parse_args()


def measured(bench: harness.Bench, names: list[str]) -> dict[str, list[report.Figure]]:
    """The figures of these groups. How long each took is reported on the way."""
    found: dict[str, list[report.Figure]] = {}
    for name in names:
        began = time.monotonic()
        figures = found[name] = []
        try:
            for figure in GROUPS[name].measure(bench):
                print(f"{name}: {figure.line.what}: {figure.cell()}", file=sys.stderr)
                figures.append(figure)
        except harness.Missing as missing:
            print(f"{name}: skipped, there is no {missing}", file=sys.stderr)
        print(f"{name}: {time.monotonic() - began:.0f} s", file=sys.stderr)
    return found


def main() -> int:
    sys.setrecursionlimit(10_000)
    given = options()
    if not programs.is_built(given.program):
        print(f"skipped: no program at {given.program}")
        return 0
    run = report.run()
    with tempfile.TemporaryDirectory(prefix="figures-") as folder:
        bench = harness.Bench(given.program, pathlib.Path(folder), part=given.part)
        try:
            found = measured(bench, given.only or [name for name in GROUPS if name not in LONG])
        except harness.Wrong as wrong:
            print(wrong, file=sys.stderr)
            return 1
    page = PAGE.read_text()
    part = report.read(report.split(page)[1])
    for group, figures in found.items():
        part.add(group, run, figures)
    text = part.text(LINES)
    print(text)
    if given.write:
        PAGE.write_text(report.replaced(page, text))
    return 1 if given.only and not all(found.values()) else 0


if __name__ == "__main__":
    sys.exit(main())
