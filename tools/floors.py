#!/usr/bin/env python3
"""Checks crates.txt: on which floor each crate stands, whether the order holds, and the subject of each crate.

    tools/floors.py

A crate stands one floor above the highest of the crates that it lists. The lines of crates.txt go from the
lowest floor to the highest, each floor under a comment of its own, `# Floor 3: ..`. The comments `# Subject: ..` at the head name each
crate once. It prints the longest chain. The status is 1 if a crate lists a crate of no earlier line or one that it does not cite, cites a
crate that it does not list, stands under the comment of another floor, or does not have one subject.
"""

import collections.abc
import pathlib
import sys

sys.dont_write_bytecode = True
sys.path.insert(0, str(pathlib.Path(__file__).resolve().parent))
from raven_tools.crates_file import Row, cited, floors_of, longest_chain, rows_of, subject_faults, subjects_of
from raven_tools.places import CRATES, TOP


def faults_of(rows: list[Row], floors: dict[str, int]) -> collections.abc.Iterator[str]:
    own = {row.name for row in rows}
    for row in rows:
        if row.under != floors[row.name]:
            yield f"line {row.line}: {row.name} stands on floor {floors[row.name]}, under the comment of floor {row.under}"
        found = cited(CRATES / row.name) & own
        unlisted = found - {row.name, *row.deps}
        if unlisted:
            yield f"line {row.line}: {row.name} cites {', '.join(sorted(unlisted))}, and does not list it"
        idle = (set(row.deps) & own) - found
        if idle:
            yield f"line {row.line}: {row.name} lists {', '.join(sorted(idle))}, and cites it nowhere"
    for low, high in zip(rows, rows[1:]):
        if floors[high.name] < floors[low.name]:
            yield f"line {high.line}: {high.name} stands on a lower floor than the line above it"


def main() -> int:
    rows, _ = rows_of(TOP / "crates.txt")
    floors, faults = floors_of(rows)
    chain = longest_chain(rows, floors)
    print(f"{len(rows)} crates list {sum(len(row.deps) for row in rows)}; the longest chain has {len(chain)}: " + ", ".join(chain))
    faults += [*faults_of(rows, floors), *subject_faults(rows, subjects_of(TOP / "crates.txt"))]
    for fault in faults:
        print(fault, file=sys.stderr)
    return 1 if faults else 0


if __name__ == "__main__":
    sys.exit(main())
