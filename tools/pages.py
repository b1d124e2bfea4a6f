#!/usr/bin/env python3
"""Makes the pages of docs/ that follow from the sources, whole or in part, and checks that they are as made.

    tools/pages.py --check                      compares each page with what is made
    tools/pages.py --write                      writes the pages that differ
    tools/pages.py --gate COST.. [--log LOG]    puts a run of the gate into docs/gate.md

It makes docs/laws.md, docs/believed.md and docs/house.svg, the lists of docs/map.md, the order and the sums of the table of docs/gate.md, and the
lines and aims of the table of docs/performance.md, whose figures bench/run.py measures. COST is what tools/gate_cost.py writes with `-o`; of
several files the later one counts. LOG is the output of `rt ci`. Without arguments it checks. The status is 1 if a page differs.
"""

import argparse
import pathlib
import sys

sys.dont_write_bytecode = True
from raven_tools.pages import PAGES, differing, gate
from raven_tools.places import TOP


def options() -> argparse.Namespace:
    given = argparse.ArgumentParser(description=__doc__, formatter_class=argparse.RawDescriptionHelpFormatter)
    does = given.add_mutually_exclusive_group()
    does.add_argument("--check", action="store_true", help="compare each page with what is made, as without arguments")
    does.add_argument("--write", action="store_true", help="write the pages that differ")
    does.add_argument("--gate", nargs="+", metavar="COST", type=pathlib.Path, help="write the run of the gate with these costs")
    given.add_argument("--log", type=pathlib.Path, help="what rt ci wrote in this run")
    return given.parse_args()


def main() -> int:
    given = options()
    if given.gate:
        file = TOP / "docs/gate.md"
        file.write_text(gate.with_run(file.read_text(), gate.measured(given.gate, given.log)))
        return 0
    found = differing()
    for file, made in found.items():
        if given.write:
            file.write_text(made)
        print(f"{file.relative_to(TOP)} {'is written' if given.write else 'differs from what tools/pages.py --write makes'}")
    print(f"{len(found)} of {len(PAGES)} pages {'were written' if given.write else 'differ'}")
    return 0 if given.write or not found else 1


if __name__ == "__main__":
    sys.exit(main())
