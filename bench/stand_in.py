#!/usr/bin/env python3
"""Stands in for the program where the measurements themselves are tried: what it writes is right, and what it takes says nothing.

    bench/stand_in.py run [--data FILE] < SCRIPT
    bench/stand_in.py measure [--seed SEED] [--docs COUNT]

It answers a script as the model does, and writes each reply at once. The summary of `measure` has what the draws come to.
"""

import argparse
import pathlib
import pickle
import sys

sys.dont_write_bytecode = True
import draws
from raven_tools import model


def options() -> argparse.Namespace:
    given = argparse.ArgumentParser(allow_abbrev=False)
    commands = given.add_subparsers(dest="command", required=True)
    commands.add_parser("run").add_argument("--data", type=pathlib.Path)
    measure = commands.add_parser("measure")
    for name, usual in (("--seed", 1), ("--docs", 2_000)):
        measure.add_argument(name, type=int, default=usual)
    return given.parse_args()


def run(data: pathlib.Path | None) -> None:
    is_kept = data is not None and data.exists()
    database = pickle.loads(data.read_bytes()).opened() if is_kept else model.Database()
    for line in filter(None, model.lines(sys.stdin.buffer.read())):
        print(model.write_json(model.answer(database, line)), flush=True)
    if data is not None:
        data.write_bytes(pickle.dumps(database))


def main() -> None:
    sys.setrecursionlimit(10_000)
    given = options()
    if given.command == "run":
        run(given.data)
    else:
        print(draws.summary(given.seed, given.docs))


if __name__ == "__main__":
    main()
