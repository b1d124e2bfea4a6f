#!/usr/bin/env python3
"""Asks a running `raven serve`, or the model, by the lines of a script, and shows results as a table, FRESH or STALE.

    tools/shell.py [--server http://127.0.0.1:8080] [--db NAME] [--fresh SECONDS]

It takes the lines of docs/script.md that have a route, typed or piped; `help` lists them, and Ctrl-D or `quit` ends it. A refused line has
a mark below the byte that the refusal names, and when such a refusal comes. With --fresh a query whose answer is stale is asked again for
so long. The status is 0, 1 if a line was refused, 2 if the arguments are wrong, or 3 if nothing answers a line that was piped.
"""

import argparse
import collections.abc
import contextlib
import importlib
import sys

sys.dont_write_bytecode = True
from raven_tools.remote import USUAL, Database, NoServer, Remote
from raven_tools.shell import Shell


def typed(prompt: str) -> collections.abc.Iterator[str]:
    """Lines of a terminal, which can be edited and called back where there is `readline`: `input` uses it once it is imported."""
    with contextlib.suppress(ImportError):
        importlib.import_module("readline")
    while True:
        try:
            yield input(prompt)
        except EOFError:
            print()
            return


def piped() -> collections.abc.Iterator[str]:
    """Lines as a script has them. What is no UTF-8 stays what cannot be sent."""
    for line in sys.stdin.buffer:
        yield line.removesuffix(b"\n").removesuffix(b"\r").decode(errors="surrogateescape")


def converse(shell: Shell, lines: collections.abc.Iterator[str], is_typed: bool) -> int:
    status = 0
    for number, line in enumerate(lines, 1):
        if line == "quit":
            break
        try:
            shown = shell.answer(line)
        except NoServer as fault:
            remote = shell.database.remote
            print(f"no server at {remote.host}:{remote.port}: {fault}", file=sys.stderr)
            if not is_typed:
                return 3
            continue
        if shown.is_refused:
            status = 1
        if shown.is_refused and not is_typed:
            print(f"line {number}:")
        for text in shown.lines:
            print(text, flush=True)
    return status


def main() -> int:
    sys.setrecursionlimit(10_000)
    given = argparse.ArgumentParser(description="Asks a running raven serve by the lines of a script.", allow_abbrev=False)
    given.add_argument("--server", default=USUAL, help=f"where it listens; {USUAL} if it is not said")
    given.add_argument("--db", default="db", help="the name of its database")
    given.add_argument("--fresh", type=float, default=0, metavar="SECONDS", help="ask a stale query again for so long")
    given = given.parse_args()
    try:
        remote = Remote.at(given.server)
    except ValueError as fault:
        print(f"shell: {fault}", file=sys.stderr)
        return 2
    shell = Shell(Database(remote, given.db), given.fresh)
    is_typed = sys.stdin.isatty()
    try:
        return converse(shell, typed(f"{given.db}> ") if is_typed else piped(), is_typed)
    except KeyboardInterrupt:
        print()
        return 130


if __name__ == "__main__":
    sys.exit(main())
