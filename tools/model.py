#!/usr/bin/env python3
"""Answers as the program has to: a small model, written from the rules and not from the program. It stores nothing.

    tools/model.py [run] [--id BASE] < SCRIPT
    tools/model.py http [--db NAME] [--id BASE] [--pump N] < BYTES
    tools/model.py measure [--seed N] [--docs N] [--batch N]
    tools/model.py serve [--port N] [--workers N] [--pumps N] [--connections N] [--db NAME] [--id BASE]

It takes the arguments of the program but `--data`, and without a command it is `run`. What it writes to standard output and to
standard error, and the status with which it ends, are those of the program; but the help is this text.
"""

import sys

sys.dont_write_bytecode = True
from raven_tools import model, programs
from raven_tools.model import http_session, keeping, messages, running, serving, usage


def session(arguments: tuple[str, ...]) -> str:
    """A session, with each response as soon as its request is there."""

    def give(response: bytes) -> None:
        sys.stdout.buffer.write(response)
        sys.stdout.buffer.flush()

    return http_session.serve(arguments, keeping.Keeper(), lambda: sys.stdin.buffer.read1(65_536), give)


def served(arguments: tuple[str, ...]) -> str:
    """A server, which says on which port it listens."""
    return serving.serve(arguments, lambda port: print(messages.listening(port), end="", file=sys.stderr, flush=True))


def answered(arguments: tuple[str, ...]) -> str:
    read = b"" if arguments[0] == "measure" else sys.stdin.buffer.read(model.MAX_SCRIPT + 1)
    status, written = running.run(running.Outside(arguments, script=read), keeping.Keeper())
    sys.stdout.buffer.write(written)
    return status


def main() -> int:
    sys.setrecursionlimit(10_000)
    given = sys.argv[1:]
    if "--help" in given or "-h" in given:
        print(__doc__)
        return 0
    arguments = tuple(given if given and not given[0].startswith("-") else ["run", *given])
    if "--data" in arguments[1::2]:
        sys.exit("the model stores nothing, so it has no --data")
    status = {"http": session, "serve": served}.get(arguments[0], answered)(arguments)
    sys.stderr.write(messages.message_of(status))
    if status == "Usage":
        print(f"{__doc__}\nraven: {usage.mistake(arguments)}", file=sys.stderr)
    return programs.NUMBERS[status.split(" ")[0]]


sys.exit(main())
