#!/usr/bin/env python3
"""Listens on 127.0.0.1 and lets the program serve each connection, as a session of the command `http`.

    tools/listen.py [--port N] [--program PATH | --model] [ARGUMENTS OF http]

The port is 8080, and the program that of crates/raven, without other words. One connection is served after another. With `--data FILE`
all of them find one database; without it each begins with an empty one, but for --model, by which the model in Python serves, with one
database in memory. Ctrl-C ends it.
"""

import argparse
import sys

sys.dont_write_bytecode = True
from raven_tools import listener, programs
from raven_tools.places import PROGRAM


def main() -> int:
    sys.setrecursionlimit(10_000)
    given = argparse.ArgumentParser(description="Lets the program serve each connection to a port of 127.0.0.1.", allow_abbrev=False)
    given.add_argument("--port", type=int, default=8080)
    given.add_argument("--program", default=str(PROGRAM))
    given.add_argument("--model", action="store_true")
    given, arguments = given.parse_known_args()
    if not given.model and not programs.is_built(given.program):
        print(f"no program at {given.program}", file=sys.stderr)
        return 2
    serve = listener.by_model(arguments) if given.model else listener.by_program(given.program, arguments)
    listens = listener.Listener(serve, given.port)
    print(f"listening on http://127.0.0.1:{listens.port}/", file=sys.stderr)
    try:
        listens.run()
    except KeyboardInterrupt:
        pass
    return 0


sys.exit(main())
