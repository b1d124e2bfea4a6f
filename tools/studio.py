#!/usr/bin/env python3
"""Serves a page to look at a running `raven serve`, or at the model, and passes on what the page asks of it.

    tools/studio.py [--server http://127.0.0.1:8080] [--db NAME] [--port 8081]

Open http://127.0.0.1:8081/ in a browser. It listens on 127.0.0.1 alone, and refuses what other pages ask. Nothing is written without a
click. docs/studio.md says what is on the page. Ctrl-C ends it. The status is 2 if the arguments are wrong or the port is taken.
"""

import argparse
import sys

sys.dont_write_bytecode = True
from raven_tools.remote import USUAL, Remote
from raven_tools.studio import Studio


def main() -> int:
    given = argparse.ArgumentParser(description="Shows a running raven serve in a browser.", allow_abbrev=False)
    given.add_argument("--server", default=USUAL, help=f"where it listens; {USUAL} if it is not said")
    given.add_argument("--db", default="db", help="the name of its database")
    given.add_argument("--port", type=int, default=8081, help="the port of the page; 0 is any that is free")
    given = given.parse_args()
    try:
        studio = Studio(Remote.at(given.server), given.db, given.port)
    except (OSError, OverflowError, ValueError) as fault:
        print(f"studio: {fault}", file=sys.stderr)
        return 2
    print(f"studio: http://127.0.0.1:{studio.server_port}/ shows {given.server}, database {given.db}", file=sys.stderr, flush=True)
    try:
        studio.serve_forever()
    except KeyboardInterrupt:
        pass
    return 0


if __name__ == "__main__":
    sys.exit(main())
