#!/usr/bin/env python3
"""Prints what a running `raven serve`, or the model, counts, in the text that Prometheus reads: rows, and how far each index is.

    tools/metrics.py [--server http://127.0.0.1:8080] [--db NAME]
    tools/metrics.py --port N [--server http://127.0.0.1:8080] [--db NAME]

With --port it answers GET /metrics on this port of 127.0.0.1 until Ctrl-C ends it, and asks the server each time. Otherwise it asks once,
and the status is 0, or 1 if nothing answers; `raven_up` is then 0, and all else is missing. The status is 2 if the arguments are wrong or
the port is taken.
"""

import argparse
import http.server
import sys

sys.dont_write_bytecode = True
from raven_tools import metrics
from raven_tools.remote import USUAL, Database, Remote


class Handler(http.server.BaseHTTPRequestHandler):
    database: Database
    timeout = 60

    def do_GET(self) -> None:
        is_here = self.path == "/metrics"
        written = metrics.text(self.database)[0].encode() if is_here else b"not here: /metrics\n"
        self.send_response(200 if is_here else 404)
        self.send_header("Content-Type", metrics.KIND)
        self.send_header("Content-Length", str(len(written)))
        self.end_headers()
        self.wfile.write(written)

    def log_message(self, *_: object) -> None:
        """What asks each few seconds is not worth a line."""


def listening(database: Database, port: int) -> http.server.HTTPServer:
    """Port 0 is any that is free."""
    return http.server.ThreadingHTTPServer(("127.0.0.1", port), type("Handler", (Handler,), {"database": database}))


def main() -> int:
    given = argparse.ArgumentParser(description="Prints what a running raven serve counts.", allow_abbrev=False)
    given.add_argument("--server", default=USUAL, help=f"where it listens; {USUAL} if it is not said")
    given.add_argument("--db", default="db", help="the name of its database")
    given.add_argument("--port", type=int, help="answer /metrics on this port")
    given = given.parse_args()
    try:
        database = Database(Remote.at(given.server), given.db)
        listens = None if given.port is None else listening(database, given.port)
    except (OSError, OverflowError, ValueError) as fault:
        print(f"metrics: {fault}", file=sys.stderr)
        return 2
    if not listens:
        written, is_up = metrics.text(database)
        print(written, end="")
        return 0 if is_up else 1
    print(f"metrics: http://127.0.0.1:{listens.server_port}/metrics", file=sys.stderr, flush=True)
    try:
        listens.serve_forever()
    except KeyboardInterrupt:
        pass
    return 0


if __name__ == "__main__":
    sys.exit(main())
