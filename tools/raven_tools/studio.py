"""The page of tools/studio, and what its requests are passed on by.

The server tests neither Host nor Origin, so a page of any origin could write through it. This proxy does: it answers its own page alone.
"""

import http.server
import json
import sys
import typing

from raven_tools import explaining
from raven_tools.places import TOP
from raven_tools.remote import NoServer, Remote

FOLDER = TOP / "tools/studio"
KINDS = {".html": "text/html; charset=utf-8", ".css": "text/css; charset=utf-8", ".js": "text/javascript; charset=utf-8"}
JSON = "application/json; charset=utf-8"
# The longest body that the server takes, and the longest that is read: a browser that still sends would not see the response.
MOST_BODY = 4_194_304
MOST_READ = 16_777_216
# How long a connection of a browser may be silent, in seconds.
SILENCE = 60
POLICY = "; ".join(
    [
        "default-src 'none'",
        "script-src 'self'",
        "style-src 'self'",
        "connect-src 'self'",
        "img-src data:",
        "base-uri 'none'",
        "form-action 'none'",
        "frame-ancestors 'none'",
    ]
)
FIELDS = {
    "Content-Security-Policy": POLICY,
    "X-Content-Type-Options": "nosniff",
    "Referrer-Policy": "no-referrer",
    "Cache-Control": "no-store",
}


class Response(typing.NamedTuple):
    status: int
    kind: str
    body: bytes


def refusal(status: int, name: str, **members: str) -> Response:
    return Response(status, JSON, json.dumps({"Error": name, **members}).encode())


def files() -> dict[str, Response]:
    """The files of the page by their paths. No other path is ever looked up in the folder."""
    paths = [path for path in FOLDER.iterdir() if path.suffix in KINDS]
    found = {f"/{path.name}": Response(200, KINDS[path.suffix], path.read_bytes()) for path in paths}
    return found | {"/": found["/index.html"]}


def settings(remote: Remote, database: str) -> Response:
    """What the page has to know: whom it asks, and when each refusal comes, as the pages of docs/ say."""
    causes = [{"Names": sorted(cause.names), "Members": sorted(cause.members), "When": cause.when} for cause in explaining.causes()]
    told = {"Server": f"{remote.host}:{remote.port}", "Database": database, "Causes": causes}
    return Response(200, JSON, json.dumps(told).encode())


class Studio(http.server.ThreadingHTTPServer):
    """Listens on 127.0.0.1 alone. Port 0 is any that is free."""

    daemon_threads = True

    def __init__(self, remote: Remote, database: str, port: int):
        super().__init__(("127.0.0.1", port), Handler)
        self.remote = remote
        self.pages = files() | {"/settings": settings(remote, database)}
        self.hosts = {f"{name}:{self.server_port}" for name in ("127.0.0.1", "localhost")}
        self.origins = {f"http://{host}" for host in self.hosts}

    def handle_error(self, request: object, client_address: object) -> None:
        """A browser that leaves early is none of our faults."""
        if not isinstance(sys.exc_info()[1], OSError):
            super().handle_error(request, client_address)


class Handler(http.server.BaseHTTPRequestHandler):
    protocol_version = "HTTP/1.1"
    server_version, sys_version = "raven-studio", ""
    timeout = SILENCE
    server: Studio

    def answer(self) -> None:
        response = self.answered()
        self.send_response(response.status)
        if response.status != 204:
            self.send_header("Content-Type", response.kind)
            self.send_header("Content-Length", str(len(response.body)))
        if self.close_connection:
            self.send_header("Connection", "close")
        for name, value in FIELDS.items():
            self.send_header(name, value)
        self.end_headers()
        if response.status != 204:
            self.wfile.write(response.body)

    do_GET = do_PUT = do_POST = do_DELETE = answer

    def answered(self) -> Response:
        length = self.length()
        if length is None or length > MOST_READ:
            # The body is not read, so nothing may follow it.
            self.close_connection = True
            return refusal(400, "BadHead") if length is None else refusal(413, "BodyTooLarge")
        body = self.rfile.read(length)
        if len(body) < length:
            self.close_connection = True
            return refusal(400, "Truncated")
        if not self.is_own():
            return refusal(403, "NotOurs", Message="Host or Origin is not that of this page")
        if length > MOST_BODY:
            return refusal(413, "BodyTooLarge")
        path = self.path.partition("?")[0]
        if self.command == "GET" and path in self.server.pages:
            return self.server.pages[path]
        if not path.startswith("/databases/"):
            return refusal(404, "NoRoute")
        return self.passed_on(body) if self.is_from_here() else refusal(403, "NotOurs", Message="another page asks")

    def length(self) -> int | None:
        """The length of the body. Browsers state it; a body that comes in another way is not read."""
        stated = self.headers.get_all("Content-Length", ["0"])
        is_plain = len(stated) == 1 and stated[0].isascii() and stated[0].isdigit() and "Transfer-Encoding" not in self.headers
        return int(stated[0]) if is_plain and len(stated[0]) <= 10 else None

    def is_own(self) -> bool:
        """A page of another origin has its Origin, and a name that was made to point here is in Host."""
        origin = self.headers.get("Origin")
        return self.headers.get("Host") in self.server.hosts and (origin is None or origin in self.server.origins)

    def is_from_here(self) -> bool:
        """An image of another page has no Origin, and could ask a query, which may make an index."""
        return self.headers.get("Sec-Fetch-Site", "same-origin") in ("same-origin", "none")

    def passed_on(self, body: bytes) -> Response:
        match = self.headers.get("If-Match")
        try:
            vector = None if match is None else match.encode("latin-1")
            status, written = self.server.remote.exchange(self.command, self.path, body or None, vector)
        except NoServer as fault:
            return refusal(502, "NoServer", Message=str(fault))
        except ValueError:
            return refusal(400, "BadHead")
        return Response(status, JSON, written)

    def log_message(self, *_: object) -> None:
        """The server logs no requests, and neither do we."""
