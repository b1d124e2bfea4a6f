"""Requests to a running `raven serve`, each over a connection of its own: an open one would hold a worker between two of them."""

import collections.abc
import contextlib
import dataclasses
import http.client
import json
import socket
import threading
import typing
import urllib.parse

# How long a request may take until its whole response is there, in seconds.
PATIENCE = 15
USUAL = "http://127.0.0.1:8080"


class NoServer(Exception):
    """Nothing answered, or what did speaks no HTTP."""


@dataclasses.dataclass(frozen=True)
class Remote:
    """Where a server listens."""

    host: str
    port: int

    @classmethod
    def at(cls, address: str) -> "Remote":
        """Of an address, as http://127.0.0.1:8080. Another form is a `ValueError`."""
        parts = urllib.parse.urlsplit(address)
        if parts.scheme != "http" or not parts.hostname or parts.path.strip("/") or parts.query:
            raise ValueError(f"{address}: write {USUAL}")
        return cls(parts.hostname, parts.port or 80)

    def exchange(self, method: str, target: str, body: bytes | None = None, match: bytes | None = None) -> tuple[int, bytes]:
        """The status and the body of a response. What cannot stand in a request is a `ValueError`."""
        headers = {"Connection": "close"} | ({} if match is None else {"If-Match": match})
        connection = http.client.HTTPConnection(self.host, self.port, timeout=PATIENCE)
        try:
            connection.connect()
            with limited(connection.sock):
                connection.request(method, target, body, headers)
                response = connection.getresponse()
                return response.status, response.read()
        except http.client.InvalidURL as fault:
            raise ValueError(str(fault)) from None
        except (OSError, http.client.HTTPException) as fault:
            raise NoServer(str(fault) or type(fault).__name__) from None
        finally:
            connection.close()


@contextlib.contextmanager
def limited(connection: socket.socket) -> collections.abc.Iterator[None]:
    """Ends the connection in time. The time limit of a socket is one for each read, so bytes that come one by one would go on for ever."""

    def end() -> None:
        with contextlib.suppress(OSError):
            connection.shutdown(socket.SHUT_RDWR)

    late = threading.Timer(PATIENCE, end)
    late.daemon = True
    late.start()
    try:
        yield
    finally:
        late.cancel()


class Answer(typing.NamedTuple):
    status: int
    reply: typing.Any  # the JSON of the body, or nothing if there is none


class Index(typing.NamedTuple):
    """An index as the server lists it, and how many etags it is behind the newest row that it reads."""

    listed: dict[str, typing.Any]
    behind: int

    @property
    def name(self) -> str:
        return self.listed["Name"]


@dataclasses.dataclass(frozen=True)
class Database:
    """A database of a server."""

    remote: Remote
    name: str

    def ask(self, method: str, page: str, body: bytes | None = None, match: bytes | None = None) -> Answer:
        status, written = self.remote.exchange(method, f"/databases/{self.name}{page}", body, match)
        try:
            return Answer(status, json.loads(written) if written else None)
        except ValueError:
            raise NoServer(f"its response is no JSON: {written[:60]!r}") from None

    def stats(self) -> dict[str, int]:
        return self.taken("/stats")

    def indexes(self) -> list[Index]:
        """All of them. Only those that say that they are stale are asked how far behind they are."""
        return [Index(listed, self.behind(listed)) for listed in self.taken("/indexes")["Results"]]

    def behind(self, listed: collections.abc.Mapping[str, typing.Any]) -> int:
        if not listed["IsStale"]:
            return 0
        answer = self.ask("GET", f"/indexes/staleness?name={quoted(listed['Name'])}")
        # It may be gone since it was listed, or have caught up.
        if answer.status != 200 or not answer.reply["IsStale"]:
            return 0
        return max(0, answer.reply["Newest"] - answer.reply["IndexEtag"])

    def taken(self, page: str) -> dict[str, typing.Any]:
        """What is read from a page that a server of this database always has."""
        answer = self.ask("GET", page)
        if answer.status != 200:
            raise NoServer(f"{page}: {answer.status} {answer.reply}")
        return answer.reply


def quoted(text: str) -> str:
    """A text as a parameter of a request."""
    return urllib.parse.quote(text, safe="")
