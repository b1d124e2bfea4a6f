"""Runs of the command `serve`, and clients of them."""

import collections.abc
import http.client
import json
import os
import re
import subprocess
import sys
import threading
import time
import typing
import urllib.parse

from raven_tools.places import TOP

FIRST_LINE = re.compile(r"raven: listening on 127\.0\.0\.1:([0-9]+), documents in .+\n")
# How long a server may take to listen or to end, and a client to get a response, in seconds.
PATIENCE = 30
MODEL = (sys.executable, str(TOP / "tools/model.py"))


class Wrong(Exception):
    """The server does not do what it has to."""


class Server:
    """One run. It listens on a port that is free if none is named; it is killed at the end of a `with` if it still runs."""

    def __init__(self, command: collections.abc.Sequence[str], *options: str, port: int = 0):
        arguments = [*command, "serve", "--port", str(port), *options]
        self.process = subprocess.Popen(arguments, stdin=subprocess.DEVNULL, stdout=subprocess.PIPE, stderr=subprocess.PIPE, text=True)
        late = threading.Timer(PATIENCE, self.process.kill)
        late.start()
        self.first = self.process.stderr.readline()
        late.cancel()
        found = FIRST_LINE.fullmatch(self.first)
        if not found:
            status, *written = self.end()
            raise Wrong(f"{options}: it does not listen: status {status}, {written}")
        self.port = int(found[1])

    def __enter__(self) -> "Server":
        return self

    def __exit__(self, *_: object) -> None:
        self.kill()

    def kill(self) -> None:
        """By SIGKILL, which no program sees."""
        if self.process.returncode is None:
            self.process.kill()
            self.process.communicate()

    def runs(self) -> bool:
        return self.process.poll() is None

    def end(self) -> tuple[int | None, str, str]:
        """The status, and what was written to standard output and to standard error, once it has ended by itself. No status if it does
        not end."""
        try:
            output, message = self.process.communicate(timeout=PATIENCE)
        except subprocess.TimeoutExpired:
            self.kill()
            return None, "", self.first
        return self.process.returncode, output, self.first + message

    def memory(self) -> int:
        """Its resident size in KiB."""
        with open(f"/proc/{self.process.pid}/status") as status:
            return next(int(line.split()[1]) for line in status if line.startswith("VmRSS:"))


class Answer(typing.NamedTuple):
    status: int
    reply: typing.Any  # the JSON of the body, or nothing if there is none
    began: float
    ended: float


# How a client finds a connection that the server has closed, and how often in a row it connects again.
CLOSED = (http.client.RemoteDisconnected, ConnectionResetError, BrokenPipeError)
MOST_CLOSED = 2


class Client:
    """Keeps its connection open until it leaves, or the server needs it for others."""

    def __init__(self, port: int, patience: float = PATIENCE, name: str = "db"):
        self.connection = http.client.HTTPConnection("127.0.0.1", port, timeout=patience)
        self.before = f"/databases/{name}"

    def __enter__(self) -> "Client":
        return self

    def __exit__(self, *_: object) -> None:
        self.leave()

    def leave(self) -> None:
        self.connection.close()

    def ask(self, method: str, page: str, body: object = None, **given: typing.Any) -> Answer:
        """One request, whose body is the JSON of a value, or bytes as they are."""
        data = body if body is None or isinstance(body, bytes) else json.dumps(body).encode()
        began = time.monotonic()
        try:
            status, written = self.exchanged(method, self.before + page, data, given)
        except (OSError, http.client.HTTPException) as fault:
            self.connection.close()
            raise Wrong(f"{method} {page}: no response after {time.monotonic() - began:.1f} s: {fault!r}") from None
        return Answer(status, json.loads(written) if written else None, began, time.monotonic())

    def exchanged(self, method: str, target: str, data: bytes | None, given: dict) -> tuple[int, bytes]:
        """The status and the body. The server may close a connection that waits for a request, of which it has then read nothing: it is asked
        again over a new connection, as most clients do."""
        for _ in range(MOST_CLOSED):
            try:
                return self.exchange(method, target, data, given)
            except CLOSED:
                self.connection.close()
        return self.exchange(method, target, data, given)

    def exchange(self, method: str, target: str, data: bytes | None, given: dict) -> tuple[int, bytes]:
        self.connection.request(method, target, data, **given)
        response = self.connection.getresponse()
        return response.status, response.read()

    # requests

    def get(self, name: str) -> Answer:
        return self.ask("GET", "/docs?id=" + urllib.parse.quote(name, safe=""))

    def put(self, name: str, body: object, match: str | None = None) -> Answer:
        headers = {} if match is None else {"If-Match": f'"{match}"'}
        return self.ask("PUT", "/docs?id=" + urllib.parse.quote(name, safe=""), body, headers=headers)

    def delete(self, name: str) -> Answer:
        return self.ask("DELETE", "/docs?id=" + urllib.parse.quote(name, safe=""))

    def bulk(self, commands: list[dict]) -> Answer:
        return self.ask("POST", "/bulk_docs", {"Commands": commands})

    def query(self, text: str, **members: object) -> Answer:
        return self.ask("POST", "/queries", {"Query": text, **members})

    def define(self, name: str, *texts: str) -> Answer:
        definition = {"Name": name, "Maps": [texts[0]], **({"Reduce": texts[1]} if texts[1:] else {})}
        return self.ask("PUT", "/admin/indexes", {"Indexes": [definition]})

    def indexes(self) -> list[dict]:
        return self.ask("GET", "/indexes").reply["Results"]

    def stats(self) -> dict:
        return self.ask("GET", "/stats").reply


def is_caught_up(listed: list[dict]) -> bool:
    """Whether each index has everything, and nothing is built beside another."""
    return not any(index["IsStale"] or index["Name"].startswith("ReplacementOf/") for index in listed)


def caught_up(client: Client, patience: float = PATIENCE) -> list[dict]:
    """The indexes once all have caught up and two looks show the same; this makes no batch itself."""
    ends = time.monotonic() + patience
    before = None
    while True:
        listed = client.indexes()
        if is_caught_up(listed) and listed == before:
            return listed
        if time.monotonic() > ends:
            raise Wrong(f"the indexes are not up after {patience} seconds: {listed}")
        before = listed
        time.sleep(0.03)


def takes_serve(program: str | os.PathLike[str]) -> bool:
    ended = subprocess.run([program, "--help"], capture_output=True, timeout=60)
    return b"Usage: raven serve" in ended.stdout
