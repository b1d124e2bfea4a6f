"""Runs each command of docs/http.md and docs/tour.md against the command `serve`, and what clients of the standard library of Python ask."""

import argparse
import http.client
import os
import pathlib
import shutil
import subprocess
import sys
import tempfile

from raven_tools import http_page, model, programs
from raven_tools.places import PROGRAM, TOP
from raven_tools.servers import MODEL, Client, Server, caught_up

# What curl would read, and where it would ask someone else.
LEFT_OUT = ("CURL_HOME", "XDG_CONFIG_HOME", "http_proxy", "HTTP_PROXY", "all_proxy", "ALL_PROXY", "https_proxy", "HTTPS_PROXY")
VECTOR = "A:%d-" + model.BASE


def plain(written: bytes) -> str:
    """What is written as the page shows it: lines end with LF, the last one may lack it, and moments are those of 1970."""
    text = model.at_no_moment(written).decode(errors="replace")
    return text.replace("\r\n", "\n").removesuffix("\n") + "\n"


def differs(name: str, expected: str, found: str, message: str = "") -> bool:
    """Whether the two differ. If so it prints where."""
    if expected == found:
        return False
    print(f"differs  {name}")
    print(programs.first_difference(expected.encode(), found.encode(), ("expected", "written")))
    print(message, end="")
    return True


# The page


def put_raven(folder: pathlib.Path, program: str | None) -> None:
    """The command `raven` of the page: the program, or the model."""
    command = f'exec "{program}" "$@"' if program else f'exec "{sys.executable}" "{TOP}/tools/model.py" "$@"'
    path = folder / "raven"
    path.write_text(f"#!/bin/sh\n{command}\n")
    path.chmod(0o755)


def shell(command: str, folder: pathlib.Path) -> subprocess.CompletedProcess[bytes]:
    environment = {name: value for name, value in os.environ.items() if name not in LEFT_OUT}
    environment |= {"HOME": str(folder), "PATH": f"{folder}:{os.environ['PATH']}", "LC_ALL": "C.UTF-8"}
    return subprocess.run(["sh", "-c", command], cwd=folder, env=environment, capture_output=True, timeout=120)


def message_of(ended: subprocess.CompletedProcess[bytes]) -> str:
    """What curl says beside its progress, if anything."""
    lines = ended.stderr.decode(errors="replace").replace("\r", "\n").split("\n")
    return "".join(f"  {line}\n" for line in lines if line.startswith(("curl: ", "raven: ")))


def page(name: str, program: str | None) -> int:
    """How many commands of the page write something else than what is beside them. They run one after another, over one database, whose
    indexes have caught up before each. The model, which stores nothing, goes on where the page starts the server once more."""
    wrong = 0
    examples = http_page.examples(name)
    with tempfile.TemporaryDirectory() as made:
        folder = pathlib.Path(made)
        put_raven(folder, program)
        data = ["--data", str(folder / "kept")] if program else []
        server = started(program, data)
        try:
            for example in examples:
                if example.restarts and program:
                    server.kill()
                    server = started(program, data)
                    ready(server.port)
                command = example.command.replace(http_page.ADDRESS, f"127.0.0.1:{server.port}")
                ended = shell(command, folder)
                wrong += differs(example.command.strip(), plain(example.written.encode()), plain(ended.stdout), message_of(ended))
                ready(server.port)
        finally:
            server.kill()
    print(f"{wrong} of {len(examples)} commands of docs/{name}.md differ")
    return wrong


def started(program: str | None, options: list[str]) -> Server:
    return Server([program] if program else MODEL, *options)


def ready(port: int) -> None:
    """Waits until the indexes have caught up."""
    with Client(port) as client:
        caught_up(client)


# Clients of Python


def asked(client: http.client.HTTPConnection, method: str, page: str, **given: object) -> str:
    """The status and the body of the response, in one line."""
    client.request(method, f"/databases/db{page}", **given)
    response = client.getresponse()
    return f"{response.status} {plain(response.read())}"


def one_connection(port: int) -> int:
    """How many answers to requests over one connection are wrong."""
    client = http.client.HTTPConnection("127.0.0.1", port, timeout=60)
    chunks = [b'{"Commands":[{"Type":"PUT","Id":"b",', b'"Document":{"N":1}},', b'{"Type":"DELETE","Id":"a"}]}']
    found = [
        asked(client, "GET", "/stats"),
        asked(client, "PUT", "/docs?id=a", body='{"Name":"é"}'.encode(), headers={"If-Match": '""'}),
        asked(client, "PUT", "/docs?id=a", body=b"{}", headers={"If-Match": '""'}),
        asked(client, "POST", "/bulk_docs", body=iter(chunks), encode_chunked=True, headers={"Transfer-Encoding": "chunked"}),
        asked(client, "GET", "/docs?id=a"),
        asked(client, "DELETE", "/docs?id=b"),
        asked(client, "GET", "/none"),
        asked(client, "GET", "/stats", headers={"Connection": "close"}),
    ]
    closed = client.sock is None
    client.close()
    first, second, third = (VECTOR % etag for etag in (1, 2, 3))
    conflict = '{"At":0,"Error":"Conflict","Expected":"","Found":"%s"}' % first
    results = '[{"ChangeVector":"%s","Id":"b","Type":"PUT"},{"Deleted":true,"Id":"a","Type":"DELETE"}]' % second
    expected = [
        '200 {"CountOfDocuments":0,"CountOfIndexes":0,"CountOfTombstones":0,"LastDocEtag":0}\n',
        '201 {"ChangeVector":"%s","Id":"a"}\n' % first,
        f"409 {conflict}\n",
        '201 {"Results":%s}\n' % results,
        '404 {"Error":"NoDocument","Id":"a"}\n',
        "204 \n",
        '404 {"Error":"NoRoute"}\n',
        '200 {"CountOfDocuments":0,"CountOfIndexes":0,"CountOfTombstones":1,"LastDocEtag":4}\n',
    ]
    # The pumps may have cleaned the first of two tombstones, or not yet.
    found[-1] = found[-1].replace('"CountOfTombstones":2', '"CountOfTombstones":1')
    wrong = sum(differs(f"http.client, request {number}", *pair) for number, pair in enumerate(zip(expected, found), 1))
    if not closed or third in "".join(found):
        print("http.client: the connection is open after `Connection: close`, or a deletion has a change vector")
        wrong += 1
    return wrong


def large_bodies(port: int) -> int:
    """How many answers to large bodies are wrong: the largest that a request may have, and one byte more, which is refused unread."""
    wrong = 0
    for size, expected in [(4_194_304, '400 {"Error":"NotJson"}\n'), (4_194_305, '413 {"Error":"BodyTooLarge"}\n')]:
        client = http.client.HTTPConnection("127.0.0.1", port, timeout=60)
        try:
            found = asked(client, "PUT", "/docs?id=a", body=b"x" * size)
        except OSError as fault:
            found = f"no response: {fault}\n"
        client.close()
        wrong += differs(f"a body of {size} bytes", expected, found)
    return wrong


def over(program: str | None, check, *more: object) -> int:
    """What a check finds over a database of its own."""
    with tempfile.TemporaryDirectory() as folder:
        data = ["--data", os.path.join(folder, "kept")] if program else []
        with started(program, data) as server:
            return check(server.port, *more)


def has_curl() -> bool:
    if shutil.which("curl"):
        return True
    print("there is no curl, so no command of docs/http.md and docs/tour.md was run")
    return False


def main() -> int:
    sys.setrecursionlimit(10_000)
    given = argparse.ArgumentParser(description="Runs each command of docs/http.md and docs/tour.md.")
    given.add_argument("--program", default=str(PROGRAM))
    given.add_argument("--model", action="store_true", help="the model in Python, not the program")
    given = given.parse_args()
    program = None if given.model else os.path.abspath(given.program)
    if program and not programs.is_built(program):
        print(f"no program: {program}")
        return 2
    wrong = over(program, one_connection) + over(program, large_bodies)
    print(f"http.client: {wrong} answers are wrong")
    if has_curl():
        wrong += sum(page(name, program) for name in http_page.PAGES)
    elif os.environ.get("RAVEN_WITHOUT_CURL") != "1":
        wrong += 1
    return 1 if wrong else 0
