"""How a server begins and ends: its lines on standard error, its status, ports and files that are taken, and how many connections it
serves."""

import collections.abc
import pathlib
import shutil
import socket
import subprocess
import threading
import time

from raven_tools.model import messages
from raven_tools.model.limits import MAX_REQUESTS
from raven_tools.programs import number_of
from raven_tools.responses import responses_of
from raven_tools.servers import PATIENCE, Client, Server, Wrong

Command = collections.abc.Sequence[str]


def ended_so(server: Server, what: str, file: str | None = None) -> list[str]:
    """A server that has served its connections ends by itself, and says so, as it said where it listens and where its documents are."""
    found = server.end()
    expected = 0, "", messages.listening(server.port, file) + messages.message_of("Done")
    return [] if found == expected else [f"{what}: {found} in place of {expected}"]


def refused_so(command: Command, said: str, *options: str) -> list[str]:
    """A server that cannot begin: what it writes, and its status."""
    try:
        ended = subprocess.run([*command, "serve", *options], stdin=subprocess.DEVNULL, capture_output=True, text=True, timeout=PATIENCE)
    except subprocess.TimeoutExpired:
        return [f"serve {options} runs, in place of {said!r}"]
    found, expected = (ended.returncode, ended.stdout, ended.stderr), (number_of(said), "", said)
    return [] if found == expected else [f"serve {options}: {found} in place of {expected}"]


def counted(command: Command) -> list[str]:
    """After so many connections the program ends, whatever the number of its workers; the connections are served whole."""
    wrong = []
    for connections, workers in [(1, 8), (3, 1), (5, 2), (4, 4)]:
        what = f"{connections} connections, {workers} workers"
        with Server(command, "--connections", str(connections), "--workers", str(workers)) as server:
            for number in range(connections):
                if not server.runs():
                    wrong.append(f"{what}: it ended after {number}")
                    break
                with Client(server.port) as client:
                    client.put(f"a/{number}", {})
                    if client.stats()["LastDocEtag"] != number + 1:
                        wrong.append(f"{what}: the document of connection {number} is not there")
            else:
                wrong += ended_so(server, what)
    return wrong


def held_open(command: Command) -> list[str]:
    """The last connection is served to its end while the others are closed: it ends when this one does."""
    with Server(command, "--connections", "2", "--workers", "2") as server, Client(server.port) as first:
        first.put("a", {})
        with Client(server.port) as second:
            second.put("b", {})
        time.sleep(0.3)
        wrong = [] if server.runs() else ["it ended while a connection was open"]
        for number in range(20):
            first.put(f"c/{number}", {})
        first.leave()
        return wrong + ended_so(server, "one connection that stays open longer than the others")


def at_most(command: Command) -> list[str]:
    """The last response of a connection with as many requests as it may have closes it; a further one opens another."""
    wrong = []
    with Server(command, "--connections", "2") as server:
        with Client(server.port) as client:
            for number in range(1, MAX_REQUESTS + 1):
                if client.connection.sock is None and number > 1:
                    wrong.append(f"the connection was closed after {number - 1} requests")
                    break
                client.stats()
            if client.connection.sock is not None:
                wrong.append(f"the connection is open after {MAX_REQUESTS} requests")
            client.stats()
        return wrong + ended_so(server, "a connection that had all its requests")


def in_one_piece(command: Command) -> list[str]:
    """Many requests that are sent at once are answered in their order, and the last of them closes the connection."""
    put = b"PUT /databases/db/docs?id=a HTTP/1.1\r\nContent-Length: 2\r\n\r\n{}"
    last = b"GET /databases/db/stats HTTP/1.0\r\n\r\n"
    with Server(command, "--connections", "1") as server:
        with socket.create_connection(("127.0.0.1", server.port), timeout=PATIENCE) as connection:
            connection.sendall(put * 200 + last + put)
            written = b""
            while piece := connection.recv(65_536):
                written += piece
        found = [(response.status, response.closes, response.body) for response in responses_of(written)]
        expected = [(201, False, b'{"ChangeVector":"A:%d-%s","Id":"a"}' % (n, b"A" * 22)) for n in range(1, 201)]
        expected.append((200, True, b'{"CountOfDocuments":1,"CountOfIndexes":0,"CountOfTombstones":0,"LastDocEtag":200}'))
        wrong = [] if found == expected else [f"200 requests in one piece: {len(found)} responses, the last {found[-1:]}"]
        return wrong + ended_so(server, "requests in one piece")


def ports(command: Command) -> list[str]:
    """A port that is taken is reported; one that was, but whose server is gone, is free at once."""
    with Server(command) as server:
        wrong = refused_so(command, messages.message_of(f"DoorFault {server.port}"), "--port", str(server.port))
        with Client(server.port) as client:
            client.stats()
            server.kill()
        port = server.port
    with Server(command, "--connections", "1", port=port) as again:
        if again.port != port:
            wrong.append(f"it listens on {again.port} in place of {port}")
        with Client(port) as client:
            client.stats()
        wrong += ended_so(again, "a server on a port that was used before")
    return wrong


def names(command: Command) -> list[str]:
    """The name of the database and its base id are those of the options."""
    base = "0123456789abcdefghiXYZ"
    with Server(command, "--connections", "1", "--db", "Shop-1", "--id", base) as server:
        with Client(server.port, name="Shop-1") as client:
            wrong = []
            found = client.put("a", {}).reply
            if found != {"ChangeVector": f"A:1-{base}", "Id": "a"}:
                wrong.append(f"a document of another base id: {found}")
            client.before = "/databases/db"
            answer = client.ask("GET", "/stats")
            if (answer.status, answer.reply) != (404, {"Error": "NoDatabase"}):
                wrong.append(f"another database is answered {answer}")
        return wrong + ended_so(server, "a server with a name and a base id")


def is_loopback(command: Command) -> list[str]:
    """It listens on the loopback address alone."""
    with Server(command) as server:
        try:
            for address in {found[4][0] for found in socket.getaddrinfo(socket.gethostname(), None, socket.AF_INET)}:
                if not address.startswith("127."):
                    socket.create_connection((address, server.port), timeout=2).close()
                    return [f"it listens on {address} too"]
        except OSError:
            pass
        return []


def files(command: Command, folder: pathlib.Path) -> list[str]:
    """A file is stored in, found again after an end of its own, without its log too, and open in one program alone."""
    file, text = folder / "ends.db", folder / "text"
    text.write_bytes(b"GET / HTTP/1.1\r\n\r\n" * 1_000)
    data = ["--data", str(file)]
    wrong = []
    for number in range(3):
        with Server(command, *data, "--connections", "1") as server:
            wrong += refused_so(command, messages.unopened(str(file), "InUse"), *data, "--port", "0")
            with Client(server.port) as client:
                if client.stats()["LastDocEtag"] != number:
                    wrong.append(f"the file has {client.stats()} after {number} runs")
                client.put(f"a/{number}", {"N": number})
            wrong += ended_so(server, "a server with a file", str(file))
    copy = folder / "copy.db"
    shutil.copyfile(file, copy)
    with Server(command, "--data", str(copy), "--connections", "1") as server, Client(server.port) as client:
        if client.stats()["LastDocEtag"] != 3:
            wrong.append(f"after a clean end the file without its log has {client.stats()}")
    for path, cause in [(text, "NotADatabase"), (folder, "Folder"), (folder / "no" / "file", "NoFolder")]:
        wrong += refused_so(command, messages.unopened(str(path), cause), "--data", str(path), "--port", "0")
    return wrong


def at_once(command: Command) -> list[str]:
    """As many connections are served at once as there are workers: each of them has one open while the others ask."""
    with Server(command, "--workers", "16") as server:
        return all_at_once(server.port, 16)


def leaves_nothing(command: Command) -> list[str]:
    """A connection that has ended, and what a document was before, take no memory any more."""

    def connect(port: int, times: int) -> None:
        for number in range(times):
            with Client(port) as client:
                client.put("a", {"N": number, "Pad": "x" * 10_000})
                client.get("a")

    with Server(command) as server:
        connect(server.port, 100)
        before = server.memory()
        connect(server.port, 300)
        grown = server.memory() - before
        return [f"300 connections take {grown} KiB that are not given back"] if grown > 16_384 else []


def all_at_once(port: int, workers: int, patience: float = 20) -> list[str]:
    """Opens so many connections and asks over each of them, in turn, before one is closed."""
    clients = [Client(port, patience) for _ in range(workers)]
    barrier = threading.Barrier(workers)
    wrong: list[str] = []

    def ask(client: Client) -> None:
        try:
            client.stats()
            barrier.wait(patience)
            client.stats()
        except (Wrong, threading.BrokenBarrierError) as fault:
            barrier.abort()
            wrong.append(f"{workers} connections are not served at once: {fault!r}")

    threads = [threading.Thread(target=ask, args=(client,)) for client in clients]
    for thread in threads:
        thread.start()
    for thread in threads:
        thread.join()
    for client in clients:
        client.leave()
    return wrong[:1]


def ends(command: Command) -> list[str]:
    """What needs no file."""
    wrong = counted(command) + held_open(command) + at_most(command) + ports(command) + names(command)
    return wrong + in_one_piece(command) + is_loopback(command) + at_once(command) + leaves_nothing(command)
