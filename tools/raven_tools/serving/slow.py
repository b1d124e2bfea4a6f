"""Clients that send nothing, little or too much, or take nothing, beside those that go on being served."""

import collections.abc
import concurrent.futures
import contextlib
import http.client
import json
import socket
import struct
import threading
import time

from raven_tools.model.limits import MAX_REQUEST_BODY
from raven_tools.serving.ends import all_at_once
from raven_tools.servers import Client, Server, Wrong

Command = collections.abc.Sequence[str]
# How long a client may do nothing, in seconds, and then be read from; and what a machine with other work to do may add.
SILENCE, LAST_READS, SLACK = 10, 2, 8
STATS = b"GET /databases/db/stats HTTP/1.1\r\n\r\n"
LARGE = b"GET /databases/db/docs?id=large HTTP/1.1\r\n\r\n"
# The documents that are asked for and not taken have more bytes than the buffers of a connection.
COPIES = 40
# How often the server may wait so long for a client that takes nothing: Linux still makes some room in its buffers between two waits.
WAITS = 4


def opened(port: int) -> socket.socket:
    return socket.create_connection(("127.0.0.1", port), timeout=SILENCE + LAST_READS + SLACK)


def rest_of(connection: socket.socket) -> bytes:
    """What still comes until the server ends the connection."""
    pieces = []
    while piece := connection.recv(65_536):
        pieces.append(piece)
    return b"".join(pieces)


def silent(port: int, sent: bytes) -> str | None:
    """A client that sends a part of a request, and then nothing, is cut off after its time."""
    with opened(port) as connection:
        connection.sendall(sent)
        began = time.monotonic()
        found = rest_of(connection)
        took = time.monotonic() - began
    if found or not SILENCE - 0.5 <= took <= SILENCE + SLACK:
        return f"a client that sent {sent[:40]!r} and no more was cut off after {took:.1f} s, and got {found[:100]!r}"
    return None


def dripping(port: int) -> str | None:
    """A client that sends a byte now and then is served, though it takes longer than a silent one may."""
    pause = (SILENCE + 2) / len(STATS)
    with opened(port) as connection:
        connection.setsockopt(socket.IPPROTO_TCP, socket.TCP_NODELAY, 1)
        for byte in STATS:
            connection.sendall(bytes([byte]))
            time.sleep(pause)
        found = connection.recv(65_536)
    return None if found.startswith(b"HTTP/1.1 200 OK\r\n") else f"a request, a byte each {pause:.2f} s, was answered {found[:100]!r}"


def stuck(port: int) -> str | None:
    """A client that asks for much and takes nothing is given up."""
    with opened(port) as connection:
        connection.setsockopt(socket.SOL_SOCKET, socket.SO_RCVBUF, 65_536)
        connection.sendall(LARGE * COPIES)
        time.sleep(WAITS * SILENCE + LAST_READS + SLACK)
        try:
            found = len(rest_of(connection))
        except ConnectionError:
            found = 0
    return f"a client that took nothing for a while was sent {found} bytes" if found >= COPIES * 1_000_000 else None


def leaving(port: int) -> str | None:
    """Clients that close in the middle of a response, some of them so that the system reports it, or at once."""
    for number in range(30):
        with opened(port) as connection:
            if number % 3:
                connection.sendall(LARGE * COPIES)
                connection.recv(1_000)
            if number % 2:
                connection.setsockopt(socket.SOL_SOCKET, socket.SO_LINGER, struct.pack("ii", 1, 0))
    return None


def good(port: int, until: float, found: list[float]) -> str | None:
    """A client that goes on being served, over a connection for each request."""
    while time.monotonic() < until:
        began = time.monotonic()
        try:
            with Client(port, SLACK) as client:
                client.put("good", {"N": len(found)})
                client.get("good")
        except Wrong as wrong:
            return f"a client beside slow ones: {wrong}"
        found.append(time.monotonic() - began)
        time.sleep(0.05)
    return None


def slow(command: Command) -> list[str]:
    """All of these at once. There are so many workers, also while they end the connections of clients that left, that no connection has to give
    way. In the end all of them serve again."""
    half = b"PUT /databases/db/docs?id=half HTTP/1.1\r\nContent-Length: 100\r\n\r\n" + b"x" * 50
    calls = [(silent, b""), (silent, STATS[:20]), (silent, half), (dripping,), (stuck,), (leaving,)]
    workers = 48
    wrong: list[str] = []
    took: list[float] = []

    def run(call, *given) -> None:
        try:
            said = call(*given)
        except OSError as fault:
            said = f"{call.__name__} {given[1:2]}: {fault!r}"
        if said:
            wrong.append(said)

    with Server(command, "--workers", str(workers)) as server:
        with Client(server.port) as client:
            client.put("large", {"Pad": "x" * 1_000_000})
        threads = [threading.Thread(target=run, args=(call, server.port, *given)) for call, *given in calls]
        threads.append(threading.Thread(target=run, args=(good, server.port, time.monotonic() + SILENCE + LAST_READS, took)))
        for thread in threads:
            thread.start()
        for thread in threads:
            thread.join()
        wrong += all_at_once(server.port, workers)
        with Client(server.port) as client:
            if client.get("half").status != 404:
                wrong.append("half a document was stored")
        if not server.runs():
            wrong.append(f"the server ended: {server.end()}")
    if len(took) < 20:
        wrong.append(f"a client beside slow ones was served {len(took)} times")
    return wrong


# Connections that are kept

# So many clients keep a connection, of a server with so few workers. Before such connections gave way, a request behind those that sent nothing took
# 36 seconds, and the writes at once, by clients which keep theirs for 4 seconds, took 57: so neither may take so many.
WORKERS, SILENT, WRITERS, AT_MOST = 4, 12, 50, 30


def idle(command: Command) -> tuple[list[str], str]:
    """Clients that keep connections which they do not use hold up no other client, and find their connections closed, not a fault."""
    with Server(command, "--workers", str(WORKERS)) as server:
        behind = behind_silent(server.port)
        writing = written_at_once(server.port)
        wrong = all_at_once(server.port, WORKERS)
    took = {
        f"a request behind {SILENT} connections that sent nothing": behind,
        f"{WRITERS} writes at once": writing,
    }
    wrong += [f"{what} took {seconds:.1f} s" for what, seconds in took.items() if seconds > AT_MOST]
    return wrong, ": " + ", ".join(f"{what} {seconds:.1f} s" for what, seconds in took.items())


def behind_silent(port: int) -> float:
    with contextlib.ExitStack() as kept:
        for _ in range(SILENT):
            kept.enter_context(opened(port))
        began = time.monotonic()
        with Client(port, 2 * AT_MOST) as client:
            client.stats()
        return time.monotonic() - began


def written_at_once(port: int) -> float:
    """Until all are answered. Then each client asks again, over a connection that may have been closed."""
    with contextlib.ExitStack() as kept, concurrent.futures.ThreadPoolExecutor(WRITERS) as threads:
        clients = [kept.enter_context(Client(port, 2 * AT_MOST)) for _ in range(WRITERS)]
        began = time.monotonic()
        list(threads.map(lambda number: clients[number].put(f"kept/{number}", {}), range(WRITERS)))
        took = time.monotonic() - began
        counts = list(threads.map(Client.stats, clients))
    if any(count["CountOfDocuments"] != WRITERS for count in counts):
        raise Wrong(f"{WRITERS} writes at once are counted as {counts}")
    return took


# Large bodies


def pieces(size: int) -> collections.abc.Iterator[bytes]:
    for _ in range(size // 65_536):
        yield b"x" * 65_536
    yield b"x" * (size % 65_536)


def large(command: Command) -> list[str]:
    """A body above the limit is refused as soon as that is known, and a client that sends all of it sees so. The largest is read."""
    wrong = []
    with Server(command) as server:
        for size in (MAX_REQUEST_BODY, MAX_REQUEST_BODY + 1, 8_000_000, 15_000_000):
            for is_chunked in (False, True):
                expected = (400, {"Error": "NotJson"}) if size <= MAX_REQUEST_BODY else (413, {"Error": "BodyTooLarge"})
                given = {"encode_chunked": True, "headers": {"Transfer-Encoding": "chunked"}} if is_chunked else {}
                found = sent(server.port, pieces(size) if is_chunked else b"x" * size, given)
                if found != expected:
                    wrong.append(f"a body of {size} bytes{', in chunks' * is_chunked}: {found} in place of {expected}")
        with Client(server.port) as client:
            client.put("a", {"Pad": "x" * 1_000_000})
            if client.stats()["LastDocEtag"] != 1:
                wrong.append("a document that is large is not stored, or one that is too large is")
    return wrong


def sent(port: int, body: object, given: dict) -> tuple[int, object] | str:
    """What a client sees that sends all of its body before it reads."""
    with contextlib.closing(http.client.HTTPConnection("127.0.0.1", port, timeout=SILENCE + SLACK)) as connection:
        try:
            connection.request("PUT", "/databases/db/docs?id=b", body, **given)
            response = connection.getresponse()
            return response.status, json.loads(response.read())
        except (OSError, http.client.HTTPException) as fault:
            return f"no response: {fault!r}"
