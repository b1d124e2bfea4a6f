"""The command `serve`: connections beside one another over one database, and pumps that let its indexes catch up and clean it.

One lock is held for each request, each look of a query that waits, and each round of a pump. It stores nothing.
"""

import collections.abc
import dataclasses
import json
import socket
import threading
import time

from raven_tools import model
from raven_tools.model import cleaning, http_asking, http_session, keeping
from raven_tools.model.database import Reply
from raven_tools.model.http_reading import HttpRequest
from raven_tools.model.limits import MAX_LOOKS
from raven_tools.model.lines import answer, pump_line
from raven_tools.model.outside import NUMBER, base_of, name_of, pairs_of

# The most documents that one batch takes.
BATCH = 1_024
# How long a nap is, and how long a client may do nothing, in seconds.
NAP = 0.01
SILENCE = 10
# A connection between two requests is kept for so many pieces of so many seconds if no worker is free: for its first request, and for
# each further one.
PIECE = 0.2
FIRST_PIECES, NEXT_PIECES = 5, 1
# At the end of a connection what the client still sends is dropped, for so many seconds and bytes.
LAST_SECONDS = 2
LAST_BYTES = 16_777_216
# The least, the greatest and the default of each number. Without a number of connections there is no limit.
RANGES = {"--port": (0, 65_535, 8_080), "--workers": (1, 64, 4), "--pumps": (1, 16, 2), "--connections": (1, 1_000_000, None)}


@dataclasses.dataclass(frozen=True)
class Options:
    base: str
    name: str
    port: int
    workers: int
    pumps: int
    connections: int | None


def is_number(text: str, least: int, greatest: int) -> bool:
    return NUMBER.fullmatch(text) is not None and least <= int(text) <= greatest


def options_of(arguments: tuple[str, ...]) -> Options | None:
    """The options of the command, or None if the arguments are not valid."""
    found = pairs_of(arguments, "serve", {"--data", "--id", "--db", *RANGES})
    if found is None or not base_of(found) or not name_of(found):
        return None
    if not all(is_number(found[name], least, greatest) for name, (least, greatest, _) in RANGES.items() if name in found):
        return None
    numbers = [int(found[name]) if name in found else default for name, (_, _, default) in RANGES.items()]
    return Options(base_of(found), name_of(found), *numbers)


def looks_of(request: HttpRequest) -> int:
    """How often a request looks that asks something."""
    if (request.method, request.path.rpartition("/")[2]) != ("POST", "queries"):
        return 1
    asked = json.loads(request.body)
    return asked.get("Looks", MAX_LOOKS) if asked.get("WaitForNonStaleResults") is True else 1


class Service:
    """A database that several threads share."""

    def __init__(self, database: model.Database, options: Options):
        self.database = database
        self.options = options
        self.lock = threading.Lock()
        self.begun = 0
        self.waiting = 0

    # requests

    def once(self, action: http_asking.Action) -> Reply:
        with self.lock:
            self.database.store.now = time.time_ns() // 1_000
            return action(self.database)

    def replied(self, request: HttpRequest) -> tuple[int, Reply]:
        def execute(action: http_asking.Action) -> Reply:
            reply = self.once(action)
            for _ in range(looks_of(request) - 1):
                if not reply["IsStale"]:
                    break
                time.sleep(NAP)
                reply = self.once(action)
            return reply

        return http_session.replied_by(self.options.name, request, execute)

    # connections

    def begins(self) -> bool:
        """Whether one more connection may be accepted."""
        with self.lock:
            self.begun += 1
            return self.options.connections is None or self.begun <= self.options.connections

    def is_full(self) -> bool:
        """Whether each worker serves a connection, and a further one would be accepted."""
        with self.lock:
            return self.waiting == 0 and (self.options.connections is None or self.begun < self.options.connections)

    def accepted(self, listening: socket.socket) -> socket.socket:
        with self.lock:
            self.waiting += 1
        connection, _ = listening.accept()
        with self.lock:
            self.waiting -= 1
        return connection

    def front(self, listening: socket.socket) -> None:
        while self.begins():
            with self.accepted(listening) as connection:
                kept = Connection(self, connection)
                try:
                    http_session.converse(kept.take, kept.give, self.replied)
                    hang_up(connection)
                except OSError:
                    pass

    # batches

    def round(self) -> bool:
        """A batch of each index, what TIDY does, and what CLEAN does if that was due before. Whether a batch moved its index."""
        is_due = cleaning.is_due(self.database)
        pumped = pump_line(self.database, str(BATCH))["Pumped"]
        http_session.tidy(self.database)
        if is_due:
            answer(self.database, b"CLEAN")
        return any(step["From"] != step["To"] for step in pumped)

    def pump(self, is_over: collections.abc.Callable[[], bool]) -> None:
        while not is_over():
            with self.lock:
                is_moved = self.round()
            if not is_moved:
                time.sleep(NAP)


class Connection:
    """A client's connection, which between two requests gives way if no worker is free."""

    def __init__(self, service: Service, connection: socket.socket):
        self.service, self.connection = service, connection
        self.kept: int | None = FIRST_PIECES

    def take(self) -> bytes:
        self.connection.settimeout(PIECE)
        for waited in range(1, round(SILENCE / PIECE) + 1):
            try:
                found = self.connection.recv(65_536)
            except TimeoutError:
                if self.kept is not None and self.kept <= waited and self.service.is_full():
                    raise
            else:
                self.kept = None
                return found
        raise TimeoutError

    def give(self, written: bytes) -> None:
        self.connection.settimeout(SILENCE)
        self.connection.sendall(written)
        self.kept = NEXT_PIECES


def hang_up(connection: socket.socket) -> None:
    """Ends the connection for the client, and reads on for a while: if bytes of it are unread, closing at once takes back what was
    written last."""
    connection.shutdown(socket.SHUT_WR)
    ends = time.monotonic() + LAST_SECONDS
    dropped = 0
    while dropped < LAST_BYTES and (left := ends - time.monotonic()) > 0:
        connection.settimeout(left)
        more = connection.recv(65_536)
        if not more:
            return
        dropped += len(more)


def serve(arguments: tuple[str, ...], listens: collections.abc.Callable[[int], object]) -> str:
    """Serves until so many connections are served as the arguments say, and says on which port. The status."""
    options = options_of(arguments)
    database = http_session.opened(options, keeping.Keeper())
    if isinstance(database, str):
        return database
    try:
        listening = socket.create_server(("127.0.0.1", options.port), backlog=128)
    except OSError:
        return f"DoorFault {options.port}"
    listens(listening.getsockname()[1])
    service = Service(database, options)
    fronts = [threading.Thread(target=service.front, args=(listening,), daemon=True) for _ in range(options.workers)]
    over = threading.Event()
    pumps = [threading.Thread(target=service.pump, args=(over.is_set,), daemon=True) for _ in range(options.pumps)]
    for thread in fronts + pumps:
        thread.start()
    for thread in fronts:
        thread.join()
    over.set()
    for thread in pumps:
        thread.join()
    return "Done"
