"""Databases of servers whose clients delete as much as they write: how they age, and how long an index waits for its first batch."""

import collections
import collections.abc
import json
import pathlib
import random
import tempfile
import threading
import time

from raven_tools.making.load_scripts import NAMES
from raven_tools.servers import PATIENCE, Client, Server, Wrong, caught_up

Command = collections.abc.Sequence[str]
Body = dict[str, object]
# Of so many documents one transaction writes and deletes each.
STEP = 100
MAP = "from u in docs.Users select new { u.Name }"
# How long the first batch of an index may be awaited, in seconds.
FIRST = 300


class Turnover:
    """Documents under new ids, each of which is deleted once so many are there."""

    def __init__(self, seed: int, most: int):
        self.chance = random.Random(seed)
        self.most = most
        self.live: collections.deque[tuple[str, int]] = collections.deque()
        self.written = self.deleted = 0

    def body(self) -> Body:
        note = "x" * self.chance.choice([0, 0, 10, 100, 1_000])
        return {"Name": self.chance.choice(NAMES), "Note": note, "@metadata": {"@collection": "Users"}}

    def commands(self, count: int) -> list[dict]:
        """Deletions, and then as many writes. So the last row is a document."""
        gone = [self.live.popleft()[0] for _ in range(min(count, len(self.live) + count - self.most))]
        commands = [{"Type": "DELETE", "Id": name} for name in gone]
        for _ in range(count):
            name, body = f"users/{self.written}", self.body()
            self.written += 1
            self.live.append((name, len(json.dumps(body, separators=(",", ":")))))
            commands.append({"Type": "PUT", "Id": name, "Document": body})
        self.deleted += len(gone)
        return commands

    def write(self, client: Client, count: int) -> None:
        answer = client.bulk(self.commands(count))
        if answer.status != 201:
            raise Wrong(f"a transaction is answered {answer.status} {str(answer.reply)[:200]}")

    def size(self) -> int:
        return sum(size for _, size in self.live)


# A file that ages


def cleaned_up(client: Client) -> dict:
    """The counts once no tombstone is left, since all indexes have read them all."""
    ends = time.monotonic() + PATIENCE
    while (counts := client.stats())["CountOfTombstones"]:
        if time.monotonic() > ends:
            raise Wrong(f"tombstones are left after {PATIENCE} seconds: {counts}")
        time.sleep(0.03)
    return counts


def size_of(folder: pathlib.Path) -> int:
    return sum(part.stat().st_size for part in folder.iterdir())


def round_of(client: Client, turnover: Turnover, lines: int) -> tuple[float, int]:
    """How many writes and deletions were made a second, and how many tombstones there were then."""
    before, began = turnover.written + turnover.deleted, time.monotonic()
    for _ in range(lines // STEP):
        turnover.write(client, STEP)
    speed = (turnover.written + turnover.deleted - before) / (time.monotonic() - began)
    tombstones = client.stats()["CountOfTombstones"]
    caught_up(client)
    counts = cleaned_up(client)
    if counts["CountOfDocuments"] != len(turnover.live):
        raise Wrong(f"{counts}, but {len(turnover.live)} documents were left")
    return speed, tombstones


def age(command: Command, is_stored: bool, rounds: int, lines: int, ids: int, seed: int) -> None:
    """Prints a row for each round. A model stores nothing, so its file has no bytes."""
    turnover = Turnover(seed, ids)
    with tempfile.TemporaryDirectory() as name:
        folder = pathlib.Path(name)
        stored = ["--data", str(folder / "aged.db")] if is_stored else []
        with Server(command, *stored, "--workers", "1") as server, Client(server.port) as client:
            client.define("Users/ByName", MAP)
            while len(turnover.live) < ids:
                turnover.write(client, STEP)
            print("| Round | Documents | Etags taken | Tombstones, then | at the end | Writes per second | Live, MiB | File, MiB |")
            print("|---:|---:|---:|---:|---:|---:|---:|---:|")
            for number in range(1, rounds + 1):
                speed, tombstones = round_of(client, turnover, lines)
                counts, live, file = client.stats(), turnover.size() / 2**20, size_of(folder) / 2**20
                row = [number, counts["CountOfDocuments"], counts["LastDocEtag"], tombstones, counts["CountOfTombstones"]]
                print("| " + " | ".join([*map(str, row), f"{speed:,.0f}", f"{live:.1f}", f"{file:.1f}"]) + " |", flush=True)
    print(f"{rounds} rounds: no tombstone is left that all indexes have read")


# The first batch of an index


class Writer(threading.Thread):
    """Writes and deletes until it is told to end."""

    def __init__(self, port: int, turnover: Turnover, count: int):
        super().__init__(daemon=True)
        self.port, self.turnover, self.count = port, turnover, count
        self.is_over = threading.Event()
        self.fault: Wrong | None = None

    def run(self) -> None:
        try:
            with Client(self.port) as client:
                while not self.is_over.is_set():
                    self.turnover.write(client, self.count)
        except Wrong as fault:
            self.fault = fault


def reached(client: Client, name: str, etag: int) -> float:
    """The seconds until the index has come so far."""
    began = time.monotonic()
    while client.ask("GET", f"/indexes/staleness?name={name}").reply["IndexEtag"] < etag:
        if time.monotonic() - began > FIRST:
            raise Wrong(f"{name} has not come to etag {etag} in {FIRST} seconds")
        time.sleep(0.005)
    return time.monotonic() - began


def first_batch(command: Command, documents: int, pumps: int, writes: int, seed: int) -> None:
    """A new index over documents beside a client that deletes as many as it writes, so that pumps have something to clean all the time."""
    turnover = Turnover(seed, documents)
    with Server(command, "--workers", "2", "--pumps", str(pumps)) as server, Client(server.port) as client:
        while len(turnover.live) < documents:
            turnover.write(client, min(STEP, documents - len(turnover.live)))
        writer = Writer(server.port, turnover, writes)
        writer.start()
        time.sleep(1)
        before, deleted = client.stats(), turnover.deleted
        client.define("First", MAP)
        first = reached(client, "First", 1)
        caught = first + reached(client, "First", before["LastDocEtag"])
        made, after = turnover.deleted - deleted, client.stats()
        writer.is_over.set()
        writer.join()
        if writer.fault:
            raise writer.fault
        caught_up(client)
        cleaned_up(client)
    print(f"{documents} documents, {pumps} pumps, transactions of {writes} deletions and writes")
    print(f"first batch after {first:.3f} s; all that was there when the index was defined, after {caught:.3f} s")
    print(f"{made} deletions meanwhile; tombstones before {before['CountOfTombstones']}, then {after['CountOfTombstones']}, at the end 0")
    print("how many batches were refused as Cleaned, no server shows")
