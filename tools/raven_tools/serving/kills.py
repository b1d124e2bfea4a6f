"""Kills a server in the middle of writes, opens its file again, and looks if what it acknowledged is there."""

import collections.abc
import dataclasses
import pathlib
import random
import threading
import time

from raven_tools.serving.history import Body, etag_of
from raven_tools.serving.load import plain, tagged
from raven_tools.servers import Client, Server, Wrong

Command = collections.abc.Sequence[str]
WRITERS = 6
NAMES = 3


@dataclasses.dataclass
class Left:
    """What a writer leaves. Of a document there are its body and its etag, or nothing."""

    sure: dict[str, tuple[Body, int] | None] = dataclasses.field(default_factory=dict)
    flying: dict[str, Body | None] = dataclasses.field(default_factory=dict)  # written when the server was killed, and not acknowledged
    acknowledged: int = 0
    wrong: list[str] = dataclasses.field(default_factory=list)


class Writer:
    """Writes its own documents until the server is gone. One transaction at a time is not acknowledged."""

    def __init__(self, number: int, chance: random.Random):
        self.names = [f"kept/{number}-{place}" for place in range(NAMES)]
        self.chance = chance
        self.left = Left(dict.fromkeys(self.names))

    def body(self, name: str) -> Body:
        return tagged("Kept", Own=name, N=self.chance.randrange(10**9), Pad="x" * self.chance.choice([0, 100, 20_000]))

    def run(self, port: int) -> None:
        try:
            with Client(port) as client:
                while True:
                    names = self.chance.sample(self.names, self.chance.randint(1, NAMES))
                    # A DELETE has no etag in its response, so the first command of each is a PUT.
                    written = {name: self.body(name) if name == names[0] or self.chance.random() < 0.7 else None for name in names}
                    self.left.flying = written
                    self.took(self.asked(client, written), written)
        except Wrong:
            pass
        except (KeyError, TypeError, ValueError) as fault:
            self.left.wrong.append(f"an answer of another form: {fault!r}")

    def asked(self, client: Client, written: dict[str, Body | None]) -> list[dict]:
        if len(written) == 1:
            ((name, body),) = written.items()
            answer = client.put(name, body)
            results = [answer.reply]
        else:
            commands = [
                {"Type": "DELETE", "Id": name} if body is None else {"Type": "PUT", "Id": name, "Document": body}
                for name, body in written.items()
            ]
            answer = client.bulk(commands)
            results = answer.reply.get("Results")
        if answer.status != 201:
            self.left.wrong.append(f"a write is answered {answer.status} {answer.reply}")
            raise Wrong("refused")
        return results

    def took(self, results: list[dict], written: dict[str, Body | None]) -> None:
        for (name, body), result in zip(written.items(), results, strict=True):
            self.left.sure[name] = None if body is None else (body, etag_of(result["ChangeVector"]))
        self.left.flying = {}
        self.left.acknowledged += 1


def is_so(left: Left, found: dict[str, tuple[Body, int] | None]) -> bool:
    """Whether what was found is what was acknowledged, or that and the whole of the transaction in flight."""
    if found == left.sure:
        return True
    last = max((each[1] for each in left.sure.values() if each), default=0)
    for name, each in found.items():
        if name not in left.flying:
            if each != left.sure[name]:
                return False
        elif (each and each[0]) != left.flying[name] or (each and each[1] <= last):
            return False
    return bool(left.flying)


class Kept:
    """Round after round over one file."""

    def __init__(self, command: Command, file: pathlib.Path, seed: int):
        self.command, self.file, self.seed = command, file, seed
        self.chance = random.Random(seed * 7_000_003)
        self.writers = [Writer(number, random.Random(seed * 11_000_027 + number)) for number in range(WRITERS)]
        self.kills = 0

    def options(self) -> list[str]:
        return ["--data", str(self.file), "--workers", "8"]

    def flight(self) -> None:
        with Server(self.command, *self.options()) as server:
            threads = [threading.Thread(target=writer.run, args=(server.port,)) for writer in self.writers]
            for thread in threads:
                thread.start()
            time.sleep(self.chance.uniform(0.05, 0.8))
            server.kill()
            self.kills += 1
            for thread in threads:
                thread.join()

    def look(self) -> list[str]:
        wrong = [f"{said}" for writer in self.writers for said in writer.left.wrong]
        with Server(self.command, *self.options()) as server, Client(server.port) as client:
            last = client.stats()["LastDocEtag"]
            for writer in self.writers:
                found = {name: self.found(client, name) for name in writer.names}
                if not is_so(writer.left, found):
                    wrong.append(f"acknowledged {short(writer.left.sure)}, in flight {short(writer.left.flying)}, but found {short(found)}")
                least = max((each[1] for each in writer.left.sure.values() if each), default=0)
                if last < least:
                    wrong.append(f"the last etag is {last}, after {least} was acknowledged")
                writer.left = Left(found, {}, writer.left.acknowledged)
            server.kill()
        return wrong

    @staticmethod
    def found(client: Client, name: str) -> tuple[Body, int] | None:
        answer = client.get(name)
        return plain(answer.reply["Results"][0]) if answer.status == 200 else None

    def round(self, number: int) -> list[str]:
        self.flight()
        return [f"kill {number}, seed {self.seed}: {said}" for said in self.look()]


def short(left: dict) -> dict:
    """Etags, or numbers of what has none yet."""
    return {name: None if each is None else each[1] if isinstance(each, tuple) else f"N {each['N']}" for name, each in left.items()}


def kills(command: Command, folder: pathlib.Path, rounds: int, seed: int) -> tuple[list[str], int, int]:
    """What was wrong, how many writes were acknowledged, and how often the server was killed."""
    kept = Kept(command, folder / "kills.db", seed)
    wrong: list[str] = []
    for number in range(rounds):
        wrong += kept.round(number)
    return wrong, sum(writer.left.acknowledged for writer in kept.writers), kept.kills
