"""Writes, reads and questions over one file, of many lines."""

import random

from raven_tools import model
from raven_tools.making import lines
from raven_tools.making.maker import Maker

NAMES = ["Ada", "Alan", "Barbara", "Edsger", "Frances", "Grace"]


class LoadMaker(Maker):
    """Makes lines over so many ids out of one seed, for one round after another. Its database is the one of the round."""

    def __init__(self, seed: int, database: model.Database, ids: int):
        super().__init__(random.Random(seed), database)
        self.ids = ids
        self.name = ""  # the id of this line

    def id(self) -> str:
        return f"users/{self.random.randrange(self.ids)}"

    def known_id(self) -> str:
        return self.name

    def usual_body(self, name: str) -> str:
        filler = "x" * self.one_of([0, 0, 10, 100, 1_000])
        return f'{{"Name":"{self.one_of(NAMES)}","Note":"{filler}","@metadata":{{"@collection":"Users"}}}}'

    def vector(self, name: str) -> str:
        return model.vector_of(self.random.randrange(1, self.database.store.last + 2))

    def command(self) -> str:
        name = self.id()
        return lines.put_command(name, self.usual_body(name)) if self.chance(80) else lines.command("DELETE", name)

    def bulk(self) -> str:
        return lines.bulk(*(self.command() for _ in range(self.random.randrange(1, 50))))

    def question(self) -> str:
        found = f"FIND Auto/Users/ByName Name {self.one_of(NAMES)}"
        return self.one_of(["PUMP 65536", found, "STALE Auto/Users/ByName", "STATS"])

    def line(self) -> str:
        self.name = self.id()
        kind = self.random.randrange(100)
        shares = [(45, self.put), (55, self.put_if), (65, self.delete), (68, self.delete_if), (73, self.bulk), (98, self.get)]
        return next((made for below, made in shares if kind < below), self.question)()
