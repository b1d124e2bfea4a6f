"""FIND of one document among more and more."""

import collections.abc
import itertools
import math

import harness
from figures import documents
from harness import Bench, Lines
from raven_tools import model
from raven_tools.making.lines import bulk, put_command
from report import Figure, Line, duration, ratio

FEW, MORE, MANY = 1_000, 10_000, 40_000
INDEX = "Auto/Users/ByName"
BESIDE_GET = Line("Time of a `FIND` of one among 1,000", "a `GET` of one")
GROWTH = {count: Line(f"Time of a `FIND` of one among {count:,}", "among 1,000") for count in (MORE, MANY)}
LINES = (BESIDE_GET, *GROWTH.values())


def user(number: int) -> str:
    return put_command(documents.name_of(number), f'{{"Name":"name {number}","@metadata":{{"@collection":"Users"}}}}')


class Named:
    """An automatic index of so many users, each of its own name."""

    def __init__(self, users: int):
        self.users, at_once = users, documents.AT_ONCE
        rows = [bulk(*map(user, range(first, min(first + at_once, users)))) for first in range(0, users, at_once)]
        # The definition of the index takes an etag too.
        self.newest = users + 1
        pumps = [f"PUMP {model.MAX_BATCH}"] * math.ceil(self.newest / model.MAX_BATCH)
        self.first = ["AUTO Users Name", *rows, *pumps]

    def lines(self, asked: collections.abc.Callable[[int], str], count: int) -> Lines:
        numbers = ((turn * 7_919) % self.users for turn in itertools.count(1))
        return [*self.first, *(asked(number) for number in itertools.islice(numbers, count)), f"STALE {INDEX}"]

    def each(self, bench: Bench, asked: collections.abc.Callable[[int], str]) -> float:
        def spent(count: int) -> float:
            last = model.write_json({"IndexEtag": self.newest, "IsStale": False, "Newest": self.newest})
            return bench.run(self.lines(asked, count), last).cpu

        return bench.each(spent, lambda _: spent(0), 20, harness.most_of(self.first, asked(self.users)))


def find(number: int) -> str:
    return f"FIND {INDEX} Name name {number}"


def get(number: int) -> str:
    return f"GET {documents.name_of(number)}"


def measure(bench: Bench) -> collections.abc.Iterator[Figure]:
    bench.check(Named(60).lines(find, 9))
    few, more, many = (Named(bench.size(count)) for count in (FEW, MORE, MANY))
    base = few.each(bench, find)
    yield Figure(BESIDE_GET, ratio(base, few.each(bench, get)), duration(base))
    for count, named in ((MORE, more), (MANY, many)):
        each = named.each(bench, find)
        yield Figure(GROWTH[count], ratio(each, base), duration(each))
