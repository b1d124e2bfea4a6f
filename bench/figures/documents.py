"""Documents of a given size, and the lines that write and read them."""

import collections.abc
import functools
import random

from harness import Lines
from raven_tools import model
from raven_tools.making.lines import bulk, get, put, put_command

NAMES = ["Ada", "Alan", "Barbara", "Donald", "Edsger", "Frances", "Grace", "John", "Margaret", "Niklaus"]
SMALL = 60
# So many commands has a BULK that fills a store, and one that is measured.
AT_ONCE = 500
BULK = 100


def name_of(number: int) -> str:
    return f"users/{number}"


def stored(number: int, size: int, turn: int = 0) -> dict:
    """A document whose text has so many bytes as it is stored, without what the server adds: an object of three texts and a
    number, with a list of objects if it is larger, and one text that fills it up."""
    person = number + turn
    document: dict = {"@metadata": {}, "Age": 20 + person % 60, "City": "", "Name": NAMES[person % len(NAMES)]}
    if size > 500:
        product = {"Name": "A product", "Product": f"products/{number % 77:02}"}
        item = {"Cents": 1_000 + number % 9_000, "Count": 1 + number % 9, **product}
        each = len(model.write_json(item)) + 1
        document["Items"] = [item] * ((size - 150) // each)
    document["City"] = "x" * (size - len(model.write_json(document)))
    return document


def body(number: int, size: int = SMALL, turn: int = 0) -> str:
    return model.write_json(stored(number, size, turn) | {"@metadata": {"@collection": "Users"}})


def puts(numbers: collections.abc.Iterable[int], size: int = SMALL, turn: int = 0) -> str:
    """A BULK that writes these documents."""
    return bulk(*(put_command(name_of(number), body(number, size, turn)) for number in numbers))


def filling(count: int, size: int = SMALL, at_once: int = AT_ONCE) -> Lines:
    return [puts(range(first, min(first + at_once, count)), size) for first in range(0, count, at_once)]


# So many operations on documents that are there, out of so many: the same ones each time. Nobody changes these lists.


@functools.lru_cache(4)
def put_lines(count: int, documents: int) -> Lines:
    chance = random.Random(documents)
    return [put(name_of(number := chance.randrange(documents)), body(number, turn=turn)) for turn in range(1, count + 1)]


@functools.lru_cache(4)
def get_lines(count: int, documents: int) -> Lines:
    chance = random.Random(documents)
    return [get(name_of(chance.randrange(documents))) for _ in range(count)]


@functools.lru_cache(4)
def bulk_lines(count: int, documents: int) -> Lines:
    chance = random.Random(documents)
    each = min(BULK, documents)
    return [puts(chance.sample(range(documents), each), turn=turn) for turn in range(1, count + 1)]
