"""The orders that `raven measure` draws, and what they come to. It is written from the rules of the command, and not from the program."""

import collections
import collections.abc
import dataclasses
import itertools

from harness import Lines
from raven_tools import model
from raven_tools.making.lines import definition, delete, put

INDEX = "Orders/ByCompanyMonth"
MAP = "from o in docs.Orders select new { o.Company, o.OrderedAt.Year, o.OrderedAt.Month, Total = o.Cents, Count = 1 }"
REDUCE = (
    "from r in results group r by new { r.Company, r.Year, r.Month } into g select new "
    "{ g.Key.Company, g.Key.Year, g.Key.Month, Total = g.Sum(x => x.Total), Count = g.Sum(x => x.Count) }"
)
FACTOR, MODULUS = 48_271, 2_147_483_647
# Each order of a number that this divides is followed by a deletion, of the order so many numbers before.
EACH, BEFORE = 10, 5
# So many orders are put between two batches.
BATCH = 100
# The total and the count of each company, year and month.
Totals = dict[tuple[str, int, int], tuple[int, int]]


@dataclasses.dataclass(frozen=True)
class Order:
    number: int
    company: str
    cents: int
    year: int
    month: int
    day: int

    def body(self) -> dict:
        ordered_at = f"{self.year}-{self.month:02}-{self.day:02}T00:00:00.0000000"
        return {"Cents": self.cents, "Company": self.company, "OrderedAt": ordered_at}


def name_of(number: int) -> str:
    return f"orders/{number}"


def draws(seed: int) -> collections.abc.Iterator[int]:
    while True:
        seed = seed * FACTOR % MODULUS
        yield seed


def orders(seed: int, count: int) -> collections.abc.Iterator[Order]:
    drawn = draws(seed)
    for number in range(1, count + 1):
        a, b, c = itertools.islice(drawn, 3)
        date = 1996 + b % 3, 1 + b // 3 % 12, 1 + b // 36 % 28
        yield Order(number, f"companies/{1 + a % 25}", 1 + c % 100_000, *date)


def deleted_after(number: int) -> int | None:
    """The order that is deleted once the one of this number is put."""
    return None if number % EACH else number - BEFORE


def totals(seed: int, count: int) -> Totals:
    gone = set(map(deleted_after, range(1, count + 1)))
    found: Totals = collections.defaultdict(lambda: (0, 0))
    for order in orders(seed, count):
        if order.number not in gone:
            key = order.company, order.year, order.month
            total, number = found[key]
            found[key] = total + order.cents, number + 1
    return dict(found)


def summary(seed: int, count: int) -> str:
    """The line that `raven measure` has to write, if each batch has room for all that there is to do."""
    found = totals(seed, count).values()
    of_rows = {"Docs": sum(number for _, number in found), "Groups": len(found), "Total": sum(total for total, _ in found)}
    return model.write_json({**of_rows, "Batches": -(-count // BATCH), "IsStale": False})


def lines(seed: int, count: int) -> Lines:
    """What does the same in a script, and then asks for the rows."""
    found = [definition(INDEX, MAP, REDUCE)]
    for order in orders(seed, count):
        body = {**order.body(), "@metadata": {"@collection": "Orders"}}
        found.append(put(name_of(order.number), model.write_json(body)))
        if gone := deleted_after(order.number):
            found.append(delete(name_of(gone)))
        if order.number % BATCH == 0:
            found.append(f"PUMP {model.MAX_BATCH}")
    return [*found, f"PUMP {model.MAX_BATCH}", f"QUERY from index '{INDEX}'"]
