"""The command `measure`: the orders that a seed draws, the run that they make, and its summary."""

import collections.abc
import dataclasses
import re

from raven_tools import model
from raven_tools.model import batches, keeping, opening, slots
from raven_tools.model.asking import Ask, answer_to, read_query
from raven_tools.model.definitions import Static
from raven_tools.model.transactions import Command

INDEX = "Orders/ByCompanyMonth"
MAP = (
    "from o in docs.Orders select new { o.Company, o.OrderedAt.Year, o.OrderedAt.Month, Total = o.Cents, Count = 1 }"
)
REDUCE = (
    "from r in results group r by new { r.Company, r.Year, r.Month } into g select new { g.Key.Company, g.Key.Year, "
    "g.Key.Month, Total = g.Sum(x => x.Total), Count = g.Sum(x => x.Count) }"
)
# Each option with its default and its greatest value; the least is 1.
OPTIONS = {"--seed": (1, 2_147_483_646), "--docs": (2_000, 200_000), "--batch": (1_024, 65_536)}
NUMBER = re.compile(r"[0-9]{1,10}", re.ASCII)


@dataclasses.dataclass(frozen=True)
class Options:
    seed: int = 1
    docs: int = 2_000
    batch: int = 1_024


def value_of(text: str, most: int) -> int | None:
    """The number from 1 to the greatest that is allowed, or None."""
    number = int(text) if NUMBER.fullmatch(text) else 0
    return number if 1 <= number <= most else None


def options(arguments: tuple[str, ...]) -> Options | None:
    """The options behind the command, or None if they are not pairs of a name and a number, no name twice."""
    names, texts = arguments[0::2], arguments[1::2]
    if len(names) != len(texts) or len(set(names)) < len(names) or not OPTIONS.keys() >= set(names):
        return None
    values = {name: default for name, (default, _) in OPTIONS.items()}
    values |= {name: value_of(text, OPTIONS[name][1]) for name, text in zip(names, texts)}
    return None if None in values.values() else Options(*values.values())


# The orders


def draws(seed: int) -> collections.abc.Iterator[int]:
    while True:
        seed = seed * 48_271 % 2_147_483_647
        yield seed


def orders(options: Options) -> collections.abc.Iterator[dict]:
    """The documents, each of three draws."""
    drawn = draws(options.seed)
    for a, b, c, _ in zip(drawn, drawn, drawn, range(options.docs)):
        year, month, day = 1996 + b % 3, 1 + b // 3 % 12, 1 + b // 36 % 28
        yield {
            "@metadata": {"@collection": "Orders"},
            "Company": f"companies/{1 + a % 25}",
            "OrderedAt": f"{year}-{month:02}-{day:02}T00:00:00.0000000",
            "Cents": 1 + c % 100_000,
        }


def summed(options: Options) -> dict:
    """Members of the summary that hang on the draws alone: the orders that are left, in groups."""
    left = dict(enumerate(orders(options), 1))
    for number in range(10, options.docs + 1, 10):
        del left[number - 5]
    groups = {(order["Company"], order["OrderedAt"][:7]) for order in left.values()}
    return {"Docs": len(left), "Groups": len(groups), "Total": sum(order["Cents"] for order in left.values())}


# The run


@dataclasses.dataclass
class Run:
    database: model.Database
    options: Options
    batches: int = 0

    def pump(self) -> bool:
        """One batch. Whether it moved the etag of the index."""
        (moved,) = batches.pump(self.database, self.options.batch, INDEX)["Pumped"]
        self.batches += moved["From"] != moved["To"]
        return moved["From"] != moved["To"]

    def put_all(self) -> None:
        for number, order in enumerate(orders(self.options), 1):
            self.database.write(Command(f"orders/{number}", None, order))
            if number % 10 == 0:
                self.database.write(Command(f"orders/{number - 5}", None))
            if number % 100 == 0:
                self.pump()

    def summary(self) -> dict:
        slots.define(self.database, INDEX, Static(MAP, REDUCE))
        self.put_all()
        while self.pump():
            pass
        live = [row for row in self.database.store.rows.values() if row.is_document() and row.collection == "Orders"]
        rows = answer_to(self.database, Ask(read_query(f"from index '{INDEX}'")))
        return {
            "Batches": self.batches,
            "Docs": len(live),
            "Groups": rows["TotalResults"],
            "IsStale": rows["IsStale"],
            "Total": sum(row["Total"] for row in rows["Results"]),
        }


def measure(
    arguments: tuple[str, ...], keeper: keeping.Keeper, moment: int = 0, is_written: bool = True
) -> tuple[str, bytes]:
    """The status, and what was written, with the options that follow the command. Only a keeper that fails refuses a request."""
    found = options(arguments)
    if found is None:
        return "Usage", b""
    try:
        database = opening.opened(keeper)
    except keeping.Failed:
        return "KeptFault", b""
    except keeping.KeptBad as bad:
        return f"KeptBad {bad.etag}", b""
    if database.store.last:
        return f"NotEmpty {database.store.last}", b""
    database.store.now = moment
    try:
        summary = Run(database, found).summary()
    except model.Refused:
        return "KeptFault", b""
    return ("Done", (model.write_json(summary) + "\n").encode()) if is_written else ("WriteFault", b"")
