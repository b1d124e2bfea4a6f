"""What has little to do beside many rows of other collections: a batch without anything to do, a count, a page of a small collection.

It is counted in instructions: on the clock it is less than what other work on the machine changes.
"""

import collections.abc
import concurrent.futures

from figures import documents, instructions
from harness import Bench, Lines, script_of
from raven_tools import model
from raven_tools.making.lines import ask, bulk, definition, put_command
from report import Aim, Figure, Line, ratio

INDEX = "Users/ByName"
MAP = "from u in docs.Users select new { u.Name }"
PUMP = f"PUMP {model.MAX_BATCH} {INDEX}"
USERS, TIMES = 10, 300
FEW, MANY = 1_000, 100_000


def beside(what: str) -> Line:
    return Line(f"Instructions of {what}, beside 100,000 rows of others", "beside 1,000", Aim("at most", 2))


COMMANDS = {
    beside("a `PUMP` without anything to do"): PUMP,
    beside("a `STATS`"): "STATS",
    beside(f"a query for a whole collection of {USERS}"): ask("from Users", PageSize=20),
}
LINES = tuple(COMMANDS)


def order(number: int) -> str:
    return put_command(f"orders/{number}", f'{{"Number":{number},"@metadata":{{"@collection":"Orders"}}}}')


class Idle:
    """An index of a few users that has all of them, and then rows of orders."""

    def __init__(self, orders: int):
        at_once = documents.AT_ONCE
        rows = [bulk(*map(order, range(first, min(first + at_once, orders)))) for first in range(0, orders, at_once)]
        self.first = [definition(INDEX, MAP), documents.puts(range(USERS)), PUMP, *rows]

    def lines(self, command: str, times: int) -> Lines:
        return [*self.first, *[command] * times, f"STALE {INDEX}"]


def measure(bench: Bench) -> collections.abc.Iterator[Figure]:
    instructions.needed()
    for command in COMMANDS.values():
        bench.check(Idle(50).lines(command, 3))
    # The definition of the index takes the first etag; rows of others do not count.
    last = model.write_json({"IndexEtag": 1 + USERS, "IsStale": False, "Newest": 1 + USERS})
    kinds = [(PUMP, 0), *((command, TIMES) for command in COMMANDS.values())]
    sizes = [Idle(bench.size(orders)) for orders in (FEW, MANY)]
    runs = [script_of(size.lines(command, times)) for size in sizes for command, times in kinds]
    with concurrent.futures.ThreadPoolExecutor(max_workers=4) as threads:
        counts = threads.map(lambda script: instructions.counted([bench.program, "run"], script, last), runs)
        few, many = ([count - base for count in some] for base, *some in zip(*[iter(counts)] * len(kinds)))
    for line, before, after in zip(COMMANDS, few, many):
        yield Figure(line, ratio(after, before), f"{after / TIMES:,.0f}")
