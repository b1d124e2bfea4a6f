"""`raven measure`, which puts orders and keeps their totals by an index, beside PostgreSQL, where a trigger keeps them.

The totals of both are compared with those that the draws come to, so both did the same work.
"""

import collections.abc
import pathlib
import statistics
import subprocess

import draws
import harness
import postgres
from harness import Bench, Lines
from raven_tools import model
from report import Aim, Figure, Line, duration, ratio

SIZES = (2_000, 20_000, 200_000)
SEED = 1
TABLES = (pathlib.Path(__file__).resolve().parents[1] / "totals.sql").read_text().splitlines()
ROWS = "select company, year, month, total, count from totals;"
# How PostgreSQL is given the orders, and what does it.
WAYS = {
    "by `psql`": lambda count: statements(count),
    "by a procedure": lambda count: [f"call fill({SEED}, {count});"],
}


def rate_line(size: int, way: str) -> Line:
    beside = f"PostgreSQL {postgres.VERSION}, {way}"
    return Line(f"Orders a second by `raven measure --docs {size}`", beside, Aim("at least", 3))


GROWTH = Line(f"Time of an order by `raven measure --docs {SIZES[-1]}`", f"by `--docs {SIZES[0]}`", Aim("at most", 1.6))
LINES = (*(rate_line(size, way) for size in SIZES for way in WAYS), GROWTH)


def statements(count: int) -> Lines:
    """Each is a transaction, as each line of a script is."""
    found = []
    for order in draws.orders(SEED, count):
        found.append(f"execute put('{draws.name_of(order.number)}', '{model.write_json(order.body())}');")
        if gone := draws.deleted_after(order.number):
            found.append(f"execute del('{draws.name_of(gone)}');")
    return found


def by_program(bench: Bench, count: int) -> float:
    """What it takes, in all."""
    taken = harness.run([bench.program, "measure", "--seed", str(SEED), "--docs", str(count)], b"")
    harness.check_counts(taken.output, 1, draws.summary(SEED, count))
    return taken.cpu


def by_server(server: postgres.Server, count: int, way: str) -> float:
    """What it takes, without making the tables."""
    empty, rows = server.spent([*TABLES, ROWS])
    if rows:
        raise harness.Wrong(f"empty tables have {rows}")
    filled, rows = server.spent([*TABLES, *WAYS[way](count), ROWS])
    found = {}
    for company, year, month, total, number in (row.split("\t") for row in rows):
        found[company, int(year), int(month)] = int(total), int(number)
    if found != draws.totals(SEED, count):
        raise harness.Wrong(f"PostgreSQL has other totals of {count:,} orders, {way}")
    return filled - empty


def needed(bench: Bench) -> None:
    """Missing if the program has no such command."""
    words = [bench.program, "measure", "--docs", "1"]
    if subprocess.run(words, stdin=subprocess.DEVNULL, capture_output=True).returncode == 2:
        raise harness.Missing("command `measure` of the program")


def measure(bench: Bench) -> collections.abc.Iterator[Figure]:
    needed(bench)
    bench.check(draws.lines(SEED, 250))
    each = {}
    with postgres.Server(*postgres.WITHOUT_DISK) as server:
        for size in SIZES:
            count = bench.size(size)
            # Of a large size one run of each is long enough.
            rounds = bench.repeat if size < SIZES[-1] else 1
            turns = [(by_program(bench, count), *(by_server(server, count, way) for way in WAYS)) for _ in range(rounds)]
            each[size], *beside = (statistics.median(times) / count for times in zip(*turns))
            for way, other in zip(WAYS, beside):
                yield Figure(rate_line(size, way), ratio(other, each[size]), f"{duration(each[size])} an order")
    few, many = each[SIZES[0]], each[SIZES[-1]]
    yield Figure(GROWTH, ratio(many, few), duration(many))
