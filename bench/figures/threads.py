"""A batch of so many documents, by the program on one processor, on two and on four.

Times are on the clock: what other processes take of these processors counts, so the machine has to be idle.
"""

import collections.abc
import itertools
import os
import shutil
import statistics

import harness
from figures import documents
from harness import Bench, Lines, script_of, stats
from raven_tools import model
from raven_tools.making.lines import bulk, definition, put_command
from report import Figure, Line, duration, ratio

MAP = "from o in docs.Orders let at = o.OrderedAt select new { o.Company, at.Year, at.Month, Total = o.Cents * o.Count }"


def sums(count: int, operands: int) -> str:
    """A map of so many sums."""
    added = " + ".join(["o.Cents", "o.Count"] * (operands // 2))
    return "from o in docs.Orders select new { " + ", ".join(f"S{at} = {added}" for at in range(count)) + " }"


# A map, what is said of it, and of how many documents the batches are.
KINDS = (
    (MAP, "", (100, 300, 1_000, 10_000, 60_000)),
    (sums(4, 24), ", by a map of 4 sums of 24", (1_000, 10_000)),
    (sums(48, 100), ", by a map of 48 sums of 100", (1_000, 10_000)),
)
PROCESSORS = (2, 4)
# An index of each round is new. So many documents are mapped at least by all rounds, of which there are so many at most.
LEAST_MAPPED, FEWEST, MOST = 20_000, 3, 50


def line_of(said: str, count: int, processors: int) -> Line:
    return Line(f"Time of a `PUMP` of {count:,} documents on {processors} processors{said}", "on 1")


LINES = tuple(line_of(said, count, number) for _, said, counts in KINDS for count in counts for number in PROCESSORS)


class Batches:
    """Indexes by one map, each made by one batch of so many documents."""

    def __init__(self, text: str, count: int, rounds: int | None = None):
        self.text, self.count = text, count
        self.rounds = rounds or min(max(LEAST_MAPPED // count, FEWEST), MOST)
        commands = map(self.command, range(1, count + 1))
        self.filling = [bulk(*some) for some in iter(lambda: list(itertools.islice(commands, documents.AT_ONCE)), [])]

    def command(self, number: int) -> str:
        metadata = '{"@collection":"Orders"}'
        date = f"{1996 + number % 3}-{1 + number % 12:02}-{1 + number % 28:02}"
        fields = f'"Cents":{number % 9_973},"Company":"companies/{number % 25}","Count":{1 + number % 9},"OrderedAt":"{date}"'
        return put_command(f"orders/{number}", f'{{{fields},"@metadata":{metadata}}}')

    def lines(self, asked: bool = False) -> tuple[Lines, list[int]]:
        """A script, and the numbers of replies before and after each batch."""
        lines, places = list(self.filling), []
        for turn in range(self.rounds):
            name = f"Orders/{turn}"
            lines.append(definition(name, self.text))
            places += [len(lines), len(lines) + 1]
            lines.append(f"PUMP {model.MAX_BATCH} {name}")
            lines += [f"QUERY from index '{name}'"] * asked
        return [*lines, "STATS"], places

    def each(self, bench: Bench, processors: list[int]) -> float:
        """What a batch takes on these processors, on the clock: of the rounds the middle one counts."""
        lines, places = self.lines()
        command = ["taskset", "-c", ",".join(map(str, processors)), bench.program, "run"]
        last = stats(self.count, self.rounds, self.count + self.rounds)
        moments = iter(harness.moments(command, script_of(lines), places, last, harness.on_clock))
        return statistics.median(after - before for before, after in zip(moments, moments))


def needed() -> list[int]:
    """The processors. Missing if they are too few, or if a program cannot be kept on some of them."""
    if not shutil.which("taskset"):
        raise harness.Missing("taskset, which keeps a program on some processors")
    found = sorted(os.sched_getaffinity(0))
    if len(found) < max(PROCESSORS):
        raise harness.Missing(f"machine of {max(PROCESSORS)} processors")
    return found


def measure(bench: Bench) -> collections.abc.Iterator[Figure]:
    found = needed()
    for text, said, counts in KINDS:
        bench.check(Batches(text, 30, rounds=2).lines(asked=True)[0])
        for count in counts:
            batches = Batches(text, bench.size(count))
            one, *more = (batches.each(bench, found[:number]) for number in (1, *PROCESSORS))
            for number, each in zip(PROCESSORS, more):
                yield Figure(line_of(said, count, number), ratio(each, one), duration(each))
