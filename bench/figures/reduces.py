"""A batch of one touched document of a reduce whose one group has more and more entries.

What a batch merges is not printed, so its time is measured, of which merging is a part. All batches of a size are in one run,
so that it is filled once.
"""

import collections.abc
import itertools
import math
import pathlib
import random
import statistics
import tempfile

import harness
from figures import documents
from harness import Bench, Lines, script_of, stats
from raven_tools import model
from raven_tools.making.lines import bulk, definition, put, put_command
from report import Figure, Line, duration, ratio

INDEX = "Orders/Totals"
MAP = "from o in docs.Orders select new { o.Company, Total = o.Cents, Low = o.Cents, High = o.Cents }"
REDUCE = (
    "from r in results group r by r.Company into g select new { Company = g.Key, "
    "Total = g.Sum(x => x.Total), Low = g.Min(x => x.Low), High = g.Max(x => x.High) }"
)
QUESTION = f"QUERY from index '{INDEX}'"
PUMP = f"PUMP {model.MAX_BATCH} {INDEX}"
SIZES = (100, 1_000, 10_000, 100_000)
TOUCHES, ROUNDS = 2_000, 3


def line_of(size: int) -> Line:
    what = f"Time of a touched document of a reduce, in batches of 1, whose one group has {size:,} entries"
    return Line(what, f"{SIZES[0]} entries")


LINES = tuple(map(line_of, SIZES[1:]))


class Group:
    """An index whose reduce has one group of so many entries. Each is written again in a few rounds of so many documents."""

    def __init__(self, count: int, touches: int):
        self.count, self.touches = count, touches
        numbers = range(1, count + 1)
        commands = (put_command(self.name_of(number), self.body(number, number)) for number in numbers)
        at_once = iter(lambda: list(itertools.islice(commands, documents.AT_ONCE)), [])
        self.filling = [definition(INDEX, MAP, REDUCE), *(bulk(*some) for some in at_once)]
        # The definition of the index takes the first etag.
        self.filled = 1 + count
        self.pumps = [PUMP] * math.ceil(self.filled / model.MAX_BATCH)

    def name_of(self, number: int) -> str:
        return f"orders/{number}"

    def body(self, number: int, cents: int) -> str:
        return f'{{"Cents":{cents},"Company":"c","@metadata":{{"@collection":"Orders"}}}}'

    def puts(self, turn: int) -> Lines:
        """They change the total, and now and then the least or the greatest."""
        chance = random.Random(turn)
        numbers = (chance.randint(1, self.count) for _ in range(self.touches))
        return [put(self.name_of(number), self.body(number, chance.randint(-self.count, 2 * self.count))) for number in numbers]

    def rounds(self, first: Lines, asked: bool = False) -> tuple[Lines, list[int]]:
        """Behind these lines, each round writes without batches, and then with one behind each document.

        The numbers of replies are those before and after the two parts of each round.
        """
        lines, places = list(first), []
        for turn in range(ROUNDS):
            without, with_them = self.puts(2 * turn), self.puts(2 * turn + 1)
            places += [len(lines), len(lines) + len(without)]
            lines += [*without, PUMP]
            places += [len(lines), len(lines) + 2 * len(with_them)]
            lines += [line for one in with_them for line in (one, PUMP)]
            lines += [QUESTION] * asked
        return [*lines, f"STALE {INDEX}"], places

    def each(self, bench: Bench, *options: str, first: Lines | None = None) -> float:
        """What a batch takes: of the rounds the middle one counts. Other lines may stand for those that fill it."""
        lines, places = self.rounds([*(self.filling if first is None else first), *self.pumps])
        script = script_of(lines)
        if len(script) > model.MAX_SCRIPT:
            raise harness.Wrong(f"a script of {len(script):,} bytes is too long")
        newest = self.filled + 2 * ROUNDS * self.touches
        last = model.write_json({"IndexEtag": newest, "IsStale": False, "Newest": newest})
        moments = iter(harness.moments([bench.program, "run", *options], script, places, last))
        rounds = zip(moments, moments, moments, moments)
        return statistics.median((d - c) - (b - a) for a, b, c, d in rounds) / self.touches

    def each_in_file(self, bench: Bench) -> float:
        """The same of a store in a file, which is filled by several runs, as no script has room for all of its documents."""
        with tempfile.TemporaryDirectory(dir=bench.folder) as folder:
            data = "--data", str(pathlib.Path(folder) / "store")
            newest = 0
            for some in parts(self.filling):
                newest += sum(line.count('"Type":"PUT"') or 1 for line in some)
                bench.run([*some, "STATS"], stats(newest - 1, 1, newest), *data)
            return self.each(bench, *data, first=[])


def parts(lines: Lines) -> collections.abc.Iterator[Lines]:
    """These lines in scripts that are short enough."""
    some, size = [], 0
    for line in lines:
        length = len(line.encode()) + 1
        if size + length > harness.ROOM:
            yield some
            some, size = [], 0
        some.append(line)
        size += length
    yield some


def group(bench: Bench, size: int) -> Group:
    return Group(bench.size(size), bench.size(TOUCHES))


def check(bench: Bench) -> None:
    """The rows of a small one are those of the model."""
    small = Group(40, 7)
    bench.check(small.rounds([*small.filling, *small.pumps], asked=True)[0])


def measure(bench: Bench) -> collections.abc.Iterator[Figure]:
    check(bench)
    few, *more = (group(bench, size).each(bench) for size in SIZES)
    for size, each in zip(SIZES[1:], more):
        yield Figure(line_of(size), ratio(each, few), duration(each))
