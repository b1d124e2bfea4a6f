"""A page of the rows of several maps together, beside the same page of one index that has these rows.

The parts map one collection, and each has a group for each document. So each row is made of as many groups as there are parts.
"""

import collections.abc
import itertools
import math
import statistics

import harness
from figures import documents
from harness import Bench, Lines, script_of, stats
from raven_tools import model
from raven_tools.making.lines import bulk, definition, put_command
from report import Figure, Line, duration, ratio

REDUCE = "from r in results group r by r.Company into g select new { Company = g.Key, Total = g.Sum(x => x.Total) }"
TOGETHER, ALONE = "Together", "Alone"
# So many parts of one size, and so many groups of as many parts.
PARTS, GROUPS = (2, 4, 8), (1_000, 10_000, 100_000)
MOST_PARTS, SOME_GROUPS = PARTS[-1], GROUPS[1]
PAGE = 20
# The orders in which both are asked, by what the table calls them.
ORDERS = {"": "", " in the order of a sum": " order by Total as long desc"}
# So many groups are walked over by all questions of a round.
WALKED, ROUNDS = 1_000_000, 3


def line_of(parts: int, groups: int, order: str) -> Line:
    what = f"Time of a page of {PAGE} of the rows of {parts} maps with {groups:,} groups each{order}"
    return Line(what, "of one index with the same rows")


def growth(groups: int, order: str) -> Line:
    what = f"Time for each group, of a page of {PAGE} of the rows of {MOST_PARTS} maps with {groups:,} groups each{order}"
    return Line(what, f"with {GROUPS[0]:,} groups each")


SIZES = [(parts, SOME_GROUPS) for parts in PARTS] + [(MOST_PARTS, groups) for groups in GROUPS if groups != SOME_GROUPS]
LINES = (
    *(line_of(*size, order) for size in SIZES for order in ORDERS),
    *(growth(groups, order) for groups in GROUPS[1:] for order in ORDERS),
)


class Totals:
    """Indexes of so many parts and groups, and one index with the rows that they have together."""

    def __init__(self, parts: int, groups: int):
        self.parts, self.groups = parts, groups
        maps = [f"from o in docs.Orders select new {{ o.Company, Total = o.Cents + {part} }}" for part in range(parts)]
        whole = f"from o in docs.Orders select new {{ o.Company, Total = o.Cents * {parts} + {sum(range(parts))} }}"
        several = "MULTI " + model.write_json({"Maps": maps, "Name": TOGETHER, "Reduce": REDUCE})
        commands = (put_command(f"orders/{number}", self.body(number)) for number in range(groups))
        at_once = iter(lambda: list(itertools.islice(commands, documents.AT_ONCE)), [])
        self.newest = parts + 1 + groups
        pumps = [f"PUMP {model.MAX_BATCH}"] * math.ceil(self.newest / model.MAX_BATCH)
        self.filling = [several, definition(ALONE, whole, REDUCE), *(bulk(*some) for some in at_once), *pumps]

    def body(self, number: int) -> str:
        return f'{{"Cents":{number * 7_919 % 100_003},"Company":"companies/{number:06}","@metadata":{{"@collection":"Orders"}}}}'

    def questions(self, order: str) -> tuple[str, str]:
        """Of the parts together, and of the one index."""
        words = (("MASK", TOGETHER), ("ASK", ALONE))
        return tuple(f"{word} {model.write_json({'PageSize': PAGE, 'Query': f'from index {name!r}{ORDERS[order]}'})}" for word, name in words)

    def script(self, order: str, count: int) -> tuple[Lines, list[int]]:
        """So many questions of the first kind and then of the second, in a few rounds. The numbers of replies are those at which each begins and ends."""
        lines, places = list(self.filling), []
        for question in self.questions(order) * ROUNDS:
            places += [len(lines), len(lines) + count]
            lines += [question] * count
        return [*lines, "STATS"], places

    def spent(self, bench: Bench, order: str) -> tuple[float, float]:
        """What a question of each kind takes: of the rounds the middle one counts."""
        count = max(bench.size(WALKED) // (self.parts * self.groups), 3)
        lines, places = self.script(order, count)
        script = script_of(lines)
        if len(script) > model.MAX_SCRIPT:
            raise harness.Wrong(f"a script of {len(script):,} bytes is too long")
        last = stats(self.groups, self.parts + 1, self.newest)
        moments = iter(harness.moments([bench.program, "run"], script, places, last))
        times = [after - before for before, after in zip(moments, moments)]
        together, alone = statistics.median(times[::2]), statistics.median(times[1::2])
        return together / count, alone / count


def check(bench: Bench) -> None:
    """The answers about a few rows are those of the model, and both have the same rows."""
    few = Totals(3, 40)
    for order in ORDERS:
        bench.check([*few.filling, *few.questions(order), "STATS"])
        replies = model.replies(script_of([*few.filling, *few.questions(order)])).splitlines()[-2:]
        together, alone = (model.read_json(reply)["Results"] for reply in replies)
        if together != alone or len(together) != PAGE:
            raise harness.Wrong(f"the rows are not those of one index: {together[:3]}, {alone[:3]}")


def measure(bench: Bench) -> collections.abc.Iterator[Figure]:
    check(bench)
    each = {}
    for parts, groups in SIZES:
        totals = Totals(parts, bench.size(groups))
        for order in ORDERS:
            together, alone = totals.spent(bench, order)
            each[parts, groups, order] = together / totals.groups
            yield Figure(line_of(parts, groups, order), ratio(together, alone), duration(together))
    for groups in GROUPS[1:]:
        for order in ORDERS:
            few, many = each[MOST_PARTS, GROUPS[0], order], each[MOST_PARTS, groups, order]
            yield Figure(growth(groups, order), ratio(many, few), duration(many))
