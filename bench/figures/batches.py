"""The batches of an index whose map loads other documents: a touched document of a large index, relative to one of a small."""

import collections.abc
import math
import random

import harness
from figures import documents
from harness import Bench, Lines
from raven_tools import model
from raven_tools.making.lines import bulk, definition, put_command
from report import Aim, Figure, Line, duration, ratio

INDEX = "Orders/ByCompany"
MAP = 'from o in docs.Orders let c = LoadDocument(o.Company, "Companies") select new { o.Number, Company = c.Name, c.City }'
PUMP = f"PUMP {model.MAX_BATCH} {INDEX}"
# Of the companies that are not written again each is loaded by so many orders.
EACH = 10
SMALL, LARGE = 1_000, 30_000
TOUCHED = (1, 64, 1_024)
LOADING, AMONG = 2_000, 20_000


def touched_line(touched: int) -> Line:
    what = f"Time of a touched document in batches of {touched:,}, of 30,000 that load others"
    # An index of 1,000 has no 1,024 to touch.
    return Line(what, "of 1,000" if touched <= SMALL else "of 1,000, all of them", Aim("at most", 2))


LOADED = Line("Time of a batch of the 2,000 of 20,000 that load the document written", "of 2,000")
LINES = (*map(touched_line, TOUCHED), LOADED)


def order(number: int, company: int, turn: int = 0) -> str:
    metadata = '{"@collection":"Orders"}'
    return f'{{"Number":"n{number}-{turn}","Company":"companies/{company}","Cents":{number},"@metadata":{metadata}}}'


def company(number: int, turn: int = 0) -> str:
    return f'{{"Name":"Company {number}-{turn}","City":"City {number % 100}","@metadata":{{"@collection":"Companies"}}}}'


class Orders:
    """An index of so many orders, each of which loads a company."""

    written = 1  # how many etags a round takes

    def __init__(self, count: int, touched: int):
        self.count, self.touched = count, min(touched, count)
        self.companies = max(self.company_of(number) for number in range(1, count + 1))
        commands = [put_command(f"companies/{number}", company(number)) for number in range(1, self.companies + 1)]
        commands += [put_command(f"orders/{number}", order(number, self.company_of(number))) for number in range(1, count + 1)]
        at_once = documents.AT_ONCE
        filling = [bulk(*commands[first : first + at_once]) for first in range(0, len(commands), at_once)]
        # The definition of the index takes the first etag.
        self.filled = 1 + len(commands)
        pumps = [f"PUMP {model.MAX_BATCH}"] * math.ceil(self.filled / model.MAX_BATCH)
        self.first = [definition(INDEX, MAP), *filling, *pumps]

    def lines(self, rounds: int, pumped: bool, asked: bool = False) -> Lines:
        lines = list(self.first)
        for turn in range(1, rounds + 1):
            lines += [self.round(turn), *[PUMP] * pumped, *(self.questions(turn) if asked else [])]
        return [*lines, f"STALE {INDEX}"]

    def last_reply(self, rounds: int, pumped: bool) -> str:
        newest = self.filled + rounds * self.written
        come = newest if pumped else self.filled
        return model.write_json({"IndexEtag": come, "IsStale": come < newest, "Newest": newest})

    def batch(self, bench: Bench) -> float:
        """What the batch of a round takes: of rounds with their `PUMP`s, less the same without."""

        def spent(rounds: int, pumped: bool) -> float:
            return bench.run(self.lines(rounds, pumped), self.last_reply(rounds, pumped)).cpu

        start = max(1, 4_000 // self.touched)
        most = harness.most_of(self.first, f"{self.round(10**7)} {PUMP}")
        return bench.each(lambda rounds: spent(rounds, True), lambda rounds: spent(rounds, False), start, most, varies=True)


class WrittenOrders(Orders):
    """Each round writes so many of the orders again, which load the same company as before."""

    def __init__(self, count: int, touched: int):
        super().__init__(count, touched)
        self.written = self.touched

    def company_of(self, number: int) -> int:
        return 1 + (number - 1) // EACH

    def chosen(self, turn: int) -> list[int]:
        return random.Random(turn).sample(range(1, self.count + 1), self.touched)

    def round(self, turn: int) -> str:
        numbers = self.chosen(turn)
        return bulk(*(put_command(f"orders/{number}", order(number, self.company_of(number), turn)) for number in numbers))

    def questions(self, turn: int) -> Lines:
        number = self.chosen(turn)[0]
        return [f"FIND {INDEX} Number n{number}-{turn}", f"FIND {INDEX} Company Company {self.company_of(number)}-0"]


class WrittenCompany(Orders):
    """Each round writes one company again, which so many of the orders load."""

    def company_of(self, number: int) -> int:
        return 1 if number <= self.touched else 2 + (number - self.touched - 1) // EACH

    def round(self, turn: int) -> str:
        return f"PUT companies/1 {company(1, turn)}"

    def questions(self, turn: int) -> Lines:
        return [f"FIND {INDEX} Company Company 1-{turn}", f"FIND {INDEX} Company Company 1-{turn - 1}"]


def measure(bench: Bench) -> collections.abc.Iterator[Figure]:
    for orders in (WrittenOrders(100, 7), WrittenCompany(100, 20)):
        bench.check(orders.lines(3, pumped=True, asked=True))
    for touched in TOUCHED:
        small, large = (WrittenOrders(bench.size(count), touched) for count in (SMALL, LARGE))
        of_small, of_large = (orders.batch(bench) / orders.touched for orders in (small, large))
        yield Figure(touched_line(touched), ratio(of_large, of_small), duration(of_large))
    few, many = (WrittenCompany(bench.size(count), bench.size(LOADING)).batch(bench) for count in (LOADING, AMONG))
    yield Figure(LOADED, ratio(many, few), duration(many))
