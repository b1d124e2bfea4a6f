"""Queries of an index and of a whole collection, beside PostgreSQL with an index on an expression of each field.

All queries of the program are in one run, so that it is filled once. Each kind is asked in several rounds, one after the other.
"""

import collections.abc
import dataclasses
import itertools
import math
import statistics

import harness
import postgres
from figures import documents
from harness import Bench, Lines, script_of
from raven_tools import model
from raven_tools.making.lines import ask, bulk, definition, put_command
from report import Aim, Figure, Line, duration, ratio

DOCUMENTS, PAGE, ROUNDS = 100_000, 20, 3
INDEX = "Users/All"
FIELDS = ["Amount", "Hundred", "Many", "Name", "One"]
MAP = "from u in docs.Users select new { " + ", ".join(f"u.{field}" for field in FIELDS) + " }"
BESIDE = f"PostgreSQL {postgres.VERSION}"
WITH_TOTAL = f"{BESIDE}, for page and total"
AT_MOST_ITS, AT_MOST_TWICE = Aim("at most", 1), Aim("at most", 2)
# So many queries of a kind are asked at most in a round, and so many to see how long they take.
MOST, FIRST = 10_000, 5
Values = collections.abc.Callable[[int], int]


@dataclasses.dataclass(frozen=True)
class Kind:
    """A question in both languages. `{n}` is a number from 0 on that is less than `values`, or is drawn in the middle of them."""

    line: Line
    query: str
    sql: str
    values: Values  # of so many documents
    with_total: Line | None = None  # the same query, beside PostgreSQL asked for the total too; None if there is no page
    is_ordered: bool = False
    is_from_middle: bool = False

    @property
    def has_page(self) -> bool:
        return self.with_total is not None

    def numbers(self, users: int) -> collections.abc.Iterator[int]:
        values = self.values(users)
        for turn in itertools.count(1):
            number = (turn * 7_919) % values
            yield values * 2 // 5 + number // 5 if self.is_from_middle else number

    def lines(self, users: int, count: int) -> Lines:
        """Of the program."""
        texts = [self.query.replace("{n}", str(number)) for number in itertools.islice(self.numbers(users), count)]
        return [ask(text, PageSize=PAGE) if self.has_page else f"QUERY {text}" for text in texts]

    def conditions(self, users: int, count: int) -> collections.abc.Iterator[str]:
        return (self.sql.replace("{n}", str(number)) for number in itertools.islice(self.numbers(users), count))

    def statements(self, users: int, count: int) -> Lines:
        """Of PostgreSQL."""
        end = f" limit {PAGE};" if self.has_page else ";"
        return [f"select id, doc from users {condition}{end}" for condition in self.conditions(users, count)]

    def totals(self, users: int, count: int) -> Lines:
        """What PostgreSQL is asked for the totals."""
        wheres = (condition.partition("order by")[0] for condition in self.conditions(users, count))
        return [f"select count(*) from users {where.strip()};" for where in wheres]

    def with_totals(self, users: int, count: int) -> Lines:
        """Each statement, and the total after it."""
        return [line for pair in zip(self.statements(users, count), self.totals(users, count)) for line in pair]


def number_of(field: str) -> str:
    return f"(doc->>'{field}')::bigint"


def equal(count: int, field: str, values: Values) -> Kind:
    line = Line(f"Time of a query for the {count:,} of 100,000 documents that have a value", BESIDE, AT_MOST_ITS)
    return Kind(line, f"from index '{INDEX}' where {field} = {{n}}", f"where {number_of(field)} = {{n}}", values)


def paged(what: str, query: str, sql: str, values: Values = lambda users: users, **more: bool) -> Kind:
    title = f"Time of a query for a page of {PAGE} of {what}"
    return Kind(Line(title, BESIDE, AT_MOST_TWICE), query, sql, values, Line(title, WITH_TOTAL, AT_MOST_ITS), **more)


RANGE = f"from index '{INDEX}' where Amount >= {{n}}"
SQL_RANGE = f"where {number_of('Amount')} >= {{n}}"
BOUNDS = f"{RANGE} and Amount < 95000"
SQL_BOUNDS = f"{SQL_RANGE} and {number_of('Amount')} < 95000"
KINDS = (
    equal(1, "One", lambda users: users),
    equal(100, "Hundred", lambda users: max(users // 100, 1)),
    equal(10_000, "Many", lambda users: 10),
    paged("the half of 100,000 documents in a range", RANGE, SQL_RANGE, is_from_middle=True),
    paged(
        "the same, in the order of the range",
        f"{RANGE} order by Amount as long",
        f"{SQL_RANGE} order by {number_of('Amount')}",
        is_from_middle=True,
        is_ordered=True,
    ),
    paged("the half between two bounds", BOUNDS, SQL_BOUNDS, is_from_middle=True),
    paged(
        "the same, in the order of the bounds",
        f"{BOUNDS} order by Amount as long desc",
        f"{SQL_BOUNDS} order by {number_of('Amount')} desc",
        is_from_middle=True,
        is_ordered=True,
    ),
    paged(
        "the 30,000 that have one of three values",
        f"from index '{INDEX}' where Many in (7, 8, {{n}})",
        f"where {number_of('Many')} in (7, 8, {{n}})",
        values=lambda users: 7,
    ),
    paged(
        "the 1,111 whose name begins with a text",
        f"from index '{INDEX}' where startsWith(Name, 'n1{{n}}')",
        "where doc->>'Name' like 'n1{n}%'",
        values=lambda users: 10,
    ),
    paged(
        "the 90,000 that have another value",
        f"from index '{INDEX}' where not Many = {{n}}",
        f"where not {number_of('Many')} = {{n}}",
        values=lambda users: 10,
    ),
    paged("a whole collection of 100,000", "from Users", "order by id", is_ordered=True),
)
LINES = tuple(line for kind in KINDS for line in (kind.line, kind.with_total) if line)


class Users:
    """So many documents of five fields, and an index of all of them."""

    def __init__(self, count: int):
        self.count = count
        numbers = range(count)
        rows = [bulk(*map(self.put, numbers[first : first + documents.AT_ONCE])) for first in range(0, count, documents.AT_ONCE)]
        # The definition of the index takes an etag too.
        pumps = [f"PUMP {model.MAX_BATCH}"] * math.ceil((count + 1) / model.MAX_BATCH)
        self.first = [definition(INDEX, MAP), *rows, *pumps]

    def body(self, number: int) -> dict:
        """The amounts are those of another order than the ids."""
        amount = (number * 7_919) % self.count
        groups = max(self.count // 100, 1)
        return {"Amount": amount, "Hundred": number % groups, "Many": number % 10, "Name": f"n{number}", "One": number}

    def put(self, number: int) -> str:
        body = {**self.body(number), "@metadata": {"@collection": "Users"}}
        return put_command(documents.name_of(number), model.write_json(body))

    def table(self) -> Lines:
        """The same rows in PostgreSQL."""
        rows = [f"{documents.name_of(number)}\t{model.write_json(self.body(number))}" for number in range(self.count)]
        indexes = [f"create index on users (({number_of(field)}));" for field in FIELDS if field != "Name"]
        indexes.append("create index on users ((doc->>'Name'));")
        made = ["drop table if exists users;", 'create table users (id text collate "C" primary key, doc jsonb not null);']
        return [*made, "copy users from stdin;", *rows, "\\.", *indexes, "vacuum analyze users;"]

    def lines(self, counts: dict[Kind, int], rounds: int) -> tuple[Lines, list[int]]:
        """A script, and the numbers of replies with which each kind ends in each round, from the one before the first."""
        lines, places = list(self.first), [len(self.first)]
        for kind, count in [*counts.items()] * rounds:
            lines += kind.lines(self.count, count)
            places.append(len(lines))
        return [*lines, f"STALE {INDEX}"], places

    def spent(self, bench: Bench, counts: dict[Kind, int], rounds: int) -> dict[Kind, float]:
        """What a query of each kind takes: of the rounds the middle one counts."""
        lines, places = self.lines(counts, rounds)
        script = script_of(lines)
        if len(script) > model.MAX_SCRIPT:
            raise harness.Wrong(f"a script of {len(script):,} bytes is too long")
        last = model.write_json({"IndexEtag": self.count + 1, "IsStale": False, "Newest": self.count + 1})
        moments = harness.moments([bench.program, "run"], script, places, last)
        times = [behind - before for before, behind in itertools.pairwise(moments)]
        return {
            kind: statistics.median(times[at :: len(counts)]) / count for at, (kind, count) in enumerate(counts.items())
        }

    def times(self, bench: Bench) -> dict[Kind, float]:
        """Each kind is asked so often that it takes long enough, as far as the script has room."""
        first = self.spent(bench, dict.fromkeys(KINDS, FIRST), 1)
        wanted = {kind: min(math.ceil(bench.least / bench.part / max(first[kind], 1e-6)), MOST) for kind in KINDS}
        return self.spent(bench, self.shared(wanted), ROUNDS)

    def shared(self, wanted: dict[Kind, int]) -> dict[Kind, int]:
        """So many of each kind, or as many as its share of the room allows. What one does not need is left for the others."""
        room = (harness.ROOM - len(script_of(self.first))) // ROUNDS
        sizes = {kind: len(script_of(kind.lines(self.count, 1))) + 10 for kind in wanted}
        counts = {}
        for left, kind in zip(range(len(wanted), 0, -1), sorted(wanted, key=lambda kind: wanted[kind] * sizes[kind])):
            counts[kind] = max(1, min(wanted[kind], room // left // sizes[kind]))
            room -= counts[kind] * sizes[kind]
        return counts


def check(bench: Bench, server: postgres.Server) -> None:
    """The program answers as the model does, and PostgreSQL finds the same documents: as many, if it may choose them itself."""
    users = Users(300)
    lines, places = users.lines(dict.fromkeys(KINDS, 3), 1)
    bench.check(lines)
    replies = [model.read_json(reply) for reply in model.replies(script_of(lines)).split(b"\n")[:-1]]
    server.run(users.table())
    for kind, place in zip(KINDS, places):
        totals = server.run(kind.totals(users.count, 3)).output.decode().split()
        if totals != [str(reply["TotalResults"]) for reply in replies[place : place + 3]]:
            raise harness.Wrong(f"PostgreSQL counts {totals}: {kind.totals(users.count, 3)}")
        for statement, reply in zip(kind.statements(users.count, 3), replies[place:]):
            rows = server.run([statement]).output.decode().splitlines()
            found = [row.split("\t")[0] for row in rows]
            ids = [result["@metadata"]["@id"] for result in reply["Results"]]
            is_same = found == ids if kind.is_ordered else len(found) == len(ids) if kind.has_page else sorted(found) == sorted(ids)
            if not is_same or not ids:
                raise harness.Wrong(f"PostgreSQL finds {found} and the model {ids}: {statement}")


def measure(bench: Bench) -> collections.abc.Iterator[Figure]:
    with postgres.Server() as server:
        check(bench, server)
        users = Users(bench.size(DOCUMENTS))
        server.run(users.table())
        times = users.times(bench)
        for kind in KINDS:
            beside = server.each(bench, lambda count: kind.statements(users.count, count), 20_000)
            yield Figure(kind.line, ratio(times[kind], beside), duration(times[kind]))
            if kind.with_total:
                beside = server.each(bench, lambda count: kind.with_totals(users.count, count), 20_000)
                yield Figure(kind.with_total, ratio(times[kind], beside), duration(times[kind]))
