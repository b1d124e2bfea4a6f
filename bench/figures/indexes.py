"""The memory of an index, relative to the texts of its fields."""

import collections.abc

import harness
from figures import queries
from harness import Bench
from raven_tools import model
from report import Aim, Figure, Line

DOCUMENTS, CHECKED = 100_000, 60
LINE = Line("Memory of a document in an index of five fields, of 100,000", "the texts of its fields", Aim("at most", 4))
LINES = (LINE,)


def text_bytes(users: queries.Users) -> int:
    """How long the texts of all fields are together."""
    return sum(len(str(value)) for number in range(users.count) for value in users.body(number).values())


def stale_reply(users: queries.Users, come: int) -> str:
    newest = users.count + 1
    return model.write_json({"IndexEtag": come, "IsStale": come < newest, "Newest": newest})


def in_memory(bench: Bench, users: queries.Users) -> float:
    """The peak of a run that makes all batches, less that of a run that makes none, for each document."""
    asked = f"STALE {queries.INDEX}"
    made = bench.run([*users.first, asked], stale_reply(users, users.count + 1))
    idle = [line for line in users.first if not line.startswith("PUMP ")]
    none = bench.run([*idle, asked], stale_reply(users, 0))
    return (made.peak - none.peak) * 1024 / users.count


def measure(bench: Bench) -> collections.abc.Iterator[Figure]:
    if not harness.reports_peaks():
        raise harness.Missing(f"{harness.GNU_TIME}, which reports the peak of memory")
    bench.check([*queries.Users(CHECKED).first, f"STALE {queries.INDEX}"])
    users = queries.Users(bench.size(DOCUMENTS))
    each = in_memory(bench, users)
    yield Figure(LINE, each * users.count / text_bytes(users), f"{each:,.0f} bytes")
