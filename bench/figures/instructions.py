"""The instructions of a PUT, which hardly depend on what else the machine does."""

import collections.abc
import concurrent.futures
import re
import shutil

import harness
from figures import documents
from harness import Bench, script_of
from report import Aim, Figure, Line, ratio

DOCUMENTS, PUTS = 16_000, 2_000
COUNTED = ["valgrind", "--tool=cachegrind", "--cache-sim=no", "--cachegrind-out-file=/dev/null"]
# A third of what the first program took, which was 3.06.
AIM = Aim("at most", 1.02)
PUT = Line("Instructions of a `PUT` among 16,000 documents in memory", "SQLite in memory, called by python3", AIM)
LINES = (PUT,)


def needed() -> None:
    """Missing if nothing counts instructions here."""
    if not shutil.which(COUNTED[0]):
        raise harness.Missing("valgrind, which counts instructions")


def counted(command: list[str], script: bytes, last: str = "") -> int:
    """How many instructions it takes. The hashes of python3 are the same each time. Wrong if the output ends otherwise."""
    ended = harness.run(["env", "PYTHONHASHSEED=0", *COUNTED, *command], script)
    found = re.search(rb"I\s+refs:\s+([0-9,]+)", ended.messages)
    if not found:
        raise harness.Wrong(f"cachegrind counts nothing: {ended.messages[-200:]!r}")
    if not ended.output.decode().rstrip("\n").endswith(last):
        raise harness.Wrong(f"{ended.output[-200:]!r} in place of {last!r}")
    return int(found[1].replace(b",", b""))


def measure(bench: Bench) -> collections.abc.Iterator[Figure]:
    needed()
    count, more = bench.size(DOCUMENTS), bench.size(PUTS)
    first = documents.filling(count)
    fills, puts = script_of(first), script_of([*first, *documents.put_lines(more, count)])
    program = [bench.program, "run"]
    runs = [(program, fills), (program, puts)]
    runs += [(harness.sqlite_command(":memory:", len(first) + done), puts) for done in (0, more)]
    # Other load changes no count, so they run beside one another.
    with concurrent.futures.ThreadPoolExecutor() as threads:
        fill, put, sqlite_fill, sqlite_put = threads.map(lambda run: counted(*run), runs)
    each = (put - fill) / more
    yield Figure(PUT, ratio(put - fill, sqlite_put - sqlite_fill), f"{each:,.0f}")
