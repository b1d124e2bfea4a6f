"""Refuses each allocation of some runs in turn, and compares what comes of it with the prefixes of the whole run."""

import argparse
import collections
import dataclasses
import itertools
import os
import pathlib
import shutil
import subprocess
import tempfile

from raven_tools import case_file, programs
from raven_tools.checks.cases import PROGRAM
from raven_tools.model import keeping, running
from raven_tools.places import DATA

CASES = DATA / "memory-cases.txt"
LIBRARY = pathlib.Path(__file__).resolve().parent / "refuse.c"
# A run that takes longer has no end, in seconds.
PATIENCE = 120
# How a run ends that is as it has to be.
NO_MEMORY, OUTSIDE, NOT_NEEDED = "NoMemory", "in the program of cases", "not needed"
# And how one ends that is not.
WRONG = "wrong"


# What may come of a run


class Recorder(keeping.Keeper):
    """A keeper that has its rows as they were at the start, and after each change."""

    def __init__(self, rows: list[keeping.KeptRow]):
        super().__init__(rows)
        self.states = [list(self.rows)]

    def commit(self, rows: list[keeping.model.Row]) -> None:
        super().commit(rows)
        self.states.append(list(self.rows))

    def clean(self, upto: int) -> None:
        super().clean(upto)
        self.states.append(list(self.rows))


@dataclasses.dataclass
class Stop:
    """What was written before some reply, or at the end, and the rows after each change that was made by then."""

    status: str
    written: bytes
    states: list[list[keeping.KeptRow]]


def stopped_at(case: case_file.Case, writes: frozenset[int]) -> Stop:
    """The run of a case if these calls of the output fail. So no line behind the first of these is executed."""
    keeper = Recorder(case.rows)
    status, written = running.run(dataclasses.replace(case.runs[0].outside, writes=writes), keeper)
    return Stop(status, written, keeper.states)


def stops_of(case: case_file.Case) -> list[Stop]:
    """A stop at each reply, and then the whole run."""
    stops = [stopped_at(case, frozenset({1}))]
    while stops[-1].status == "WriteFault":
        stops.append(stopped_at(case, frozenset({len(stops) + 1})))
    return stops


def printed(case: case_file.Case, status: str, written: bytes, rows: list[keeping.KeptRow]) -> bytes:
    """What is printed of a run that ended so."""
    kept = "".join(map(case_file.printed_row, rows))
    return f"== {case.name}\nstatus {status}\n{case_file.printed_output(written)}{kept}\n".encode()


def whole_of(case: case_file.Case, stops: list[Stop]) -> bytes:
    """What is printed of a run that has all the memory that it needs."""
    last = stops[-1]
    return printed(case, last.status, last.written, last.states[-1])


def prefixes_of(case: case_file.Case, stops: list[Stop]) -> set[bytes]:
    """What may be printed of a run for which there was not enough memory: whole replies, with each change of their lines, and perhaps
    changes of the next line."""
    found, before = set(), 0
    for stop in stops:
        made = len(stop.states) - 1
        found |= {printed(case, NO_MEMORY, stop.written, stop.states[changes]) for changes in range(before, made + 1)}
        before = made
    return found


# Runs


def library_in(folder: pathlib.Path) -> pathlib.Path | None:
    """The library that refuses, or None if there is no compiler."""
    compiler = os.environ.get("CC") or shutil.which("cc")
    if not compiler:
        return None
    library = folder / "refuse.so"
    subprocess.run([compiler, "-O2", "-shared", "-fPIC", "-o", library, LIBRARY], check=True)
    return library


@dataclasses.dataclass
class Refusing:
    """Runs the program of cases with one allocation refused."""

    program: pathlib.Path
    library: pathlib.Path
    mark: pathlib.Path  # a file that is made when it is refused

    def run(self, text: bytes, number: int) -> subprocess.CompletedProcess[bytes]:
        """The run with the allocation of this number refused, or with none if it is 0. One that has no end is killed."""
        self.mark.unlink(missing_ok=True)
        outside = {"LD_PRELOAD": str(self.library), "RAVEN_REFUSE": str(number), "RAVEN_REFUSED": str(self.mark)}
        process = subprocess.Popen([self.program], stdin=subprocess.PIPE, stdout=subprocess.PIPE, stderr=subprocess.PIPE, env={**os.environ, **outside})
        try:
            written, message = process.communicate(text, timeout=PATIENCE)
        except subprocess.TimeoutExpired:
            process.kill()
            written, message = process.communicate()
        return subprocess.CompletedProcess(process.args, process.returncode, written, message)

    def has_refused(self) -> bool:
        """Whether the last run came as far as the allocation of its number."""
        return self.mark.exists()


def lines_of(text: str) -> dict[str, bytes]:
    """The lines of each case, by its name."""
    parts = text.split("\n== ")[1:]
    return {part.split("\n", 1)[0]: f"== {part}\n".encode() for part in parts}


def end_of(ended: subprocess.CompletedProcess[bytes], prefixes: set[bytes], whole: bytes) -> str | None:
    """How a run ended, or None if it may not end so."""
    if ended.returncode == 0 and ended.stdout in prefixes:
        return NO_MEMORY
    if ended.returncode == 0 and ended.stdout == whole:
        return NOT_NEEDED
    is_begun = any(text.startswith(ended.stdout) for text in [whole, *prefixes])
    return OUTSIDE if ended.returncode == 1 and is_begun else None


def ends_of(refusing: Refusing, case: case_file.Case, text: bytes, every: int, stops: list[Stop]) -> collections.Counter[str]:
    """How often the runs of a case ended so, with one allocation after another refused, up to a run that makes fewer."""
    prefixes, whole = prefixes_of(case, stops), whole_of(case, stops)
    ends = collections.Counter[str]()
    for number in itertools.count(every, every):
        ended = refusing.run(text, number)
        if not refusing.has_refused():
            return ends
        end = end_of(ended, prefixes, whole)
        ends[end or WRONG] += 1
        if not end:
            print(f"{case.name}: allocation {number}: status {ended.returncode}\n{(ended.stdout + ended.stderr).decode(errors='replace')[:2000]}")
    raise AssertionError("the numbers have no end")


def tried(refusing: Refusing, case: case_file.Case, text: bytes, every: int) -> bool:
    """Whether all runs of a case end as they may, and one of them with NoMemory."""
    stops = stops_of(case)
    if refusing.run(text, 0).stdout != whole_of(case, stops):
        print(f"{case.name}: differs though nothing is refused")
        return False
    ends = ends_of(refusing, case, text, every, stops)
    counts = "".join(f", {count} {end}" for end, count in sorted(ends.items()))
    print(f"{case.name}: {sum(ends.values())} allocations refused{counts}", flush=True)
    return not ends[WRONG] and bool(ends[NO_MEMORY])


def main() -> int:
    given = argparse.ArgumentParser(description="Refuses each allocation of some runs in turn.")
    given.add_argument("--program", type=pathlib.Path, default=PROGRAM)
    given.add_argument("--case", default="")
    given.add_argument("--every", type=int, default=1)
    given = given.parse_args()
    if not programs.is_built(given.program):
        print(f"skipped: no program at {given.program}")
        return 0
    text = CASES.read_text()
    texts = lines_of(text)
    with tempfile.TemporaryDirectory(prefix="memory-") as room:
        library = library_in(pathlib.Path(room))
        if library is None:
            print("skipped: no C compiler")
            return 0
        refusing = Refusing(given.program, library, pathlib.Path(room) / "refused")
        cases = [case for case in case_file.read(text) if given.case in case.name]
        are_good = [tried(refusing, case, texts[case.name], given.every) for case in cases]
    return 0 if are_good and all(are_good) else 1
