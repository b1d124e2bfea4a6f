"""What the measurements of the program share: runs, how their replies are checked, and the differences of runs.

It puts the folder of `raven_tools` on the path, so it is imported before that.
"""

import collections.abc
import dataclasses
import math
import os
import pathlib
import shutil
import statistics
import subprocess
import sys
import tempfile
import time

sys.path.append(str(pathlib.Path(__file__).resolve().parents[1] / "tools"))
from raven_tools import model, programs

GNU_TIME = "/usr/bin/time"
SQLITE = str(pathlib.Path(__file__).resolve().parent / "beside_sqlite.py")
# Some bytes are left for the line that ends a script.
ROOM = model.MAX_SCRIPT - 1_000
# A difference is at least this share of the shorter run, whose time is never quite the same twice.
SHARE = 0.1
Lines = list[str]
# The time of a process, by its number: since any moment that stays the same.
Clock = collections.abc.Callable[[int], float]
Spent = collections.abc.Callable[[int], float]


class Wrong(Exception):
    """The program did not write what it has to."""


class Missing(Exception):
    """Something that a measurement needs is not on this machine."""


@dataclasses.dataclass(frozen=True)
class Outcome:
    """What a run wrote and took."""

    output: bytes
    seconds: float  # on the clock
    cpu: float  # seconds of the processor, which other work on the machine changes less
    peak: int | None  # the greatest resident size in KiB; None without GNU time
    messages: bytes


def script_of(lines: collections.abc.Iterable[str]) -> bytes:
    return "".join(line + "\n" for line in lines).encode()


def run(command: list[str], script: bytes) -> Outcome:
    """One run, with input from and output to a file. It is Wrong if its status is not 0."""
    with tempfile.TemporaryFile() as given, tempfile.TemporaryFile() as taken, tempfile.TemporaryFile() as messages:
        given.write(script)
        given.seek(0)
        with tempfile.NamedTemporaryFile("r") as peak:
            began = time.monotonic()
            started = subprocess.Popen([*measured(peak.name), *command], stdin=given, stdout=taken, stderr=messages)
            _, status, used = os.wait4(started.pid, 0)
            seconds = time.monotonic() - began
            started.returncode = os.waitstatus_to_exitcode(status)
            kib = peak.read().split()
        taken.seek(0)
        messages.seek(0)
        written = messages.read()
        if started.returncode:
            raise Wrong(f"status {started.returncode}, {written[-200:]!r}")
        return Outcome(taken.read(), seconds, used.ru_utime + used.ru_stime, int(kib[-1]) if kib else None, written)


def on_clock(_: int) -> float:
    return time.monotonic()


def of_processor(process: int) -> float:
    """The seconds that the processor has spent in a process, in all its threads. Nobody may have waited for its end yet."""
    # So Linux names the clock of another process.
    return time.clock_gettime(~process << 3 | 2)


def moments(command: list[str], script: bytes, places: list[int], last: str, clock: Clock = of_processor) -> list[float]:
    """When so many replies of a run were there, for each of these numbers, which rise: each reply is written as soon as it is known.

    The replies are read as they come, and not kept. It is Wrong if one is a refusal, or the last one is not this.
    """
    found: list[float] = []
    seen, end = 0, b""
    with tempfile.TemporaryFile() as given:
        given.write(script)
        given.seek(0)
        with subprocess.Popen(command, stdin=given, stdout=subprocess.PIPE, stderr=subprocess.DEVNULL) as started:
            while piece := os.read(started.stdout.fileno(), 1 << 20):
                now = clock(started.pid)
                if b'"Error"' in end[-6:] + piece:
                    raise Wrong(f"a refusal: {piece[:200]!r}")
                seen += piece.count(b"\n")
                found += [now] * (sum(place <= seen for place in places) - len(found))
                end = (end + piece)[-1_000:]
    if started.returncode or len(found) < len(places) or not end.endswith(last.encode() + b"\n"):
        raise Wrong(f"status {started.returncode}, {seen} replies, the last {end[-200:]!r} in place of {last!r}")
    return found


def measured(file: str) -> list[str]:
    """What a program is started by, so that its peak of memory is written into the file.

    The peak that `wait4` reports of a process started from here includes the memory of Python, out of which it was started.
    """
    return [GNU_TIME, "--quiet", "-f", "%M", "-o", file] if reports_peaks() else []


def reports_peaks() -> bool:
    return os.access(GNU_TIME, os.X_OK)


@dataclasses.dataclass(frozen=True)
class Bench:
    """The program that is measured, and how."""

    program: str
    folder: pathlib.Path  # for files; each use makes its own folder in it
    repeat: int = 3
    part: int = 1  # all sizes are divided by it, to try the measurements
    least: float = 0.3  # a difference that is shorter, in seconds, is measured again with more operations

    def size(self, documents: int) -> int:
        return max(documents // self.part, 20)

    def run(self, lines: Lines, last: str, *options: str) -> Outcome:
        """A run of lines that all succeed, and of which the last has this reply."""
        script = script_of(lines)
        if len(script) > model.MAX_SCRIPT:
            raise Wrong(f"a script of {len(script):,} bytes is too long")
        taken = run([self.program, "run", *options], script)
        check_counts(taken.output, len(lines), last)
        return taken

    def check(self, lines: Lines) -> None:
        """Compares each reply with that of the model."""
        script = script_of(lines)
        expected = model.replies(script)
        found = model.at_no_moment(run([self.program, "run"], script).output)
        if b'"Error"' in expected:
            raise Wrong(f"the model refuses a line: {expected[-200:]!r}")
        if found != expected:
            raise Wrong(programs.first_difference(expected, found))

    def each(self, more: Spent, less: Spent, start: int, most: int, varies: bool = False) -> float:
        """What one operation takes: the difference of a run with so many of them and one without, divided by their number.

        Of several differences, of runs one after the other, the middle one counts. There are so many operations that the
        difference is long enough, or `most`. Unless `less` varies with the number, it is not run anew to find that.
        """
        count = min(max(start // self.part, 1), most)
        without, with_them = less(count), more(count)
        while with_them - without < (enough := self.enough(without)) and count < most:
            times = math.ceil(1.3 * enough / max(with_them - without, 0.01))
            count = min(count * min(max(times, 2), 32), most)
            without, with_them = less(count) if varies else without, more(count)
        differences = [with_them - without]
        for _ in range(self.repeat - 1):
            without = less(count)
            differences.append(more(count) - without)
        return statistics.median(differences) / count

    def enough(self, without: float) -> float:
        """How long a difference is at least, in seconds, to a run that takes so long."""
        return max(self.least, SHARE * without) / self.part


def sqlite_command(database: str, count: int) -> list[str]:
    return [sys.executable, SQLITE, database, str(count)]


def most_of(first: Lines, line: str) -> int:
    """How many lines as long as this one fit into a script after the first ones."""
    return (ROOM - len(script_of(first))) // (len(line.encode()) + 1)


def copied(folder: pathlib.Path, copy: pathlib.Path) -> pathlib.Path:
    """A copy of a folder, which is on the disk, so that what the copy costs does not count later."""
    shutil.rmtree(copy, ignore_errors=True)
    shutil.copytree(folder, copy)
    for path in copy.iterdir():
        with open(path, "rb") as file:
            os.fsync(file.fileno())
    return copy


def check_counts(output: bytes, lines: int, last: str) -> None:
    """Each line has a reply, none of them is a refusal, and the last one is this."""
    *_, found = output.rstrip(b"\n").rsplit(b"\n", 1)
    if output.count(b"\n") != lines or b'"Error"' in output or found != last.encode():
        raise Wrong(f"{output.count(10)} replies to {lines} lines, the last {found[:200]!r} in place of {last!r}")


def stats(documents: int, indexes: int, newest: int) -> str:
    """The reply to STATS."""
    counts = {"CountOfDocuments": documents, "CountOfIndexes": indexes, "CountOfTombstones": 0, "LastDocEtag": newest}
    return model.write_json(counts)
