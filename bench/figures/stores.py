"""Stores of so many documents, in memory and in a file, of the program and of SQLite, and what one operation on them takes."""

import collections.abc
import pathlib
import tempfile

import harness
from figures import documents
from harness import Bench, Lines, script_of, stats

LinesOf = collections.abc.Callable[[int, int], Lines]


def written_by(lines: Lines) -> int:
    """How many etags the lines take."""
    return sum(line.startswith("PUT ") + line.count('"Type":"PUT"') for line in lines)


def longest(lines_of: LinesOf, count: int) -> str:
    """One of the longest of these lines, or a longer one."""
    return max(lines_of(50, count), key=len) + " "


class InMemory:
    """Each run fills it anew. Times are those of the processor."""

    def __init__(self, bench: Bench, count: int):
        self.bench, self.documents = bench, bench.size(count)
        self.first = documents.filling(self.documents)

    def each(self, lines_of: LinesOf, start: int) -> float:
        """What one of these lines takes."""

        def spent(count: int) -> float:
            lines = lines_of(count, self.documents)
            newest = self.documents + written_by(lines)
            return self.bench.run([*self.first, *lines, "STATS"], stats(self.documents, 0, newest)).cpu

        return self.bench.each(spent, lambda _: spent(0), start, self.most(lines_of))

    def each_of_sqlite(self, lines_of: LinesOf, start: int) -> float:
        def spent(count: int, done: int) -> float:
            script = script_of([*self.first, *lines_of(count, self.documents)])
            return sqlite(script, len(self.first) + done, self.documents).cpu

        def none(count: int) -> float:
            return spent(count, 0)

        return self.bench.each(lambda count: spent(count, count), none, start, self.most(lines_of), varies=True)

    def most(self, lines_of: LinesOf) -> int:
        return harness.most_of(self.first, longest(lines_of, self.documents))


class InFile:
    """It is filled once, and each run opens a copy. Times are those on the clock, since the disk is waited for."""

    def __init__(self, bench: Bench, count: int, size: int = documents.SMALL):
        self.bench, self.documents = bench, bench.size(count)
        self.folder = pathlib.Path(tempfile.mkdtemp(dir=bench.folder))
        self.first = documents.filling(self.documents, size)
        for name in ("raven", "sqlite", "none"):
            (self.folder / name).mkdir()
        self.open(self.folder / "raven", self.first, self.documents)

    def open(self, folder: pathlib.Path, lines: Lines, newest: int) -> harness.Outcome:
        count = min(newest, self.documents)
        return self.bench.run([*lines, "STATS"], stats(count, 0, newest), "--data", str(folder / "store"))

    def each(self, lines_of: LinesOf, start: int) -> float:
        def spent(count: int) -> float:
            lines = lines_of(count, self.documents)
            copy = harness.copied(self.folder / "raven", self.folder / "copy")
            return self.open(copy, lines, self.documents + written_by(lines)).seconds

        return self.bench.each(spent, lambda _: spent(0), start, self.most(lines_of))

    def each_of_sqlite(self, lines_of: LinesOf, start: int) -> float:
        sqlite(script_of(self.first), len(self.first), self.documents, self.folder / "sqlite/store")

        def spent(count: int, done: int) -> float:
            copy = harness.copied(self.folder / "sqlite", self.folder / "copy")
            return sqlite(script_of(lines_of(count, self.documents)), done, self.documents, copy / "store").seconds

        def none(count: int) -> float:
            return spent(count, 0)

        return self.bench.each(lambda count: spent(count, count), none, start, self.most(lines_of), varies=True)

    def most(self, lines_of: LinesOf) -> int:
        return harness.most_of([], longest(lines_of, self.documents))

    def bytes_each(self) -> float:
        """The memory of a document: the peak of opening the store, less that of opening an empty one."""
        filled, empty = self.open(self.folder / "raven", [], self.documents), self.open(self.folder / "none", [], 0)
        return (filled.peak - empty.peak) * 1024 / self.documents


def sqlite(script: bytes, count: int, documents_after: int, database: pathlib.Path | str = ":memory:") -> harness.Outcome:
    """SQLite executes so many lines of the script."""
    taken = harness.run(harness.sqlite_command(str(database), count), script)
    if int(taken.output) != documents_after:
        raise harness.Wrong(f"SQLite has {int(taken.output):,} rows in place of {documents_after:,}")
    return taken


def checked_lines(count: int = 40) -> Lines:
    """Lines of each kind, whose replies are compared with the model's before anything is measured."""
    kinds = (documents.put_lines, documents.bulk_lines, documents.get_lines)
    return [*documents.filling(count), *(line for lines_of in kinds for line in lines_of(5, count)), "STATS"]
