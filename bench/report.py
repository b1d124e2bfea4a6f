"""The table of figures: its lines, their aims, and the part of a page that has it."""

import collections.abc
import dataclasses
import datetime
import math
import os
import pathlib
import platform
import re

BEGIN = "<!-- figures: bench/run.py writes from here -->"
END = "<!-- figures: to here -->"
HEADS = ["Figure", "Relative to", "Measured", "Aim", "Met"]
EMPTY = "not measured"
TOO_SMALL = "too small to tell"


@dataclasses.dataclass(frozen=True)
class Aim:
    """What a figure has to be."""

    kind: str  # `at least` or `at most`
    bound: float

    def text(self) -> str:
        return f"{self.kind} {self.bound:.3g}"

    def is_met(self, figure: float) -> bool:
        return figure >= self.bound if self.kind == "at least" else figure <= self.bound


@dataclasses.dataclass(frozen=True)
class Line:
    """A line of the table, without what was measured."""

    what: str
    beside: str
    aim: Aim | None = None


@dataclasses.dataclass(frozen=True)
class Figure:
    """A ratio of two things of the same run, and what the first of them is."""

    line: Line
    ratio: float
    value: str

    def cell(self) -> str:
        return f"{rounded(self.ratio)} ({self.value})"


# The lines of each group.
Groups = collections.abc.Mapping[str, collections.abc.Iterable[Line]]


@dataclasses.dataclass
class Part:
    """The part of a page: when and on what machine each group was measured, and the figures by line."""

    runs: dict[str, str]
    cells: dict[tuple[str, str], str]

    def add(self, group: str, run: str, figures: collections.abc.Iterable[Figure]) -> None:
        for figure in figures:
            self.runs[group] = run
            self.cells[figure.line.what, figure.line.beside] = figure.cell()

    def row(self, line: Line) -> list[str]:
        cell = self.cells.get((line.what, line.beside), EMPTY)
        return [line.what, line.beside, cell, line.aim.text() if line.aim else "", verdict(line.aim, cell)]

    def text(self, groups: Groups) -> str:
        """What stands between the marks. A line that is no longer measured is left out."""
        names: dict[str, list[str]] = {}
        for group in groups:
            names.setdefault(self.runs.get(group, EMPTY), []).append(f"`{group}`")
        runs = [f"- {', '.join(some)}: {run}." for run, some in names.items()]
        rows = [self.row(line) for lines in groups.values() for line in lines]
        return "\n".join(["", *runs, "", *table(HEADS, rows, ("Measured",)), ""])


def ratio(one: float, other: float) -> float:
    """How many times the other the one is; not a number if one of them was too small to measure."""
    return one / other if one > 0 and other > 0 else math.nan


def rounded(number: float) -> str:
    """Three digits that count, or all of those before the point."""
    if not math.isfinite(number) or number <= 0:
        return TOO_SMALL
    decimals = max(0, 2 - math.floor(math.log10(number)))
    return f"{number:,.{decimals}f}"


def ratio_of(cell: str) -> float | None:
    """The ratio that a cell begins with, if it has one."""
    try:
        return float(cell.split(" ")[0].replace(",", ""))
    except ValueError:
        return None


def verdict(aim: Aim | None, cell: str) -> str:
    figure = ratio_of(cell)
    if aim is None or figure is None:
        return ""
    return "met" if aim.is_met(figure) else "missed"


def duration(seconds: float) -> str:
    """A length of time in the greatest unit that gives at least 1."""
    if seconds <= 0:
        return TOO_SMALL
    for factor, unit in ((1, "s"), (1e3, "ms"), (1e6, "µs")):
        if seconds * factor >= 1:
            return f"{rounded(seconds * factor)} {unit}"
    return f"{rounded(seconds * 1e9)} ns"


def table(heads: list[str], rows: collections.abc.Iterable[list[str]], numbers: collections.abc.Collection[str]) -> list[str]:
    """The lines of a table in Markdown. The columns of these heads are numbers."""
    marks = "|" + "|".join("---:" if head in numbers else "---" for head in heads) + "|"
    return [line_of(heads), marks, *map(line_of, rows)]


def line_of(cells: list[str]) -> str:
    return "| " + " | ".join(cells) + " |"


# The page


def split(page: str) -> tuple[str, str, str]:
    """What stands before the part, in it, and after it."""
    before, begin, rest = page.partition(BEGIN)
    part, end, after = rest.partition(END)
    if not begin or not end:
        raise ValueError(f"the page lacks the line {BEGIN} or the line {END}")
    return before, part, after


def read(part: str) -> Part:
    found = Part({}, {})
    for line in part.splitlines():
        run = re.match(r"- ((?:`\w+`(?:, )?)+): (.*)\.$", line)
        for group in re.findall(r"`(\w+)`", run[1]) if run else ():
            found.runs[group] = run[2]
        cells = [cell.strip() for cell in line.strip("|").split("|")]
        if line.startswith("|") and len(cells) == len(HEADS) and cells != HEADS and not cells[0].startswith("---"):
            found.cells[cells[0], cells[1]] = cells[2]
    return found


def replaced(page: str, part: str) -> str:
    before, _, after = split(page)
    return before + BEGIN + "\n" + part + "\n" + END + after


def run() -> str:
    """What a table has to say of a run: its day, the load of the machine before it, and the machine."""
    return f"{datetime.date.today()}, with a load of {os.getloadavg()[0]:.1f} at the start, on {os.cpu_count()} cores of {processor()}"


def processor() -> str:
    """The name of the processor, if the system reports it."""
    try:
        for line in pathlib.Path("/proc/cpuinfo").read_text().splitlines():
            if line.startswith("model name"):
                return line.split(":", 1)[1].strip()
    except OSError:
        pass
    return platform.processor() or platform.machine()
