"""The measured part of docs/gate.md, made from what tools/gate_cost.py writes of a run of the gate."""

import collections.abc
import dataclasses
import datetime
import pathlib
import re

from raven_tools.pages import marks
from raven_tools.places import CRATES

# In the order of the file of costs, without the costs of what is no proof.
KINDS = ("Proof", "Tests", "Edits", "Program")
# The budget in CPU minutes, and the lines that it is for.
BUDGET, LINES = 360, 175_000
# So many crates have a row of their own. The others share one.
MOST, OTHERS = 25, "all others"
KEPT = re.compile(r"^rt: (\w+) is kept: ", re.MULTILINE)
RESULT = re.compile(r"^(\d+ passed, \d+ failed.*)$", re.MULTILINE)


@dataclasses.dataclass
class Run:
    """When and how a run was, how many lines it proved, what came of it, and CPU seconds of each crate by kind."""

    when: str
    lines: int
    edits: str
    result: str
    kept: str
    seconds: dict[str, list[int]]

    def minutes(self, kind: int | None = None) -> float:
        return sum(sum(row) if kind is None else row[kind] for row in self.seconds.values()) / 60

    def facts(self) -> collections.abc.Iterator[str]:
        yield f"- Run: {self.when}."
        yield f"- Result: {self.result}."
        yield f"- Lines of code, contracts, specifications and proofs: {self.lines:,}."
        yield f"- Must-fail edits: {self.edits}."
        yield f"- Kept from an earlier run, so without a figure: {self.kept}."
        yield f"- CPU minutes: {self.minutes():.1f}, of the budget of {BUDGET * self.lines / LINES:.0f} for so many lines."

    def table(self) -> collections.abc.Iterator[str]:
        yield f"| Crate | {' | '.join(KINDS)} | All |"
        yield "|---|" + "---:|" * (len(KINDS) + 1)
        for crate, row in in_order(self.seconds):
            yield f"| {crate if crate == OTHERS else f'`{crate}`'} | {' | '.join(str(cost or '') for cost in row)} | {sum(row)} |"
        shares = " | ".join(f"{self.minutes(kind):.1f}" for kind in range(len(KINDS)))
        yield f"| all, in minutes | {shares} | {self.minutes():.1f} |"

    def text(self) -> str:
        return "\n".join([*self.facts(), "", *self.table()])


def in_order(seconds: dict[str, list[int]]) -> list[tuple[str, list[int]]]:
    """The dearest crate first, and what the others share last."""
    return sorted(seconds.items(), key=lambda pair: (pair[0] == OTHERS, -sum(pair[1]), pair[0]))


def with_others(seconds: dict[str, list[int]]) -> dict[str, list[int]]:
    """The dearest crates, and the sums of all others."""
    rows = in_order(seconds)
    rest = [row for _, row in rows[MOST:]]
    return dict(rows[:MOST]) | ({OTHERS: [sum(column) for column in zip(*rest)]} if rest else {})


def measured(costs: list[pathlib.Path], log: pathlib.Path | None) -> Run:
    """The run of these files, of which a later one counts for the crates and kinds that it has. The lines are those of this checkout."""
    seconds: dict[str, list[int]] = {}
    wall, processors = 0.0, "?"
    for file in costs:
        for line in file.read_text().splitlines():
            words = line.split()
            if words[:2] == ["wall", "minutes"]:
                wall, processors = wall + float(words[2].rstrip(",")), words[3]
            elif words and words[0] not in ("crate", "CPU"):
                found = [round(float(word)) for word in words[1 : 1 + len(KINDS)]]
                seconds[words[0]] = [new or old for new, old in zip(found, seconds.get(words[0], [0] * len(KINDS)))]
    day = datetime.date.fromtimestamp(costs[-1].stat().st_mtime)
    said = log.read_text() if log else ""
    kept = [crate for crate in KEPT.findall(said) if not any(seconds.get(crate, []))]
    return Run(
        f"{day}, {wall:.1f} minutes on {processors} processors",
        lines_of_crates(),
        edits_of_crates(),
        (RESULT.findall(said) or ["not known"])[-1],
        ", ".join(f"`{crate}`" for crate in kept) or "none",
        with_others(seconds),
    )


def lines_of_crates() -> int:
    files = [file for kind in ("rt", "antt") for file in CRATES.rglob(f"*.{kind}") if "out" not in file.parts]
    return sum(len(file.read_text().splitlines()) for file in files)


def edits_of_crates() -> str:
    edits = list(CRATES.glob("*/must-fail/*.edit"))
    return f"{len(edits)} in {len({edit.parents[1] for edit in edits})} crates"


def read(part: str) -> Run:
    """The run that the part of the page has."""
    facts = dict(re.findall(r"^- ([^:]*): (.*)\.$", part, re.MULTILINE))
    rows = [[cell.strip() for cell in line.strip("|").split("|")] for line in part.splitlines() if line.startswith(("| `", f"| {OTHERS} |"))]
    seconds = {row[0].strip("`"): [int(cell or 0) for cell in row[1:-1]] for row in rows}
    lines = int(facts["Lines of code, contracts, specifications and proofs"].replace(",", ""))
    return Run(facts["Run"], lines, facts["Must-fail edits"], facts["Result"], facts["Kept from an earlier run, so without a figure"], seconds)


def page(text: str) -> str:
    """The page with its part written anew: its order and its sums follow from its figures."""
    return with_run(text, read(marks.cut(text, "gate")[1]))


def with_run(text: str, run: Run) -> str:
    return marks.replaced(text, "gate", run.text())
