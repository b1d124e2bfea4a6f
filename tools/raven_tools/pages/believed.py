"""docs/believed.md: the modules of definitions that the clauses of the top call rest on, with their lines."""

import dataclasses
import pathlib
import re

from raven_tools.places import CRATES

TOP_CALL = CRATES / "raven_console/src/program.rt"
IMPORT = re.compile(r"\buse Rattle\.([a-z_0-9]+)\.specs\.(\w+)")
HEAD = """# What has to be believed

The definitions that the clauses of `raven` rest on: what is proved is worth as much as they are. They are the files of `specs/` that are reached from
the file of the top call by imports, without those of the toolchain. What each is about stands in its first line, as `head -n 1
crates/spec_server/specs/*.antt` prints it; [definitions.md](definitions.md) is the way through them. Beside each name are its lines. `tools/pages.py --write`
makes this page."""


@dataclasses.dataclass(frozen=True)
class Module:
    """A file of `specs/`: its name and its lines."""

    name: str
    lines: int


def file_of(crate: str, module: str) -> pathlib.Path:
    return CRATES / crate / "specs" / f"{module}.antt"


def reached(start: pathlib.Path) -> dict[str, list[Module]]:
    """The modules that are reached from this file, by crate and in order of names."""
    seen, left = set(), IMPORT.findall(start.read_text())
    while left:
        one = left.pop()
        if one not in seen and file_of(*one).exists():
            seen.add(one)
            left += IMPORT.findall(file_of(*one).read_text())
    found: dict[str, list[Module]] = {}
    for crate, name in sorted(seen):
        found.setdefault(crate, []).append(Module(name, len(file_of(crate, name).read_text().splitlines())))
    return found


def lines_in(modules: list[Module]) -> int:
    return sum(module.lines for module in modules)


def row_of(crate: str, modules: list[Module]) -> str:
    files = ", ".join(f"`{module.name}` {module.lines}" for module in modules)
    return f"| `{crate}` | {lines_in(modules):,} | {files} |"


def page(_: str) -> str:
    """For each crate, the one with most lines first, its files with their lines."""
    found = reached(TOP_CALL)
    files = sum(map(len, found.values()))
    ordered = sorted(found.items(), key=lambda pair: (-lines_in(pair[1]), pair[0]))
    table = ["| Crate | Lines | Files |", "|---|---:|---|", *(row_of(crate, modules) for crate, modules in ordered)]
    sums = f"All together {files} files, {sum(map(lines_in, found.values())):,} lines."
    return "\n\n".join([HEAD, sums, "\n".join(table)]) + "\n"
