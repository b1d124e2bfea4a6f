"""What crates.txt says: the crates with what they cite, their floors, and the subjects that they belong to."""

import collections.abc
import pathlib
import re

FLOOR = re.compile(r"#\s*Floor (\d+): (.*?)\.?$")
SUBJECT = re.compile(r"#\s*Subject: (.*?): (.*)$")
WORD = re.compile(r"Rattle\.([a-z_0-9]+)\.|(?<![\w:.])([a-z_0-9]+)::")


class Row:
    """A line of crates.txt, and the floor whose comment stands above it."""

    def __init__(self, name: str, deps: list[str], line: int, under: int | None):
        self.name, self.deps, self.line, self.under = name, deps, line, under


def rows_of(file: str | pathlib.Path) -> tuple[list[Row], dict[int, str]]:
    """The lines of crates.txt in order; and what the comments of the floors say."""
    rows, titles, under = [], {}, None
    for number, line in enumerate(pathlib.Path(file).read_text().splitlines(), 1):
        floor = FLOOR.match(line)
        if floor:
            under = int(floor[1])
            titles[under] = floor[2]
        head, _, deps = line.partition("#")[0].partition(":")
        if head.strip():
            rows.append(Row(head.split()[0], deps.split(), number, under))
    return rows, titles


def subjects_of(file: str | pathlib.Path) -> dict[str, list[str]]:
    """The crates of each subject, in the order of the comments `Subject`."""
    found = map(SUBJECT.match, pathlib.Path(file).read_text().splitlines())
    return {subject[1]: subject[2].split() for subject in found if subject}


def cited(folder: str | pathlib.Path) -> set[str]:
    """The names before a `::` in code, and behind `Rattle.` in what is proved of it."""
    files = [file for kind in ("rt", "antt") for file in pathlib.Path(folder).rglob(f"*.{kind}")]
    return {name for file in files if not {"out", "must-fail"} & set(file.parts) for name in names_in(file)}


def names_in(file: pathlib.Path) -> set[str]:
    lines = [line for line in file.read_text().splitlines() if not line.lstrip().startswith("//")]
    return {spec or code for spec, code in WORD.findall("\n".join(lines))}


def floors_of(rows: list[Row]) -> tuple[dict[str, int], list[str]]:
    """The floor of each crate, counted from 1, and what breaks the order."""
    floors: dict[str, int] = {}
    faults = []
    own = {row.name for row in rows}
    for row in rows:
        late = [name for name in row.deps if name in own and name not in floors]
        if late:
            faults.append(f"line {row.line}: {row.name} lists {', '.join(late)}, which stands on no earlier line")
        floors[row.name] = 1 + max((floors[name] for name in row.deps if name in floors), default=0)
    return floors, faults


def longest_chain(rows: list[Row], floors: dict[str, int]) -> list[str]:
    """One longest chain of crates of which each lists the one before, lowest first."""
    deps = {row.name: row.deps for row in rows}
    chain = [max(rows, key=lambda row: floors[row.name]).name]
    while floors[chain[0]] > 1:
        chain.insert(0, next(dep for dep in deps[chain[0]] if floors.get(dep) == floors[chain[0]] - 1))
    return chain


def subject_faults(rows: list[Row], subjects: dict[str, list[str]]) -> collections.abc.Iterator[str]:
    """Which crates belong to no subject or to several, and which names are no crate."""
    named = [name for names in subjects.values() for name in names]
    own = {row.name for row in rows}
    yield from (f"{name} has no subject" for name in sorted(own - set(named)))
    yield from (f"{name} has a subject, and is no crate" for name in sorted(set(named) - own))
    yield from (f"{name} has {named.count(name)} subjects" for name in sorted(set(named)) if named.count(name) > 1)
