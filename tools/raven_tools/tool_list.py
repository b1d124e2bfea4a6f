"""The tools that are called by name: which there are, why one is called, and what each says of itself."""

import ast
import os
import pathlib
import re
import sys
import textwrap

from raven_tools.places import TOP
from raven_tools.texts import first_sentence

FOLDER = TOP / "tools"
DOOR = "raven"
WIDTH = 120
# Why one calls them. The tests of tools stand in a group of their own.
GROUPS = {
    "To use a server": "model studio shell metrics explain listen",
    "To check everything": "all nightly release",
    "To check one thing, by the program or, where it says so, by the model": "check-examples check-cases check-text-cases compare curl serve crash load memory wrong",
    "To check the pages and the crates": "links pages floors",
    "To measure": "first_batch gate_cost",
}
TESTS, OTHERS = "Tests of the tools themselves", "Others"


def tools() -> dict[str, pathlib.Path]:
    """Each file of tools/ by its name, but the one door."""
    return {file.stem: file for file in sorted(FOLDER.iterdir()) if file.is_file() and file.name != DOOR}


def head_of(file: pathlib.Path) -> str:
    """The text at the head of a tool, which says how it is called."""
    text = file.read_text()
    if text.startswith("#!/usr/bin/env python3\n"):
        return ast.get_docstring(ast.parse(text)) or ""
    comment = re.match(r"#!.*\n((?:#.*\n)*)", text)
    return re.sub(r"^# ?", "", comment[1], flags=re.MULTILINE) if comment else ""


def said_of(file: pathlib.Path) -> str:
    return first_sentence(" ".join(head_of(file).split()))


def listed() -> str:
    """The tools by why they are called, each with its sentence. One that no group names is shown too."""
    found = tools()
    groups = {why: names.split() for why, names in GROUPS.items()}
    placed = {name for names in groups.values() for name in names}
    groups[TESTS] = [name for name in found if name.startswith("test_")]
    groups[OTHERS] = [name for name in found if name not in placed and not name.startswith("test_")]
    parts = []
    for why, names in groups.items():
        lines = [textwrap.fill(said_of(found[name]), WIDTH, initial_indent=f"  {name:18}", subsequent_indent=" " * 20) for name in names]
        if lines:
            parts.append("\n".join([why, *lines]))
    return "\n\n".join(parts)


def main(arguments: list[str], usage: str) -> int:
    if not arguments or arguments[0] in ("-h", "--help", "help"):
        print(usage)
        print(listed())
        return 0
    name, *given = arguments
    file = tools().get(name.removesuffix(".py"))
    if file is None:
        print(f"tools/raven: there is no tool {name}; `tools/raven` lists them", file=sys.stderr)
        return 2
    if given == ["--help"]:
        print(head_of(file))
        return 0
    command = [sys.executable, str(file)] if file.suffix == ".py" else [str(file)]
    os.execv(command[0], [*command, *given])
