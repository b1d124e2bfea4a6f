"""Compares what is written for each script of examples/ and of pages of docs/ with what is expected."""

import argparse
import pathlib
import shutil
import sys
import tempfile

from raven_tools import model, programs
from raven_tools.examples import Example, every
from raven_tools.places import PROGRAM


def by_trying(examples: list[Example]) -> tuple[dict[str, bytes], str]:
    with tempfile.TemporaryDirectory() as folder:
        return programs.tried({example.name: example.script for example in examples}, pathlib.Path(folder))


def by_program(path: str, examples: list[Example]) -> tuple[dict[str, bytes], str]:
    runs = {example.name: programs.run(path, example.script) for example in examples}
    messages = "".join(ended.stderr.decode(errors="replace") for ended in runs.values())
    return {name: ended.stdout for name, ended in runs.items()}, messages


def main() -> int:
    sys.setrecursionlimit(10_000)
    given = argparse.ArgumentParser(description="Compares the scripts of examples/ and of pages of docs/ with what is expected.")
    given.add_argument("--program", default=str(PROGRAM))
    given.add_argument("--model", action="store_true", help="the model in Python, not the program")
    given = given.parse_args()
    examples = sorted(every(), key=lambda example: example.name)
    if given.model:
        written, messages = {example.name: model.replies(example.script) for example in examples}, ""
    elif programs.is_built(given.program):
        written, messages = by_program(given.program, examples)
    elif given.program == str(PROGRAM) and shutil.which("rt"):
        written, messages = by_trying(examples)
    else:
        print(f"no program: {given.program}", file=sys.stderr)
        return 2

    failed = 0
    for example in examples:
        found = model.at_no_moment(written.get(example.name, b"no answer"))
        if found == example.expected:
            print(f"same     {example.name}")
        else:
            failed += 1
            print(f"differs  {example.name}")
            print(programs.first_difference(example.expected, found, ("example", "program")))
    if failed:
        print("\n".join(messages.splitlines()[-5:]), file=sys.stderr)
    print(f"{failed} of {len(examples)} differ")
    return 1 if failed else 0
