"""Compares what is expected of the cases of runs with the model."""

import argparse
import pathlib
import subprocess
import sys
import tempfile

from raven_tools import case_file, examples, programs, worked_file
from raven_tools.making import random_cases
from raven_tools.model import running
from raven_tools.places import CRATES

CASES = CRATES / "raven_cases"
PROGRAM = CASES / "out/raven_cases"


def missing(cases: list[case_file.Case]) -> list[str]:
    """The scripts of examples/ and of pages of docs/ that are no case."""
    there = {run.outside.script for case in cases for run in case.runs}
    return [example.name for example in examples.every() if example.script not in there]


def parts_of(printed: bytes) -> dict[str, list[str]]:
    """The lines of each case, by its name."""
    parts = ("\n" + printed.decode(errors="replace")).split("\n== ")[1:]
    return {part.split("\n", 1)[0]: part.split("\n")[1:] for part in parts}


def first_difference(expected: list[str], found: list[str], names: tuple[str, str]) -> str:
    for at, (left, right) in enumerate(zip(expected, found)):
        if left != right:
            width = max(map(len, names))
            return f"line {at + 1}:\n  {names[0]:{width}}  {left[:300]}\n  {names[1]:{width}}  {right[:300]}"
    return f"{names[0]} has {len(expected)} lines and {names[1]} {len(found)}"


def differing(cases: list[case_file.Case], expected: bytes, found: bytes, names: tuple[str, str] = ("the model", "the file")) -> int:
    """How many cases differ. If none does and the files are not the same, that counts as one."""
    expected_parts, found_parts = parts_of(expected), parts_of(found)
    count = 0
    for case in cases:
        left, right = expected_parts[case.name], found_parts.get(case.name, [])
        if left != right:
            count += 1
            print(f"differs  {case.name}: {first_difference(left, right, names)}")
    return count or int(expected != found)


def differing_at_random(program: pathlib.Path, seed: int, rounds: int, maker: type[random_cases.CaseMaker]) -> int:
    """How many random cases the program prints in another way than the model."""
    text = random_cases.cases(seed, rounds, maker)
    cases = case_file.read(text)
    expected = "".join(map(case_file.printed, cases)).encode()
    found = subprocess.run([program], input=text.encode(), capture_output=True, timeout=600).stdout
    count = differing(cases, expected, found)
    if count:
        folder = pathlib.Path(tempfile.mkdtemp(prefix="cases-"))
        (folder / "stdin").write_text(text)
        (folder / "stdout").write_bytes(found)
        print(f"the cases and what was printed of them are in {folder}")
    print(f"{count} of {rounds} random cases with seed {seed} differ")
    return count


def differing_worked(path: pathlib.Path, program: pathlib.Path | None) -> int:
    """How many cases of a file that has what is printed beside them differ: of the model, and of the program if one is named."""
    worked = worked_file.read(path.read_text())
    text, expected = worked_file.stdin_of(worked), worked_file.stdout_of(worked).encode()
    cases = case_file.read(text)
    printed = {"the model": "".join(map(case_file.printed, cases)).encode()}
    if program:
        printed["the program"] = subprocess.run([program], input=text.encode(), capture_output=True, timeout=600).stdout
    count = 0
    for name, found in printed.items():
        differ = differing(cases, expected, found, ("the file", name))
        print(f"{name}: {differ} of {len(cases)} cases differ")
        count += differ
    return count


def main() -> int:
    sys.setrecursionlimit(10_000)
    given = argparse.ArgumentParser(description="Compares what is expected of the cases with the model.")
    given.add_argument("folder", nargs="?", type=pathlib.Path, default=CASES)
    given.add_argument("--write", action="store_true")
    given.add_argument("--random", type=int, default=0)
    given.add_argument("--seed", type=int, default=1)
    given.add_argument("--http", action="store_true")
    given.add_argument("--worked", type=pathlib.Path)
    given.add_argument("--program", type=pathlib.Path)
    given = given.parse_args()
    if given.worked:
        return 1 if differing_worked(given.worked, given.program) else 0
    program = given.program or PROGRAM
    if given.random and not programs.is_built(program):
        print(f"skipped: no program at {program}")
        return 0
    if given.random:
        maker = random_cases.SessionCaseMaker if given.http else random_cases.CaseMaker
        return 1 if differing_at_random(program, given.seed, given.random, maker) else 0
    try:
        cases = case_file.read((given.folder / "stdin").read_bytes().decode())
        expected = "".join(map(case_file.printed, cases)).encode()
    except (case_file.Mistake, running.LeftOpen, OSError, UnicodeDecodeError) as fault:
        print(fault)
        return 1
    if len({case.name for case in cases}) < len(cases):
        print("two cases have one name")
        return 1
    if given.write:
        (given.folder / "stdout").write_bytes(expected)
    found = differing(cases, expected, (given.folder / "stdout").read_bytes())
    print(f"{found} of {len(cases)} cases differ")
    lacking = missing(cases) if given.folder == CASES else []
    for name in lacking:
        print(f"no case: {name}")
    return 1 if found or lacking else 0
