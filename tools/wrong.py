#!/usr/bin/env python3
"""Wrong bodies of functions, which a check has to refuse. They are tried when their crate changes, and not at each run of the gate.

    tools/wrong.py                    checks that each one still fits the file that it changes
    tools/wrong.py --try [CRATE]..    tries those of these crates, or all, by `rt must-fail` in a copy of the repository

`wrong_bodies/CRATE/NAME.edit` has the form of a must-fail edit: a line `file: PATH`, and then pairs of lines `old: TEXT` and
`new: TEXT`. Each old text stands exactly once in its file. The status is 1 if one does not fit, or is not refused.
"""
import collections.abc
import pathlib
import shutil
import subprocess
import sys
import tempfile

from raven_tools.places import CRATES, TOP

FOLDER = pathlib.Path(__file__).resolve().parent / "wrong_bodies"


def edits_of(crates: list[str]) -> list[pathlib.Path]:
    """The edits of these crates, or of all."""
    return sorted(edit for edit in FOLDER.glob("*/*.edit") if not crates or edit.parent.name in crates)


def misfits(edit: pathlib.Path) -> collections.abc.Iterator[str]:
    """What stands in the edit and not once in the file that it changes."""
    text = ""
    for line in edit.read_text().splitlines():
        word, _, rest = line.partition(": ")
        if word == "file":
            text = (CRATES / edit.parent.name / rest).read_text()
        elif word == "old" and text.count(rest) != 1:
            yield f"{edit.parent.name}/{edit.name}: {rest.strip()} stands {text.count(rest)} times"


def tried(edits: list[pathlib.Path]) -> int:
    """The status of `rt must-fail` with these edits and no others."""
    with tempfile.TemporaryDirectory(prefix="wrong-") as room:
        copy = pathlib.Path(room) / TOP.name
        shutil.copytree(TOP, copy, ignore=shutil.ignore_patterns("out", "must-fail", ".git"))
        for edit in edits:
            folder = copy / "crates" / edit.parent.name / "must-fail"
            folder.mkdir(exist_ok=True)
            shutil.copy(edit, folder)
        crates = sorted({edit.parent.name for edit in edits})
        return subprocess.run(["rt", "must-fail", *crates], cwd=copy).returncode


def main() -> int:
    is_try, crates = sys.argv[1:2] == ["--try"], sys.argv[2:]
    edits = edits_of(crates)
    found = [line for edit in edits for line in misfits(edit)]
    print(*found, f"{len(edits)} wrong bodies, {len(found)} do not fit", sep="\n")
    if found or not is_try:
        return bool(found)
    return tried(edits)


if __name__ == "__main__":
    sys.exit(main())
