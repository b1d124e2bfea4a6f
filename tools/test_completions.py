#!/usr/bin/env python3
"""Tests of examples/raven.bash, by bash: it completes the commands and options of the program, which are those of the model and, if the program
is built, those of its help.

    tools/test_completions.py

It ends with 0 if every test holds, and otherwise at the first assertion that does not.
"""

import re
import subprocess
import sys
import tempfile

sys.dont_write_bytecode = True
from raven_tools import programs
from raven_tools.model.usage import OPTIONS
from raven_tools.places import PROGRAM, TOP

FILE = TOP / "examples/raven.bash"
ASK = 'source "$0"; COMP_WORDS=(raven "$@"); COMP_CWORD=$#; _raven; printf "%s\\n" "${COMPREPLY[@]}"'


def completed(*words: str, folder: str = ".") -> list[str]:
    """What the last word is completed to, after the others."""
    ended = subprocess.run(["bash", "-c", ASK, str(FILE), *words], cwd=folder, capture_output=True, text=True, timeout=60)
    assert ended.returncode == 0, ended
    return sorted(ended.stdout.split())


def test_names() -> None:
    assert completed("") == sorted([*OPTIONS, "--help", "--version"])
    for command, options in OPTIONS.items():
        assert completed(command, "") == sorted([*options, "--help"]), command
        assert completed(command, list(options)[0], "x", "") == sorted(list(options)[1:]), command


def test_words() -> None:
    assert completed("s") == ["serve"]
    assert completed("serve", "--p") == ["--port", "--pumps"]
    assert completed("serve", "--port", "1", "--p") == ["--pumps"]
    assert completed("serve", "--port", "") == completed("help", "") == []


def test_paths() -> None:
    with tempfile.TemporaryDirectory() as folder:
        for name in ("people.db", "people.db-wal", "other"):
            open(f"{folder}/{name}", "w").close()
        assert completed("run", "--data", "p", folder=folder) == ["people.db", "people.db-wal"]
        assert completed("run", "--id", "p", folder=folder) == []


def test_program() -> None:
    if not programs.is_built(PROGRAM):
        return
    for command, options in OPTIONS.items():
        help_text = programs.call(PROGRAM, [command, "--help"], b"").stdout.decode()
        assert set(re.findall(r"--[a-z]+", help_text)) - {"--help"} == set(options), command


if __name__ == "__main__":
    test_names()
    test_words()
    test_paths()
    test_program()
    print("the completions hold")
