"""Runs of the built program, and how what it writes is compared."""

import collections.abc
import dataclasses
import os
import pathlib
import subprocess
import tempfile

from raven_tools.places import CRATES

Path = str | os.PathLike[str]
# Statuses, by the names that the program reports.
STATUSES = {
    0: "Done",
    2: "Usage",
    3: "ReadFault",
    4: "WriteFault",
    5: "KeptFault",
    6: "KeptBad",
    7: "DoorFault",
    8: "NoThread",
    9: "InputTooLarge",
    10: "NoMemory",
    11: "HttpRefused",
    12: "Enough",
    13: "NotEmpty",
}
NUMBERS = {name: number for number, name in STATUSES.items()}


def number_of(said: str) -> int:
    """The status of a run of which standard error says this."""
    return NUMBERS[said.partition("\n")[0].removeprefix("raven: ")]


@dataclasses.dataclass(frozen=True)
class Given:
    """What one run is given, and what it is called."""

    name: str
    data: bytes
    arguments: tuple[str, ...] = ("run",)


def is_built(program: Path) -> bool:
    return os.access(program, os.X_OK)


def call(program: Path, arguments: collections.abc.Sequence[Path], data: bytes, timeout: float = 600) -> subprocess.CompletedProcess[bytes]:
    return subprocess.run([program, *arguments], input=data, capture_output=True, timeout=timeout)


def run(program: Path, script: bytes, *options: Path, timeout: float = 600) -> subprocess.CompletedProcess[bytes]:
    """One run of a script."""
    return call(program, ["run", *options], script, timeout)


def takes_data(program: Path) -> bool:
    """Whether the program keeps documents in a file."""
    with tempfile.TemporaryDirectory() as folder:
        return run(program, b"", "--data", os.path.join(folder, "first")).returncode != 2


def tried(scripts: dict[str, bytes], folder: pathlib.Path) -> tuple[dict[str, bytes], str]:
    """What `rt try` writes for each script, and its messages. It builds the program once, and proves nothing.

    The scripts are left in the folder, each in a file of its name. Of a script that was not run nothing is given.
    """
    for name, script in scripts.items():
        (folder / name).write_bytes(script)
    command = ["rt", "try", "--seconds", "600", "--cases", str(folder), "--", "run"]
    ended = subprocess.run(command, cwd=CRATES / "raven", capture_output=True)
    written: dict[str, bytes] = {}
    name = None
    # It prints `== NAME` before what a script writes; no reply begins like this.
    for line in ended.stdout.split(b"\n")[:-1]:
        if line.startswith(b"== "):
            name = line[3:].decode()
            written[name] = b""
        elif name is not None:
            written[name] += line + b"\n"
    return written, ended.stderr.decode(errors="replace")


def first_difference(expected: bytes, found: bytes, names: tuple[str, str] = ("model", "program")) -> str:
    """The first reply, or line of a response, that differs, or how many each has."""
    left, right = expected.split(b"\n"), found.split(b"\n")
    for at, (mine, its) in enumerate(zip(left, right)):
        if mine != its:
            width = max(map(len, names))
            return f"reply {at + 1}:\n  {names[0]:{width}}  {mine[:300]!r}\n  {names[1]:{width}}  {its[:300]!r}"
    return f"the {names[0]} writes {len(left) - 1} replies and the {names[1]} {len(right) - 1}"
