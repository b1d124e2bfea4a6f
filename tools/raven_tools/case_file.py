"""The cases of runs in `crates/raven_cases/stdin`: how they are written, and what is printed of them.

A case begins with `== NAME`. These lines come before its script, in any order:

    arguments A A ..     the arguments; without the line `run`, and none at all if nothing follows it
    clock M [+S]         the first call of the clock gives M, and each further one S more; without the line 0
    gives N              each call of the input gives at most N bytes; without the line, as many as it is asked for
    reads N .., writes N .., keeps N ..      the calls of the input, of the output and of the keeper that fail
    row ETAG MOMENT      a row that the keeper holds at the start, with `id`, `collection` and `body` lines behind it
    rows                 the rows that the keeper is left with are printed too
    crew N ..            the calls of the crew that fail
    door                 begins a door, with `accepts N ..` behind it, the accepts that fail
    connection           begins a connection of the door begun last. `reads`, `writes` and what is read are its own from then on

The script, or the bytes of a session over HTTP, has `> LINE`, a line with its LF; `< LINE`, one with CR LF; `>N LINE` and
`<N LINE`, N such lines; and `| TEXT`, a piece without a line end. `again` begins a further run over the keeper that was handed
back. In values `⟨0d⟩` is a byte, `⟨3*ab⟩` is `ababab`, and `⟨n⟩` is the number of the copy of a line that is there several
times. Empty lines, and lines that begin with `#`, are passed over.
"""

import dataclasses
import re

from raven_tools import model
from raven_tools.model import keeping, outside, running

MARK = re.compile(r"⟨(?:(?P<bytes>(?:[0-9a-f]{2})+)|(?P<count>[0-9]+)\*(?P<text>[^⟨⟩]*)|(?P<number>n))⟩|[⟨⟩]")
LINE = re.compile(r"(?P<mark>[<>])(?P<count>[1-9][0-9]*)?(?: (?P<text>.*))?")
LINE_ENDS = {">": b"\n", "<": b"\r\n"}
# Of what is written, a line with its end, or what stands behind the last of them.
WRITTEN = re.compile(rb"[^\n]*\n|[^\n]+")
NUMBERS = re.compile(r"[0-9]+(?: [0-9]+)*", re.ASCII)
CLOCK = re.compile(r"([0-9]+)(?: \+([0-9]+))?", re.ASCII)


class Mistake(Exception):
    """A line of the file that is not valid."""

    def __init__(self, number, text):
        super().__init__(f"mistake in line {number}: {text}")


@dataclasses.dataclass
class Run:
    outside: running.Outside
    shows_rows: bool = False


@dataclasses.dataclass
class Case:
    name: str
    runs: list[Run]
    rows: list[keeping.KeptRow] = dataclasses.field(default_factory=list)
    keeps: tuple[int, ...] = ()


def written_out(value: str, number: int | None = None) -> bytes:
    """The bytes that a value stands for."""

    def meant(found):
        if found["bytes"]:
            return bytes.fromhex(found["bytes"])
        if found["count"]:
            return int(found["count"]) * found["text"].encode()
        if found["number"] and number is not None:
            return str(number).encode()
        raise ValueError(f"a mark that has no meaning: {found.group()}")

    parts, at = [], 0
    for found in MARK.finditer(value):
        parts += [value[at : found.start()].encode(), meant(found)]
        at = found.end()
    return b"".join([*parts, value[at:].encode()])


def part_of(line: str) -> bytes:
    """The bytes of a line of a script, or of a piece of one."""
    if line.startswith("| "):
        return written_out(line[2:])
    found = LINE.fullmatch(line)
    if not found or found["count"] and found["text"] is None:
        raise ValueError(f"not a line of a script: {line}")
    text, end = found["text"] or "", LINE_ENDS[found["mark"]]
    numbers = range(1, int(found["count"]) + 1) if found["count"] else [None]
    return b"".join(written_out(text, number) + end for number in numbers)


def numbers_of(value: str) -> tuple[int, ...]:
    if not NUMBERS.fullmatch(value):
        raise ValueError(f"not numbers: {value}")
    return tuple(map(int, value.split(" ")))


def number_of(value: str) -> int:
    """One number, which is not 0."""
    numbers = numbers_of(value)
    if len(numbers) > 1 or not numbers[0]:
        raise ValueError(f"not a number of bytes: {value}")
    return numbers[0]


def clock_of(value: str) -> running.Clock:
    found = CLOCK.fullmatch(value)
    if not found:
        raise ValueError(f"not a clock: {value}")
    return running.Clock(int(found[1]), int(found[2] or 0))


class Reader:
    """Reads the cases line by line."""

    def __init__(self):
        self.cases: list[Case] = []

    @property
    def case(self) -> Case:
        if not self.cases:
            raise ValueError("no case has begun")
        return self.cases[-1]

    @property
    def outside(self) -> running.Outside:
        return self.case.runs[-1].outside

    @property
    def ends(self) -> running.Outside:
        """The connection that was begun last, or without a door the run."""
        return self.outside.doors[-1].connections[-1] if self.outside.doors else self.outside

    def line(self, line: str) -> None:
        if not line or line.startswith("#"):
            return
        if line.startswith(("== ", ">", "<", "| ")):
            return self.part_of_script(line)
        word, _, value = line.partition(" ")
        if word in ("rows", "again", "door", "connection") and word == line:
            return self.alone(word)
        if word in ("id", "collection", "body"):
            return setattr(self.case.rows[-1], word, written_out(value).decode())
        if word == "row":
            return self.row(*numbers_of(value))
        self.given(word, value)

    def part_of_script(self, line):
        if line.startswith("== "):
            self.cases.append(Case(line[3:], [Run(running.Outside())]))
        else:
            self.ends.script += part_of(line)

    def alone(self, word):
        if word == "rows":
            self.case.runs[-1].shows_rows = True
        elif word == "door":
            self.outside.doors.append(outside.Door())
        elif word == "connection":
            self.outside.doors[-1].connections.append(running.Outside())
        else:
            self.case.runs.append(Run(running.Outside()))

    def row(self, etag, changed):
        if len(self.case.runs) > 1 or self.case.rows and self.case.rows[-1].etag >= etag:
            raise ValueError("the rows that the keeper holds at the start come before `again`, and their etags rise")
        self.case.rows.append(keeping.KeptRow(etag, "", "@empty", None, changed))

    def given(self, word, value):
        if word == "arguments":
            self.outside.arguments = tuple(written_out(value).decode().split(" ")) if value else ()
        elif word == "clock":
            self.outside.clock = clock_of(value)
        elif word == "gives":
            self.outside.gives = number_of(value)
        elif word in ("reads", "writes"):
            setattr(self.ends, word, frozenset(numbers_of(value)))
        elif word == "crew":
            self.outside.crew = frozenset(numbers_of(value))
        elif word == "accepts":
            self.outside.doors[-1].accepts = frozenset(numbers_of(value))
        elif word == "keeps" and len(self.case.runs) == 1:
            self.case.keeps = numbers_of(value)
        else:
            raise ValueError(f"not a line of a case: {word} {value}")


def read(text: str) -> list[Case]:
    """The cases of a file, whose lines each end with a LF."""
    reader = Reader()
    for number, line in enumerate(text.split("\n")[:-1], 1):
        try:
            reader.line(line)
        except (ValueError, TypeError, IndexError) as fault:
            raise Mistake(number, fault) from None
    return reader.cases


# What is printed


def printed_row(row: keeping.KeptRow) -> str:
    """A row that the keeper is left with."""
    id_and_collection = f"{model.quoted(row.id)} {model.quoted(row.collection)}"
    return f"row {row.etag} {row.changed} {id_and_collection} {'deleted' if row.body is None else row.body}\n"


def printed_line(line: bytes) -> str:
    """A line that was written. Before the first one of a response stands what the one before it has behind its last line end."""
    if not line.endswith(b"\n"):
        return f"| {line.decode()}\n"
    if not line.endswith(b"\r\n"):
        return f"> {line[:-1].decode()}\n"
    before, first, rest = line[:-2].decode().rpartition("HTTP/1.1 ")
    body = f"| {before}\n" if before else ""
    return body + (f"< {first}{rest}\n" if first or rest else "<\n")


def printed_output(written: bytes) -> str:
    return "".join(map(printed_line, WRITTEN.findall(written)))


def printed_door(door: outside.Door) -> str:
    """The connections that came back, with what was written to them, and how many are left."""
    back = "".join(f"connection\n{printed_output(written)}" for written in door.back)
    left = len(door.connections) - len(door.back)
    return f"door\n{back}" + (f"left {left}\n" if left else "")


def printed_run(run: Run, keeper: keeping.Keeper) -> str:
    status, written = running.run(run.outside, keeper)
    doors = "".join(map(printed_door, run.outside.doors))
    rows = "".join(map(printed_row, keeper.rows)) if run.shows_rows else ""
    return f"status {status}\n" + printed_output(written) + doors + rows


def printed(case: Case) -> str:
    """What has to be printed of a case, by the rules."""
    keeper = keeping.Keeper(case.rows, case.keeps)
    return f"== {case.name}\n" + "again\n".join(printed_run(run, keeper) for run in case.runs) + "\n"
