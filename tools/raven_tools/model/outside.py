"""What a run of the program is given from outside, and the options that its arguments say."""

import collections.abc
import dataclasses
import re

from raven_tools import model

BASE = re.compile(r"[A-Za-z0-9]{22}", re.ASCII)
NAME = re.compile(r"[A-Za-z0-9_-]{1,64}", re.ASCII)
NUMBER = re.compile(r"[0-9]{1,10}", re.ASCII)


class LeftOpen(Exception):
    """The answer depends on something that the rules leave open, so no case may ask for it."""


@dataclasses.dataclass(frozen=True)
class Clock:
    """Its first call gives `moment`, and each further one `step` more."""

    moment: int = 0
    step: int = 0


@dataclasses.dataclass
class Outside:
    """What a run is given besides the keeper. The calls that fail are counted from 1."""

    arguments: tuple[str, ...] = ("run",)
    clock: Clock = Clock()
    reads: frozenset[int] = frozenset()
    writes: frozenset[int] = frozenset()
    script: bytes = b""  # what is read, of whatever command
    gives: int | None = None  # the most bytes that a call of the input gives; None if it gives as many as it is asked for
    crew: frozenset[int] = frozenset()
    doors: list["Door"] = dataclasses.field(default_factory=list)


@dataclasses.dataclass
class Door:
    """Its accepts that fail, its connections, each with what is read from it and which of its calls fail, and what was written to
    those that came back."""

    accepts: frozenset[int] = frozenset()
    connections: list[Outside] = dataclasses.field(default_factory=list)
    back: list[bytes] = dataclasses.field(default_factory=list)

    def accepted(self) -> list[Outside]:
        """The connections before the first accept that fails."""
        first = min(self.accepts - {0}, default=len(self.connections) + 1)
        return self.connections[: first - 1]

    def is_failing(self) -> bool:
        return len(self.accepted()) < len(self.connections)


def pairs_of(
    arguments: tuple[str, ...], command: str, names: collections.abc.Set[str]
) -> dict[str, str] | None:
    """The options, or None if the arguments are not the command and then pairs of such a name and a value, no name twice."""
    if not arguments or arguments[0] != command or len(arguments) % 2 == 0:
        return None
    given, values = arguments[1::2], arguments[2::2]
    found = dict(zip(given, values))
    if len(found) < len(given) or not found.keys() <= names:
        return None
    return None if any(not value or value.startswith("-") for value in values) else found


def base_of(options: dict[str, str]) -> str | None:
    """The base id among the options, or None if it cannot be one."""
    base = options.get("--id", model.BASE)
    return base if BASE.fullmatch(base) else None


def name_of(options: dict[str, str]) -> str | None:
    """The name of the database among the options, or None if it cannot be one."""
    name = options.get("--db", "db")
    return name if NAME.fullmatch(name) else None
