"""What the refusals in the replies to a script mean: at which line, at which place of a text, and when such a refusal comes."""

import collections.abc
import dataclasses
import re
import typing

from raven_tools import model
from raven_tools.model.refused import Refused
from raven_tools.places import TOP

# Refusals of texts, whose `At` counts the bytes of the text.
OF_TEXTS = {"Unexpected", "UnknownName", "DuplicateField", "FieldsDiffer", "NotReducible", "TooLarge", "ClauseOrder", "BadNumber"}
# The longest piece of a line or of a text that is printed, in characters.
WIDTH = 100
ROW = re.compile(r"^\| (`.*?) \| (.*?) ?\| (.*) \|$", re.MULTILINE)
LINK = re.compile(r"\[([^\]]*)\]\([^)]*\)")
NAME = re.compile(r"`(\w+)`")

Reply = dict[str, typing.Any]


@dataclasses.dataclass(frozen=True)
class Cause:
    """A row of the table of refusals."""

    names: frozenset[str]
    members: frozenset[str]
    when: str


def causes() -> list[Cause]:
    """The rows of the table of docs/script.md."""
    page = (TOP / "docs/script.md").read_text()
    section = page.partition("\n## Refusals\n")[2].partition("\n## ")[0]
    rows = ROW.findall(section)
    return [Cause(frozenset(NAME.findall(names)), frozenset(NAME.findall(members)), LINK.sub(r"\1", when)) for names, members, when in rows]


def when_of(reply: Reply, table: list[Cause]) -> str | None:
    """When this refusal comes."""
    members = set(reply) - {"Error"}
    found = [cause.when for cause in table if reply["Error"] in cause.names and members == cause.members]
    return found[0] if found else "the file took nothing of this line" if reply["Error"] == "KeeperFault" else None


def refused_map(maps: list[str], reduce: str) -> str:
    """The first map that is refused with this reduce."""
    for text in maps:
        try:
            model.Static(text, reduce)
        except Refused:
            return text
    raise ValueError("no map is refused")


def text_of(line: str, reply: Reply) -> str | None:
    """The text in which the refusal names a place."""
    if reply["Error"] not in OF_TEXTS or "At" not in reply or "Len" in reply:
        return None
    word, _, rest = line.partition(" ")
    if word == "QUERY":
        return rest
    members = model.read_json(rest.encode())
    if word in ("ASK", "MASK"):
        return members["Query"]
    if reply["Part"] == "Reduce":
        return members["Reduce"]
    if word == "MULTI":
        return refused_map(members["Maps"], members["Reduce"])
    return members["Maps"][0] if "Maps" in members else members["Map"]


def pointed(text: str, at: int) -> list[str]:
    """The piece of the text around this byte, and a mark below it."""
    before = text.encode()[:at].decode()
    begin = max(before.rfind("\n") + 1, len(before) - WIDTH // 2)
    piece = text[begin : begin + WIDTH].partition("\n")[0]
    return [re.sub(r"\s", " ", piece), " " * (len(before) - begin) + "^"]


def explained(number: int, line: str, reply: Reply, table: list[Cause]) -> collections.abc.Iterator[str]:
    shown = re.sub(r"[\x00-\x1f\x7f]", " ", line[:WIDTH])
    yield f"line {number}: {shown}{'..' if len(line) > WIDTH else ''}"
    yield f"  {model.write_json(reply)}"
    text = text_of(line, reply)
    if text is not None:
        yield from (f"  {row}".rstrip() for row in pointed(text, reply["At"]))
    when = when_of(reply, table)
    if when:
        yield f"  if {when}"


def explain(script: bytes, replies: bytes) -> collections.abc.Iterator[str]:
    """What is said of each refused line. The replies may end early."""
    asked = [(number, line) for number, line in enumerate(model.lines(script), 1) if line]
    given = replies.split(b"\n")[:-1]
    table = causes()
    for (number, line), written in zip(asked, given):
        reply = model.read_json(written)
        if "Error" in reply:
            yield from explained(number, line.decode(errors="replace"), reply, table)
    if len(given) < len(asked):
        yield f"the replies end before line {asked[len(given)][0]}"
    if len(given) > len(asked):
        yield f"there are {len(given) - len(asked)} replies too many"
