"""The commands that docs/http.md and docs/tour.md show, each with what it has to write: the page is the one source of both."""

import dataclasses
import re

from raven_tools.places import TOP

PAGES = ("http", "tour")
# The address that the pages write.
ADDRESS = "127.0.0.1:8080"
BLOCK = re.compile(r"^```(sh|http)\n(.*?)^```$", re.MULTILINE | re.DOTALL)
CURL = re.compile(r"^ *curl .*$", re.MULTILINE)
# Where a page starts the server. Before its first command that says only how it is done.
START = re.compile(r"^    raven serve ", re.MULTILINE)


@dataclasses.dataclass(frozen=True)
class Example:
    command: str
    written: str
    restarts: bool = False


def examples(name: str) -> list[Example]:
    """A block of a command comes before that of what it writes. Every line of the page that begins with `curl` is in one of these. Where the
    page starts the server once more, the next command is asked of a server over the same file."""
    path = TOP / f"docs/{name}.md"
    page = path.read_text()
    blocks = list(BLOCK.finditer(page))
    kinds = [block[1] for block in blocks]
    if kinds != ["sh", "http"] * (len(kinds) // 2):
        raise ValueError(f"{path}: each block of a command has one of what it writes behind it")
    found, end = [], None
    for asked, answered in zip(blocks[::2], blocks[1::2]):
        restarts = end is not None and START.search(page, end, asked.start()) is not None
        found.append(Example(asked[2], answered[2], restarts))
        end = answered.end()
    outside = set(CURL.findall(page)) - {line for example in found for line in example.command.split("\n")}
    if outside:
        raise ValueError(f"{path}: not in a block of a command: {sorted(outside)}")
    return found
