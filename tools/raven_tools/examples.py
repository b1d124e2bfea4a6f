"""The scripts of examples/ and those that pages of docs/ show, each with what has to be written for it."""

import dataclasses
import re

from raven_tools.places import TOP

# The pages with scripts.
PAGES = ["script", "queries", "replacing", "documents"]
BLOCK = re.compile(r"^```(raven|replies)\n(.*?)^```$", re.MULTILINE | re.DOTALL)


@dataclasses.dataclass(frozen=True)
class Example:
    name: str
    script: bytes
    expected: bytes


def in_files() -> list[Example]:
    paths = sorted((TOP / "examples").glob("*.raven"))
    return [Example(path.stem, path.read_bytes(), path.with_suffix(".expected").read_bytes()) for path in paths]


def on_page(page: str) -> list[Example]:
    """On a page the block of a script comes before that of its replies."""
    blocks = BLOCK.findall((TOP / f"docs/{page}.md").read_text())
    texts = {kind: [text.encode() for of, text in blocks if of == kind] for kind in ("raven", "replies")}
    pairs = zip(texts["raven"], texts["replies"], strict=True)
    return [Example(f"{page}-md-{number:02}", *pair) for number, pair in enumerate(pairs, 1)]


def every() -> list[Example]:
    return in_files() + [example for page in PAGES for example in on_page(page)]
