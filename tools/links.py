#!/usr/bin/env python3
"""Tries what README.md, those of bench/ and examples/, and the pages of docs/ point at: each relative link, and each path and name of the code in backticks.

    tools/links.py

It prints each that leads nowhere; the status is then 1. What is made by a build, in a folder `out`, is passed over. A name of the code
is one with `_` or `::` in it. Each word of it has to stand somewhere in crates/, tools/ or bench/, so a law or a clause that was given another name
is found. A call of a type, as `Live::open`, has to be a public call of a crate. Parts of pages that are made are passed over too:
tools/pages.py checks them.
"""

import collections.abc
import pathlib
import re
import sys

sys.dont_write_bytecode = True
from raven_tools.pages.sources import offer_of
from raven_tools.places import CRATES, TOP

MADE = re.compile(r"<!-- (\w+): made.*?<!-- \1: end -->", re.DOTALL)
NAME = re.compile(r"`(\w+(?:::\w+)+|[A-Za-z]\w*_\w+)`")
CALL = re.compile(r"`([A-Z]\w*::\w+)(?:\(|`)")
CODE = {".rt", ".antt", ".py", ".sql", ".txt", ".edit", ""}
BLOCK = re.compile(r"^```.*?^```$", re.MULTILINE | re.DOTALL)
LINK = re.compile(r"\]\(([^)\s]+)\)")
PATH = re.compile(r"`((?:\.ci|bench|crates|docs|examples|tools)/[^`\s]*)")


def links_of(page: pathlib.Path, text: str) -> list[tuple[str, pathlib.Path]]:
    """The files that the page links to, without those of other places."""
    targets = [target.partition("#")[0] for target in LINK.findall(text) if not re.match(r"[a-z]+:", target)]
    return [(target, page.parent / target) for target in targets if target]


def anchors_in(page: pathlib.Path) -> set[str]:
    """The anchors of the headings of a page, made of their text as hosts of such pages do."""
    heads = [line.lstrip("#").strip().lower() for line in page.read_text().splitlines() if line.startswith("#")]
    return {re.sub(r"[^\w\- ]", "", head).replace(" ", "-") for head in heads}


def lost_anchors(page: pathlib.Path, text: str) -> collections.abc.Iterator[str]:
    """The links of the page that lead to a heading that is not there."""
    for target in LINK.findall(text):
        file, mark, anchor = target.partition("#")
        other = page.parent / file if file else page
        if mark and not re.match(r"[a-z]+:", target) and other.suffix == ".md" and other.exists() and anchor not in anchors_in(other):
            yield target


def paths_of(text: str) -> list[tuple[str, pathlib.Path]]:
    """The paths in backticks, each with what is there or the pattern that has to find something."""
    paths = [path.rstrip(".,:") for path in PATH.findall(text)]
    return [(path, TOP / path) for path in paths if "/out/" not in path]


def words_of_code() -> set[str]:
    """Each word of the sources, and of the names of their files and folders."""
    found: set[str] = set()
    for folder in ("crates", "tools", "bench"):
        for file in (TOP / folder).rglob("*"):
            found |= set(re.findall(r"\w+", file.name))
            if file.suffix in CODE and file.is_file() and "out" not in file.parts:
                found |= set(re.findall(r"\w+", file.read_text()))
    return found


def lost_names(text: str, words: set[str]) -> collections.abc.Iterator[str]:
    """The names of the code of which a word stands nowhere in it."""
    for name in sorted(set(NAME.findall(MADE.sub("", text)))):
        if not words.issuperset(name.split("::")):
            yield name


def calls_of_types() -> set[str]:
    """The public calls of the types of all crates."""
    crates = [folder.name for folder in CRATES.iterdir() if folder.is_dir()]
    return {f"{item.owner}::{item.name}" for crate in crates for item in offer_of(crate) if item.kind == "fn" and item.owner}


def lost_calls(text: str, calls: set[str]) -> list[str]:
    """The calls of types that are none."""
    return sorted(set(CALL.findall(MADE.sub("", text))) - calls)


def is_there(target: pathlib.Path) -> bool:
    if "*" in target.name:
        return any(target.parent.glob(target.name))
    return target.exists()


def main() -> int:
    count, lost, words = 0, 0, words_of_code()
    calls = calls_of_types()
    for page in [TOP / "README.md", TOP / "bench/README.md", TOP / "examples/README.md", *sorted((TOP / "docs").glob("*.md"))]:
        text = BLOCK.sub("", page.read_text())
        for name, target in links_of(page, text) + paths_of(text):
            count += 1
            if not is_there(target):
                lost += 1
                print(f"{page.relative_to(TOP)}: {name} leads nowhere")
        for name in lost_anchors(page, text):
            lost += 1
            print(f"{page.relative_to(TOP)}: {name} leads to no heading")
        for name in lost_names(text, words):
            lost += 1
            print(f"{page.relative_to(TOP)}: {name} stands nowhere in the code")
        for name in lost_calls(text, calls):
            lost += 1
            print(f"{page.relative_to(TOP)}: {name} is no public call")
    print(f"{lost} of {count} links and paths lead nowhere")
    return 1 if lost else 0


if __name__ == "__main__":
    sys.exit(main())
