"""What the sources of a crate say: what it exports, its public items, their comments and the names of their clauses."""

import collections.abc
import dataclasses
import pathlib
import re

from raven_tools.places import CRATES
from raven_tools.texts import first_sentence

EXPORT = re.compile(r"^pub use (?:crate::)?([a-z_0-9:]+)::(?:\{([^}]*)\}|(\w+))(?: as \w+)?;", re.M | re.S)
ITEM = re.compile(r"^(\s*)(pub(?:\([a-z]+\))? )?(?:final )?(?:const )?(fn|struct|enum|trait|type|const) (\w+)(?:<.*>)?(\(\))?")
BLOCK = re.compile(r"^impl(?:<.*?>)? (?:(?P<trait>[\w:<>, ]+) for )?(?P<type>\w+)")
CLAUSE = re.compile(r"^\s*ensures(?: (\w+))? \{")
BODY = re.compile(r"^\s*\{(\}|\s.*\})?\s*$")


@dataclasses.dataclass(frozen=True)
class Item:
    """A public item: its kind, its name, the type that it belongs to, its comment and its clauses, and whether it has no body."""

    kind: str
    name: str
    owner: str | None
    comment: str
    clauses: tuple[str, ...]
    is_law: bool


def purpose_of(crate: str) -> str:
    """The first sentence of what stands at the head of a crate."""
    for root in ("lib.rt", "main.rt"):
        file = CRATES / crate / "src" / root
        if file.exists():
            return first_sentence(" ".join(line[3:].strip() for line in file.read_text().splitlines() if line.startswith("//!")))
    return ""


def clauses_behind(lines: list[str]) -> tuple[list[str], str]:
    """The names of the `ensures` of the function whose head begins here, and the line with which its body begins."""
    names = []
    for line in lines:
        clause = CLAUSE.match(line)
        if clause:
            names.append(clause[1] or "-")
        if not line.strip() or BODY.match(line):
            return names, line.strip()
    return names, ""


def item_of(found: re.Match[str], owner: str | None, comment: list[str], lines: list[str]) -> Item:
    indent, _, kind, name, takes_nothing = found.groups()
    clauses, body = clauses_behind(lines) if kind == "fn" else ([], "")
    is_law = not indent and bool(takes_nothing) and body == "{}" and bool(clauses)
    return Item(kind, name, owner if indent else None, " ".join(comment), tuple(clauses), is_law)


def items_of(file: pathlib.Path) -> collections.abc.Iterator[Item]:
    """The items of a file that are public, with the methods of its types and traits."""
    lines = file.read_text().splitlines()
    comment, owner, is_trait, is_of_trait = [], None, False, False
    for at, line in enumerate(lines):
        if line.startswith("}"):
            owner, is_trait, is_of_trait = None, False, False
        if line.strip().startswith("///"):
            comment.append(line.strip()[3:].strip())
            continue
        block, found = BLOCK.match(line), ITEM.match(line)
        if block:
            owner, is_of_trait = block["type"], block["trait"] is not None
        if found:
            indent, visible, kind, name, _ = found.groups()
            is_public = visible == "pub " or (is_trait and kind == "fn")
            if is_public and not (is_of_trait and indent):
                yield item_of(found, owner, comment, lines[at:])
            if kind == "trait" and not indent:
                owner, is_trait = name, True
        if line.strip() and not line.strip().startswith("#["):
            comment = []


def exports_of(lib: str) -> collections.abc.Iterator[tuple[str, str]]:
    """What a library exports: pairs of a module, its own or another crate's, and a name."""
    for module, several, one in EXPORT.findall(lib):
        for name in (several or one).split(","):
            if name.strip():
                yield module, name.strip().split(" as ")[0]


def offer_of(crate: str) -> list[Item]:
    """What a crate offers: what it exports of its own, each type before its methods."""
    root = CRATES / crate / "src"
    lib = root / "lib.rt"
    read = {file: list(items_of(file)) for file in sorted(root.rglob("*.rt"))}
    found = []
    for module, name in exports_of(lib.read_text()) if lib.exists() else ():
        file = root / (module.replace("::", "/") + ".rt")
        if file in read:
            found += [item for item in read[file] if item.owner is None and item.name == name]
            beside = [items for other, items in read.items() if other.parent == file.parent]
            found += [item for items in beside for item in items if item.owner == name and item.kind == "fn"]
    return found
