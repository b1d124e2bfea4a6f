"""The definitions of indexes that a script can make."""

import collections.abc
import dataclasses
import functools
import typing

from raven_tools import language
from raven_tools.language import definitions
from raven_tools.language.meaning import Load
from raven_tools.language.reduces import Reduce
from raven_tools.model.json import Json
from raven_tools.model.refused import Refused
from raven_tools.queries.answers import at_path
from raven_tools.queries.trees import COUNT, Path, joined, sum_name
from raven_tools.scalars import Scalar

Paths: typing.TypeAlias = tuple[Path, ...]
Document: typing.TypeAlias = dict[str, Json]
Entry: typing.TypeAlias = dict[str, Scalar]
# The version of the rows that are written. Those of the first version, which say none, are read too.
VERSION = 2


def scalar_at(body: Document, path: Path) -> Scalar:
    """What is at the path of a document. A list or an object counts as null."""
    value = at_path(body, path)
    return None if isinstance(value, (list, dict)) else value


def in_json(paths: collections.abc.Iterable[Path]) -> list[Json]:
    return [list(path) for path in paths]


@dataclasses.dataclass(frozen=True)
class Auto:
    """An automatic index: the entry of each document of the collection has what is at these paths of it."""

    collection: str
    paths: Paths
    reduce: typing.ClassVar[Reduce | None] = None

    def scope(self) -> set[str]:
        return {self.collection}

    def fields(self) -> list[str]:
        return list(map(joined, self.paths))

    def is_same(self, other: "Definition") -> bool:
        return self == other

    def entry(self, body: Document, load: Load) -> Entry:
        return {joined(path): scalar_at(body, path) for path in self.paths}

    def body(self) -> Document:
        return {"Collection": self.collection, "Fields": in_json(self.paths), "Kind": "auto", "Version": VERSION}


@dataclasses.dataclass(frozen=True)
class AutoReduce:
    """An automatic index with a row for each group of documents of the collection, which has their number and some sums."""

    collection: str
    groups: Paths
    sums: Paths

    @functools.cached_property
    def reduce(self) -> Reduce:
        key = tuple(map(joined, self.groups))
        folds = [COUNT, *map(sum_name, self.sums)]
        members = [*((name, ("key", name)) for name in key), *((name, ("fold", "Sum", "x", name)) for name in folds)]
        return Reduce("r", "g", key, tuple(members))

    def scope(self) -> set[str]:
        return {self.collection}

    def fields(self) -> list[str]:
        return [name for name, _ in self.reduce.members]

    def is_same(self, other: "Definition") -> bool:
        return self == other

    def entry(self, body: Document, load: Load) -> Entry:
        sums = {sum_name(path): scalar_at(body, path) for path in self.sums}
        return {**{joined(path): scalar_at(body, path) for path in self.groups}, COUNT: 1, **sums}

    def body(self) -> Document:
        kind = {"Collection": self.collection, "Kind": "auto-reduce", "Version": VERSION}
        return {**kind, "Groups": in_json(self.groups), "Sums": in_json(self.sums)}


class Static:
    """An index by the texts of a map and of a reduce, if there is one. Whether two are the same depends on their trees alone."""

    def __init__(self, text: str, reduce_text: str | None = None):
        try:
            self.trees = definitions.parse(text, reduce_text)
        except definitions.Refusal as refusal:
            raise Refused(refusal.kind, At=refusal.at, Part=refusal.part) from None
        self.tree = self.trees.map
        self.reduce = self.trees.reduce
        self.text = text
        self.reduce_text = reduce_text
        self.collection = self.tree.collection

    def scope(self) -> set[str]:
        return language.scope_of(self.tree)

    def fields(self) -> list[str]:
        return [name for name, _ in self.tree.members]

    def is_same(self, other: "Definition") -> bool:
        return isinstance(other, Static) and self.trees == other.trees

    def entry(self, body: Document, load: Load) -> Entry | None:
        return language.entry_of(self.tree, body, load)

    def body(self) -> Document:
        return {"Kind": "static", "Map": self.text, "Reduce": self.reduce_text, "Version": VERSION}

    def has_quotient(self) -> bool:
        """No row of the first version has one."""
        return self.reduce is not None and any(value[0] == "quotient" for _, value in self.reduce.members)


Definition: typing.TypeAlias = Auto | AutoReduce | Static
