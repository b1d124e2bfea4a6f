"""The optimiser: which automatic index a question uses, which one is made for it, and which are no longer of use."""

import dataclasses
import typing

from raven_tools.model import slots
from raven_tools.model.database import Database
from raven_tools.model.definitions import Auto, AutoReduce, Definition, Paths
from raven_tools.model.documents import fault_of
from raven_tools.model.indexes import Index
from raven_tools.model.limits import MAX_FIELDS, MAX_NEW_NAME, MAX_PATHS
from raven_tools.queries import binding
from raven_tools.queries.trees import Query, in_order, joined
from raven_tools.texts import size


@dataclasses.dataclass(frozen=True)
class Shape:
    """What a question asks an index for: fields of a collection, or the sums of fields over groups. Paths are in their order."""

    collection: str
    fields: Paths
    groups: Paths = ()
    is_grouped: bool = False

    def is_like(self, other: "Shape") -> bool:
        """Whether one index can have the fields of both."""
        mine, its = ((shape.collection, shape.is_grouped, shape.groups) for shape in (self, other))
        return mine == its

    def covers(self, other: "Shape") -> bool:
        return self.is_like(other) and set(self.fields) >= set(other.fields)


def shape_of(query: Query) -> Shape:
    """The shape of a question about some documents of a collection, which no test of it alone has refused."""
    named = list(binding.named(query))
    if query.groups:
        sums = [field[1] for _, field in named if field[0] == "sum"]
        return Shape(query.origin[1], in_order(sums), in_order(query.groups), True)
    return Shape(query.origin[1], in_order(field[1] for clause, field in named if clause != "select"))


def shape_of_index(definition: Definition) -> Shape | None:
    """What an automatic index has."""
    if isinstance(definition, Auto):
        return Shape(definition.collection, definition.paths)
    if isinstance(definition, AutoReduce):
        return Shape(definition.collection, definition.sums, definition.groups, True)
    return None


def definition_of(shape: Shape) -> Auto | AutoReduce:
    if shape.is_grouped:
        return AutoReduce(shape.collection, shape.groups, shape.fields)
    return Auto(shape.collection, shape.fields)


class Offer(typing.NamedTuple):
    """An automatic index that may be used."""

    shape: Shape
    index: Index


def offers(database: Database) -> list[Offer]:
    shapes = [(shape_of_index(index.definition), index) for index in database.indexes]
    return [Offer(shape, index) for shape, index in shapes if shape]


# The choice


def pick(database: Database, shape: Shape) -> Index | None:
    """Of the indexes that cover the shape the fresh ones come first, then those of the fewest fields, then that of the least number."""

    def rank(offer: Offer) -> tuple[bool, int, int]:
        return database.is_stale(offer.index), len(offer.shape.fields), offer.index.number

    covering = [offer for offer in offers(database) if offer.shape.covers(shape)]
    return min(covering, key=rank).index if covering else None


def widened(shape: Shape, others: list[Shape]) -> Shape:
    """The shape with the fields of the others, if these are not too many."""
    fields = in_order(path for each in (shape, *others) for path in each.fields)
    is_too_wide = len(fields) > MAX_FIELDS or sum(size(joined(path)) for path in fields) > MAX_PATHS
    return shape if is_too_wide else dataclasses.replace(shape, fields=fields)


def plain_name(shape: Shape) -> str:
    values = list(map(joined, shape.fields))
    if shape.is_grouped:
        values = sorted(["Count", *values], key=str.encode)
    grouped = "ReducedBy" + "And".join(map(joined, shape.groups)) if shape.is_grouped else ""
    return f"Auto/{shape.collection}/By{'And'.join(values)}{grouped}"


def free_name(database: Database, name: str) -> str:
    if not database.serving(name):
        return name
    number = 2
    while database.serving(f"{name}/{number}"):
        number += 1
    return f"{name}/{number}"


def name_for(database: Database, shape: Shape) -> str:
    """A name that is free. If it cannot be one, the next number is in its place."""
    name = free_name(database, plain_name(shape))
    return free_name(database, f"Auto/{database.store.last + 1}") if fault_of(name, MAX_NEW_NAME) else name


def index_for(database: Database, shape: Shape) -> Index:
    """The index that is used for the shape, or one that is made for it and takes in the fields of those like it."""
    used = pick(database, shape)
    if used:
        return used
    others = [offer.shape for offer in offers(database) if offer.shape.is_like(shape)]
    wide = widened(shape, others)
    return slots.make(database, name_for(database, wide), definition_of(wide))


def retired(database: Database) -> list[Index]:
    """The indexes all of whose fields another one has, which has more and has come as far."""
    every = offers(database)

    def is_useless(offer: Offer) -> bool:
        covering = [other for other in every if other.shape.covers(offer.shape)]
        wider = [other for other in covering if len(other.shape.fields) > len(offer.shape.fields)]
        return any(other.index.etag >= offer.index.etag for other in wider)

    return [offer.index for offer in every if is_useless(offer)]
