"""Opening: the database that the rows of a keeper lead to."""

from raven_tools import model
from raven_tools.model import keeping
from raven_tools.model.definitions import VERSION, Auto, AutoReduce, Definition, Document, Paths, Static
from raven_tools.model.indexes import REPLACEMENT, Index, is_replacement
from raven_tools.model.json import Json
from raven_tools.model.limits import MAX_NEW_NAME, Limits
from raven_tools.queries.trees import in_order
from raven_tools.scalars import is_number
from raven_tools.texts import folded

# The members of the body of a definition, by its kind. Those of the second version say so in one more.
MEMBERS = {
    "static": {"@metadata", "Kind", "Map", "Reduce"},
    "auto": {"@metadata", "Collection", "Fields", "Kind"},
    "auto-reduce": {"@metadata", "Collection", "Groups", "Kind", "Sums"},
}


def is_part(value: Json) -> bool:
    return isinstance(value, str) and value != "" and not set(value) & set(".()")


def is_path(value: Json) -> bool:
    return isinstance(value, list) and value != [] and all(map(is_part, value))


def paths_of(value: Json) -> Paths | None:
    """A list of paths in their order, of which none is there twice."""
    if not isinstance(value, list) or not all(map(is_path, value)):
        return None
    paths = tuple(map(tuple, value))
    return paths if paths == in_order(paths) else None


def auto_of(body: Document) -> Auto | None:
    collection, paths = body["Collection"], paths_of(body["Fields"])
    return None if paths is None or not isinstance(collection, str) else Auto(collection, paths)


def auto_reduce_of(body: Document) -> AutoReduce | None:
    collection, groups, sums = body["Collection"], paths_of(body["Groups"]), paths_of(body["Sums"])
    if groups is None or sums is None or not isinstance(collection, str):
        return None
    return AutoReduce(collection, groups, sums)


def static_of(body: Document) -> Static | None:
    """A definition by the text of a map, and by that of a reduce or null. In the first version there are no quotients."""
    if not isinstance(body["Map"], str) or not isinstance(body["Reduce"], str | None):
        return None
    try:
        definition = Static(body["Map"], body["Reduce"])
    except model.Refused:
        return None
    return definition if "Version" in body or not definition.has_quotient() else None


def is_version(value: Json) -> bool:
    return is_number(value) and value == VERSION


def definition_of(body: Document) -> Definition | None:
    """The definition in the body of its row, or None. A body of the second version says so, and one of the first says nothing."""
    kind = body.get("Kind")
    if body["@metadata"] != {} or not isinstance(kind, str) or set(body) - {"Version"} != MEMBERS.get(kind):
        return None
    if not is_version(body.get("Version", VERSION)):
        return None
    return {"static": static_of, "auto": auto_of, "auto-reduce": auto_reduce_of}[kind](body)


def is_named(name: str, definition: Definition, rows: dict[str, model.Row]) -> bool:
    """Whether an index of this definition may have the name. A replacement has the row of its index beside it."""
    own = name[len(REPLACEMENT) :] if is_replacement(name) else name
    is_automatic = not isinstance(definition, Static)
    if model.fault_of(own, MAX_NEW_NAME) or is_replacement(own) or folded(own).startswith("auto/") != is_automatic:
        return False
    beside = rows.get(folded("@index/" + own))
    return own == name or not is_automatic and beside is not None and beside.is_document()


def index_of(row: model.Row, rows: dict[str, model.Row]) -> Index:
    """The index of a live row of a definition."""
    name = row.spelling[len("@index/") :]
    definition = definition_of(row.body)
    if definition is None or not is_named(name, definition, rows):
        raise keeping.KeptBad(row.etag)
    return Index(row.etag, name, definition)


def opened(keeper: keeping.Keeper, base: str = model.BASE, limits: Limits = Limits()) -> model.Database:
    """The database of the rows that the keeper has. Each index begins at etag 0, and its number is that of its row."""
    rows, last = keeping.load_all(keeper)
    database = model.Database(model.Store(rows, last, base), keeper, limits)
    for key, row in rows.items():
        if key.startswith("@index/") != (row.collection == "@indexes"):
            raise keeping.KeptBad(row.etag)
        if row.is_document() and row.collection == "@indexes":
            if len(database.indexes) == limits.slots:
                raise keeping.KeptBad(row.etag)
            database.indexes.append(index_of(row, rows))
    return database
