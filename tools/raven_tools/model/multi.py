"""Several maps into one reduce: the indexes `N/1`, `N/2` and so on, whose rows are reduced together where a question asks so."""

from raven_tools import language
from raven_tools.model import slots
from raven_tools.model.asking import Ask, found_in_rows, is_stale_for, reply_of, unless_unbound
from raven_tools.model.database import Database, Reply
from raven_tools.model.definitions import Static
from raven_tools.model.indexes import Index
from raven_tools.model.refused import Refused
from raven_tools.queries import binding


def name_of(name: str, number: int) -> str:
    return f"{name}/{number}"


def define(database: Database, parts: list[tuple[str, Static]]) -> Reply:
    """One definition after another. Those before one that is refused stand."""
    return {"Indexes": [slots.define(database, name, definition)["Index"] for name, definition in parts]}


def parts_of(database: Database, name: str) -> list[Index]:
    """The indexes of these names, up to the first that no index has."""
    parts: list[Index] = []
    while part := database.serving(name_of(name, len(parts) + 1)):
        parts.append(part)
    return parts


def is_same_reduce(first: Index, other: Index) -> bool:
    """Automatic indexes have no reduce of a text."""
    both = (first.definition, other.definition)
    return all(isinstance(one, Static) and one.reduce for one in both) and both[0].reduce == both[1].reduce


def asked_parts(database: Database, ask: Ask) -> list[Index]:
    kind, name = ask.query.origin
    parts = parts_of(database, name) if kind == "index" else []
    if len(parts) < 2:
        raise Refused("NoIndex", Name=name)
    for part in parts:
        if not is_same_reduce(parts[0], part):
            raise Refused("NotOneReduce", Number=part.number)
    return parts


def answer_to(database: Database, ask: Ask) -> Reply:
    """The rows of all entries of the parts. It is as far as the part that is furthest back, and stale if a part is."""
    with unless_unbound():
        binding.check(ask.query, ask.parameters, ask.start, ask.size)
        parts = asked_parts(database, ask)
        first = parts[0].definition
        binding.check_fields(ask.query, first.fields(), True)
    entries = [entry for part in parts for entry in part.mapped()[0].values()]
    found = found_in_rows(ask, language.rows_of(first.reduce, entries))
    is_stale = any(is_stale_for(database, ask, part) for part in parts)
    return reply_of(database, found, ask.query.origin[1], min(part.etag for part in parts), is_stale)
