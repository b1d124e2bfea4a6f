"""Questions: what they ask, and the answer of a database."""

import collections.abc
import contextlib
import dataclasses

from raven_tools import language, queries
from raven_tools.language.reduces import Reduce
from raven_tools.model import optimiser
from raven_tools.model.database import Database, Reply
from raven_tools.model.documents import fault_of
from raven_tools.model.indexes import Index
from raven_tools.model.json import Json
from raven_tools.model.limits import MAX_ID
from raven_tools.model.refused import Refused
from raven_tools.model.store import Row
from raven_tools.queries import answers, binding
from raven_tools.queries.trees import Path, joined
from raven_tools.texts import folded


@dataclasses.dataclass
class Ask:
    query: queries.Query
    parameters: dict[str, Json] = dataclasses.field(default_factory=dict)
    start: int = 0
    size: int | None = None
    cutoff: int | None = None


@dataclasses.dataclass
class Found:
    """What is found: how many rows there are on all pages, what is shown of those on this one, and what they name."""

    total: int
    results: list[dict[str, Json]]
    named: list[Json]


def read_query(text: str) -> queries.Query:
    try:
        return queries.parse(text)
    except queries.Refusal as refusal:
        raise Refused(refusal.kind, At=refusal.at) from None


@contextlib.contextmanager
def unless_unbound() -> collections.abc.Iterator[None]:
    try:
        yield
    except binding.Unbound as unbound:
        raise Refused(unbound.error, **({} if unbound.name is None else {"Name": unbound.name})) from None


def answer_to(database: Database, ask: Ask) -> Reply:
    with unless_unbound():
        binding.check(ask.query, ask.parameters, ask.start, ask.size)
        kind, name = ask.query.origin
        if binding.is_dynamic(ask.query):
            return of_index(database, ask, optimiser.index_for(database, optimiser.shape_of(ask.query)))
        return of_index(database, ask, database.live(name)) if kind == "index" else of_collection(database, ask, name)


def of_collection(database: Database, ask: Ask, name: str) -> Reply:
    """A whole collection, from the store itself."""
    rows = [row for row in database.store.rows.values() if row.is_document() and row.collection == name]
    rows.sort(key=lambda row: folded(row.spelling))
    found = of_documents(database, ask, len(rows), answers.page(rows, ask.start, ask.size))
    return reply_of(database, found, "collection/" + name, database.store.last, False)


def of_index(database: Database, ask: Ask, index: Index) -> Reply:
    reduce = index.definition.reduce
    binding.check_fields(ask.query, index.definition.fields(), bool(reduce))
    found = of_rows(ask, index, reduce) if reduce else of_entries(database, ask, index)
    return reply_of(database, found, index.name, index.etag, is_stale_for(database, ask, index))


def is_stale_for(database: Database, ask: Ask, index: Index) -> bool:
    """Up to the cutoff of the question."""
    cutoff = database.store.last if ask.cutoff is None else ask.cutoff
    return any(row.etag <= cutoff for row in database.unseen(index))


def values_in(fields: dict[str, Json]) -> collections.abc.Callable[[Path], Json]:
    """The values of an entry or row, by paths. A field that it does not have is null."""
    return lambda path: fields.get(joined(path))


def of_entries(database: Database, ask: Ask, index: Index) -> Found:
    """The page is cut before the documents are looked up, and those that are gone since are passed over."""
    entries, _ = index.mapped()
    keys = answers.found(ask.query, sorted(entries), lambda key: values_in(entries[key]), ask.parameters)
    rows = map(database.store.document, answers.page(keys, ask.start, ask.size))
    return of_documents(database, ask, len(keys), [row for row in rows if row])


def of_documents(database: Database, ask: Ask, total: int, rows: list[Row]) -> Found:
    def shown(row: Row) -> dict[str, Json]:
        if not ask.query.columns:
            return row.shown(database.store.base)
        return answers.selected(ask.query, lambda path: answers.at_path(row.body, path))

    named = [answers.at_path(row.body, path) for row in rows for path in ask.query.includes]
    return Found(total, list(map(shown, rows)), named)


def of_rows(ask: Ask, index: Index, reduce: Reduce) -> Found:
    """The rows of a reduce, in order of their keys."""
    entries, _ = index.mapped()
    return found_in_rows(ask, language.rows_of(reduce, list(entries.values())))


def found_in_rows(ask: Ask, every: list[dict[str, Json]]) -> Found:
    rows = answers.found(ask.query, every, values_in, ask.parameters)
    on_page = answers.page(rows, ask.start, ask.size)
    shows_whole = not answers.columns_of(ask.query)
    columns = [row if shows_whole else answers.selected(ask.query, values_in(row)) for row in on_page]
    named = [values_in(row)(path) for row in on_page for path in ask.query.includes]
    return Found(len(rows), [{name: in_json(value) for name, value in row.items()} for row in columns], named)


def in_json(value: Json) -> Json:
    """A number outside 64 bits is shown as a text."""
    is_outside = isinstance(value, int) and not language.LEAST <= value <= language.GREATEST
    return str(value) if is_outside else value


def included(database: Database, named: list[Json]) -> Reply:
    """The documents that are named by their ids."""
    ids = [name for name in named if isinstance(name, str) and not fault_of(name, MAX_ID)]
    rows = [row for row in map(database.store.document, ids) if row]
    return {row.spelling: row.shown(database.store.base) for row in rows}


def reply_of(database: Database, found: Found, name: str, etag: int, is_stale: bool) -> Reply:
    return {
        "Includes": included(database, found.named),
        "IndexEtag": etag,
        "IndexName": name,
        "IsStale": is_stale,
        "Results": found.results,
        "TotalResults": found.total,
    }
