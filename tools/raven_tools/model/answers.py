"""Answers to lines that change nothing, but for queries, which are in `asking`."""

from raven_tools.model.database import Database, Reply
from raven_tools.model.indexes import Index
from raven_tools.model.refused import Refused
from raven_tools.scalars import Scalar
from raven_tools.texts import folded


def get(database: Database, name: str) -> Reply:
    document = database.store.document(name)
    if not document:
        raise Refused("NoDocument", Id=database.store.spelling(name))
    return document.shown(database.store.base)


def stats(database: Database) -> Reply:
    own = [row for row in database.store.rows.values() if row.collection != "@indexes"]
    documents = sum(row.is_document() for row in own)
    return {
        "CountOfDocuments": documents,
        "CountOfIndexes": len(database.indexes),
        "CountOfTombstones": len(own) - documents,
        "LastDocEtag": database.store.last,
    }


def stale(database: Database, name: str) -> Reply:
    index = database.live(name)
    newest = database.newest(index)
    return {"IndexEtag": index.etag, "IsStale": newest > index.etag, "Newest": newest}


def is_text(value: Scalar, text: str) -> bool:
    return isinstance(value, str) and folded(value) == folded(text)


def find(database: Database, name: str, field: str, text: str) -> Reply:
    """The rows of a reduce are no documents, so what is found of them has no ids."""
    index = database.live(name)
    entries = {} if index.definition.reduce else index.mapped()[0]
    found = [key for key, entry in entries.items() if is_text(entry.get(field), text)]
    ids = [index.table[key].spelling for key in found]
    return {"Ids": ids, "IndexEtag": index.etag, "IsStale": database.is_stale(index)}


def definition_of(database: Database, index: Index) -> Reply:
    """The body of the index's row, without its metadata."""
    body = database.store.document("@index/" + index.name).body
    return {name: value for name, value in body.items() if name != "@metadata"}


def shown(database: Database, index: Index) -> Reply:
    entries, errors = index.mapped()
    return {
        "Definition": definition_of(database, index),
        "Entries": len(entries),
        "Errors": errors,
        "Etag": index.etag,
        "IsStale": database.is_stale(index),
        "Name": index.name,
    }


def listed(database: Database) -> Reply:
    return {"Results": [shown(database, index) for index in database.indexes]}
