"""Batches: how indexes come up to the store, at once or by what a worker holds for a while."""

from raven_tools.model.database import Database, Reply
from raven_tools.model.indexes import Batch, Index
from raven_tools.model.refused import Refused
from raven_tools.texts import folded


def batch_of(database: Database, index: Index, most: int) -> Batch | None:
    """What the next rows that the index reads make of it, or None if there are none. The last ones bring it up to the whole store."""
    rows = database.unseen(index)
    table = dict(index.table)
    for row in rows[:most]:
        table.pop(folded(row.spelling), None)
        if row.is_document():
            table[folded(row.spelling)] = row
    etag = rows[most - 1].etag if len(rows) > most else database.store.last
    return Batch(index.number, table, etag, database.store.cleaned) if rows else None


def put_in(index: Index, batch: Batch) -> Reply:
    came_from = index.etag
    index.table, index.etag = batch.table, batch.etag
    return {"From": came_from, "Index": index.name, "To": index.etag}


def bring_on(database: Database, index: Index, most: int) -> Reply:
    batch = batch_of(database, index, most) or Batch(index.number, index.table, index.etag)
    return put_in(index, batch)


def pump(database: Database, most: int, name: str | None = None) -> Reply:
    indexes = database.indexes if name is None else [database.live(name)]
    return {"Pumped": [bring_on(database, index, most) for index in indexes]}


def read(database: Database, worker: int, most: int, name: str) -> Reply:
    """The worker holds the next batch of the index in place of what it held, or nothing if there is none."""
    index = database.live(name)
    batch = batch_of(database, index, most)
    database.held.pop(worker, None)
    if batch:
        database.held[worker] = batch
    return {"From": index.etag, "To": batch.etag if batch else index.etag}


def publish(database: Database, worker: int) -> Reply:
    """Puts in what the worker holds, if the index is still there and has not come as far by itself. Then it holds nothing.

    If tombstones were cleaned since, and past what it holds, it may have a document that is gone, and is not put in.
    """
    batch = database.held.pop(worker, None)
    if not batch:
        raise Refused("NothingHeld")
    index = database.numbered(batch.number)
    if not index:
        raise Refused("Gone", Number=batch.number)
    if index.etag >= batch.etag:
        raise Refused("Passed", Now=index.etag)
    if database.store.cleaned > max(batch.cleaned, batch.etag):
        raise Refused("Cleaned", Upto=database.store.cleaned)
    return put_in(index, batch)
