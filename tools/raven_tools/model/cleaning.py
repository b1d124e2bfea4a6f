"""Cleaning: tombstones that no index has to read any more go."""

from raven_tools.model.database import Database, Reply


def upto_of(database: Database) -> int:
    """All indexes that have read something have come so far. It is below the last etag, whose row stays."""
    last = database.store.last
    return min([index.etag for index in database.indexes if index.etag > 0] + [max(last - 1, 0)])


def is_due(database: Database) -> bool:
    """Whether a pump cleans that finds this: some tombstone may go, and no index has still to read its first rows."""
    is_new = any(index.etag == 0 and database.is_stale(index) for index in database.indexes)
    return not is_new and bool(database.store.tombstones(upto_of(database)))


def clean(database: Database) -> Reply:
    upto = upto_of(database)
    return {"Cleaned": database.clean(upto), "Upto": upto}
