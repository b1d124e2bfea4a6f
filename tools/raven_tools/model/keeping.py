"""Rows as they are kept: a keeper in memory, and the rows that are read from one."""

import collections.abc
import dataclasses

from raven_tools import model
from raven_tools.model.json import Json

# The rows that are loaded by one call.
PAGE = 1_024
# Moments are before the year 9999.
END_OF_MOMENTS = 253_370_764_800_000_000


@dataclasses.dataclass
class KeptRow:
    etag: int
    id: str
    collection: str
    body: str | None  # None of a tombstone
    changed: int


class Failed(Exception):
    """A call of the keeper that fails. It changes nothing."""


class KeptBad(Exception):
    """The keeper holds a row that no database can have."""

    def __init__(self, etag: int):
        super().__init__(etag)
        self.etag = etag


class Keeper:
    """Rows in order of etag. Its calls are counted together, from 1; those of some numbers fail."""

    def __init__(self, rows: collections.abc.Iterable[KeptRow] = (), fails: collections.abc.Iterable[int] = ()):
        self.rows = list(rows)
        self.ids = {model.folded(row.id) for row in self.rows}
        self.fails = frozenset(fails)
        self.calls = 0

    def call(self) -> None:
        self.calls += 1
        if self.calls in self.fails:
            raise Failed

    def load(self, after: int | None, most: int) -> list[KeptRow]:
        self.call()
        return [row for row in self.rows if after is None or row.etag > after][:most]

    def asked(self) -> None:
        """A call for a change. A failure is the reply to the line."""
        try:
            self.call()
        except Failed:
            raise model.Refused("KeeperFault") from None

    def commit(self, rows: list[model.Row]) -> None:
        """Puts each row in place of the row of its id, or behind the others."""
        self.asked()
        replaced = {model.folded(row.spelling) for row in rows}
        if not replaced.isdisjoint(self.ids):
            self.rows = [row for row in self.rows if model.folded(row.id) not in replaced]
        self.rows += [kept(row) for row in rows]
        self.ids |= replaced

    def clean(self, upto: int) -> None:
        """Removes the tombstones with an etag of at most this."""
        self.asked()
        self.rows = [row for row in self.rows if row.body is not None or row.etag > upto]
        self.ids = {model.folded(row.id) for row in self.rows}


def kept(row: model.Row) -> KeptRow:
    body = model.write_json(row.body) if row.is_document() else None
    return KeptRow(row.etag, row.spelling, row.collection, body, row.changed)


# Reading rows


def document_of(text: str) -> dict[str, Json] | None:
    """The document whose text this is, byte for byte, or None."""
    try:
        value = model.read_json(text.encode())
    except model.Refused:
        return None
    is_stored = isinstance(value, dict) and isinstance(value.get("@metadata"), dict) and model.stored(value) == value
    return value if is_stored and model.write_json(value) == text and model.size(text) <= model.MAX_BODY else None


def row_of(kept_row: KeptRow) -> model.Row:
    """The row, if it passes the tests of a single row."""
    body = None if kept_row.body is None else document_of(kept_row.body)
    is_good = (
        1 <= kept_row.etag <= model.MAX_ETAG
        and not model.fault_of(kept_row.id, model.MAX_ID)
        and kept_row.collection
        and (body is None) == (kept_row.body is None)
        and kept_row.changed < END_OF_MOMENTS
    )
    if not is_good:
        raise KeptBad(kept_row.etag)
    return model.Row(kept_row.etag, kept_row.id, kept_row.collection, body, kept_row.changed)


def pages(keeper: Keeper) -> collections.abc.Iterator[list[KeptRow]]:
    """Page after page, up to an empty one, since only that says that the keeper has no more rows."""
    after = None
    while page := keeper.load(after, PAGE):
        yield page
        after = page[-1].etag


def by_id(read: list[model.Row]) -> dict[str, model.Row]:
    """The rows by folded id, of which no two may have one."""
    rows = {}
    for row in read:
        if model.folded(row.spelling) in rows:
            raise KeptBad(row.etag)
        rows[model.folded(row.spelling)] = row
    return rows


def load_all(keeper: Keeper) -> tuple[dict[str, model.Row], int]:
    """The rows by folded id, each tested by itself and against those before it.

    Ids are compared when no more rows are asked for, and the first bad row is reported, whatever came after it.
    """
    read, last = [], 0
    try:
        for kept_row in (kept_row for page in pages(keeper) for kept_row in page):
            row = row_of(kept_row)
            if row.etag <= last or len(read) == model.MAX_ROWS:
                raise KeptBad(row.etag)
            read.append(row)
            last = row.etag
    except (Failed, KeptBad):
        by_id(read)
        raise
    return by_id(read), last
