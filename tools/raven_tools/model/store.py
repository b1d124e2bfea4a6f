"""The store: what is at each id, in order of etag."""

import dataclasses

from raven_tools.model.documents import vector_of
from raven_tools.model.json import Json
from raven_tools.model.limits import BASE
from raven_tools.model.moments import moment_text
from raven_tools.texts import folded


@dataclasses.dataclass(frozen=True, eq=False)
class Row:
    """What is at an id: a document, or a tombstone, whose body is None."""

    etag: int
    spelling: str
    collection: str
    body: dict[str, Json] | None
    changed: int = 0  # the moment at which it was written

    def is_document(self) -> bool:
        return self.body is not None

    def shown(self, base: str = BASE) -> dict[str, Json]:
        """The document with what the server knows of it."""
        known = {"@change-vector": vector_of(self.etag, base), "@collection": self.collection, "@id": self.spelling}
        known["@last-modified"] = moment_text(self.changed)
        return {**self.body, "@metadata": {**self.body["@metadata"], **known}}


@dataclasses.dataclass
class Store:
    rows: dict[str, Row]  # by folded id, in order of etag
    last: int
    base: str = BASE
    now: int = 0  # the moment of the line that is answered
    cleaned: int = 0  # the etag up to which tombstones were cleaned

    def copy(self) -> "Store":
        return Store(dict(self.rows), self.last, self.base, self.now, self.cleaned)

    def vector(self, etag: int) -> str:
        return vector_of(etag, self.base)

    def row(self, name: str) -> Row | None:
        return self.rows.get(folded(name))

    def document(self, name: str) -> Row | None:
        row = self.row(name)
        return row if row and row.is_document() else None

    def spelling(self, name: str) -> str:
        """The id as its row spells it, or as it was given if there is no row."""
        row = self.row(name)
        return row.spelling if row else name

    def tombstones(self, upto: int) -> list[Row]:
        """Those with an etag of at most this."""
        return [row for row in self.rows.values() if not row.is_document() and row.etag <= upto]

    def without(self, gone: list[Row], cleaned: int) -> "Store":
        """The store without these rows. The row with the greatest etag is none of them."""
        ids = {folded(row.spelling) for row in gone}
        rows = {key: row for key, row in self.rows.items() if key not in ids}
        return Store(rows, self.last, self.base, self.now, cleaned)

    def write(self, name: str, collection: str, body: dict[str, Json] | None) -> int:
        """Puts a row under the next etag, and gives the etag."""
        self.last += 1
        row = Row(self.last, self.spelling(name), collection, body, self.now)
        self.rows.pop(folded(name), None)
        self.rows[folded(name)] = row
        return self.last
