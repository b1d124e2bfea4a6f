"""Indexes: a definition, and the documents that are recorded of it."""

import dataclasses

from raven_tools import language
from raven_tools.model.definitions import Definition, Document, Entry
from raven_tools.model.documents import fault_of
from raven_tools.model.limits import MAX_ID
from raven_tools.model.store import Row
from raven_tools.texts import folded

# The name of what is built beside an index is this and the name of the index.
REPLACEMENT = "ReplacementOf/"


def is_replacement(name: str) -> bool:
    return folded(name).startswith(folded(REPLACEMENT))


class Index:
    """An index as far as it has come."""

    def __init__(self, number: int, name: str, definition: Definition):
        self.number = number
        self.name = name
        self.definition = definition
        self.etag = 0
        self.table: dict[str, Row] = {}  # the documents that it has recorded, by folded id

    def copied(self) -> "Index":
        twin = Index(self.number, self.name, self.definition)
        twin.etag, twin.table = self.etag, dict(self.table)
        return twin

    def load(self, name: str, collection: str) -> Document | None:
        """What a map finds of another document: the recorded one, if it is of that collection."""
        row = None if fault_of(name, MAX_ID) else self.table.get(folded(name))
        return row.body if row and row.collection == collection else None

    def mapped(self) -> tuple[dict[str, Entry], int]:
        """The entries of the recorded documents, by folded id, and the number of those that failed."""
        entries, errors = {}, 0
        for key in sorted(self.table):
            if self.table[key].collection != self.definition.collection:
                continue
            try:
                entry = self.definition.entry(self.table[key].body, self.load)
            except language.Failed:
                errors += 1
                continue
            if entry is not None:
                entries[key] = entry
        return entries, errors


@dataclasses.dataclass(frozen=True)
class Batch:
    """What a batch makes of the index of this number: its table, and its etag. The store that it read was cleaned up to `cleaned`."""

    number: int
    table: dict[str, Row]
    etag: int
    cleaned: int = 0


@dataclasses.dataclass(frozen=True)
class Note:
    """That an index took the name of another one: the etag of the row, both numbers, and how far it had come of what it reads."""

    etag: int
    name: str
    old: int
    new: int
    index_etag: int
    newest: int
