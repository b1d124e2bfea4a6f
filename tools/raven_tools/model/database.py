"""The database: a store, and the indexes that lag behind it. What lines do with it is in `slots`, `batches`, `answers` and `asking`."""

import typing

from raven_tools.model.indexes import REPLACEMENT, Batch, Index, Note
from raven_tools.model.json import Json
from raven_tools.model.limits import Limits
from raven_tools.model.refused import Refused
from raven_tools.model.store import Row, Store
from raven_tools.model.transactions import Command, transact
from raven_tools.texts import folded

Reply: typing.TypeAlias = dict[str, Json]


class Keeper(typing.Protocol):
    """Is asked for each change with rows, before it is made. It refuses one by `Refused`."""

    def commit(self, rows: list[Row]) -> None: ...

    def clean(self, upto: int) -> None: ...


class Database:
    """What a run has in memory."""

    def __init__(self, store: Store | None = None, keeper: Keeper | None = None, limits: Limits = Limits()):
        self.store = store or Store({}, 0)
        self.indexes: list[Index] = []  # in order of their numbers
        self.notes: list[Note] = []
        self.held: dict[int, Batch] = {}  # by worker
        self.keeper = keeper
        self.limits = limits

    # changes of the store

    def commit(self, commands: list[Command], by_client: bool = True) -> list[Reply]:
        """All commands, or none if one is refused or the keeper fails."""
        store, results = transact(self.store, commands, by_client)
        written = [row for row in store.rows.values() if row.etag > self.store.last]
        if written and self.keeper:
            self.keeper.commit(written)
        self.store = store
        return results

    def clean(self, upto: int) -> int:
        """The tombstones up to this etag go, or none if the keeper fails. It gives how many went."""
        gone = self.store.tombstones(upto)
        if gone and self.keeper:
            self.keeper.clean(upto)
        if gone:
            self.store = self.store.without(gone, upto)
        return len(gone)

    def write(self, command: Command) -> Reply:
        """A transaction of one command; the reply does not name its type."""
        (result,) = self.commit([command])
        return {name: value for name, value in result.items() if name != "Type"}

    def bulk(self, commands: list[Command]) -> Reply:
        return {"Results": self.commit(commands)}

    # indexes

    def serving(self, name: str) -> Index | None:
        for index in self.indexes:
            if folded(index.name) == folded(name):
                return index
        return None

    def live(self, name: str) -> Index:
        index = self.serving(name)
        if not index:
            raise Refused("NoIndex", Name=name)
        return index

    def numbered(self, number: int) -> Index | None:
        return next((index for index in self.indexes if index.number == number), None)

    def replacement_of(self, index: Index) -> Index | None:
        return self.serving(REPLACEMENT + index.name)

    def read_by(self, index: Index) -> list[Row]:
        """The rows that the index reads: documents and tombstones of its collections."""
        scope = index.definition.scope()
        return [row for row in self.store.rows.values() if row.collection in scope]

    def newest(self, index: Index) -> int:
        """The greatest etag of these rows, or 0."""
        return max([row.etag for row in self.read_by(index)], default=0)

    def unseen(self, index: Index) -> list[Row]:
        return [row for row in self.read_by(index) if row.etag > index.etag]

    def is_stale(self, index: Index) -> bool:
        return bool(self.unseen(index))

    # opening

    def copied(self) -> "Database":
        """A database that the lines of this one do not change. Rows are never changed, only replaced."""
        other = Database(self.store.copy(), None, self.limits)
        other.indexes = [index.copied() for index in self.indexes]
        other.notes, other.held = list(self.notes), dict(self.held)
        return other

    def opened(self) -> "Database":
        """The database after its file was opened: each index begins again at etag 0, with the number and the name of its row."""
        other = Database(self.store.without([], 0), None, self.limits)
        for index in self.indexes:
            row = self.store.row("@index/" + index.name)
            other.indexes.append(Index(row.etag, row.spelling.removeprefix("@index/"), index.definition))
        other.indexes.sort(key=lambda index: index.number)
        return other
