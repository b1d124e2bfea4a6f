"""Transactions: the commands, their tests, and what each does to the store."""

import dataclasses

from raven_tools.model.documents import collection_of, stored
from raven_tools.model.json import Json, write_json
from raven_tools.model.limits import MAX_BODY, MAX_ETAG, MAX_ROWS
from raven_tools.model.refused import Refused
from raven_tools.model.store import Store
from raven_tools.texts import folded, size


@dataclasses.dataclass(frozen=True, eq=False)
class Command:
    """A put of a body, or a deletion, whose body is None. Expected is the vector that has to be found, or None if any may be."""

    name: str
    expected: str | None
    body: dict[str, Json] | None = None

    def is_put(self) -> bool:
        return self.body is not None


def is_reserved(command: Command) -> bool:
    return folded(command.name).startswith("@index/") or (command.is_put() and collection_of(command.body) == "@indexes")


def test(store: Store, at: int, command: Command, by_client: bool) -> None:
    """The tests of the command at this place, in their order, on the store that the commands before it leave."""
    row = store.row(command.name)
    document = store.document(command.name)
    if by_client and is_reserved(command):
        raise Refused("ReservedId", At=at)
    if command.is_put():
        length = size(write_json(stored(command.body)))
        if length > MAX_BODY:
            raise Refused("TooLarge", At=at, Len=length)
        if row and row.collection != collection_of(command.body):
            raise Refused("CollectionChanged", At=at, From=row.collection)
    found = store.vector(document.etag) if document else ""
    if command.expected not in (None, found):
        raise Refused("Conflict", At=at, Expected=command.expected, Found=found)
    if command.is_put() and not row and len(store.rows) >= MAX_ROWS:
        raise Refused("StoreFull", At=at, Rows=len(store.rows))
    if (command.is_put() or document) and store.last == MAX_ETAG:
        raise Refused("EtagsSpent", At=at, Last=store.last)


def perform(store: Store, command: Command) -> int | None:
    """The etag that the command takes, or None: a deletion of what is no document takes none."""
    if command.is_put():
        return store.write(command.name, collection_of(command.body), stored(command.body))
    document = store.document(command.name)
    return store.write(command.name, document.collection, None) if document else None


def result_of(store: Store, command: Command, etag: int | None) -> dict[str, Json]:
    """What the command did, as the store is after the whole transaction."""
    name = store.spelling(command.name)
    if command.is_put():
        return {"ChangeVector": store.vector(etag), "Id": name, "Type": "PUT"}
    return {"Deleted": etag is not None, "Id": name, "Type": "DELETE"}


def transact(store: Store, commands: list[Command], by_client: bool) -> tuple[Store, list[dict[str, Json]]]:
    """The store after all commands, and what each of them did. They run on a copy; if one is refused, all are."""
    after, etags = store.copy(), []
    for at, command in enumerate(commands):
        test(after, at, command, by_client)
        etags.append(perform(after, command))
    return after, [result_of(after, command, etag) for command, etag in zip(commands, etags)]
