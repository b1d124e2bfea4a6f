"""The places of indexes: what defines and removes them, and puts one in place of another."""

from raven_tools.model.database import Database, Reply
from raven_tools.model.definitions import Definition, Static
from raven_tools.model.indexes import REPLACEMENT, Index, Note, is_replacement
from raven_tools.model.limits import MAX_NEW_NAME
from raven_tools.model.refused import Refused
from raven_tools.model.transactions import Command
from raven_tools.texts import folded, size


def put_of(name: str, definition: Definition) -> Command:
    """Puts the row of a definition."""
    return Command("@index/" + name, None, {"@metadata": {"@collection": "@indexes"}, **definition.body()})


def deletion_of(index: Index) -> Command:
    return Command("@index/" + index.name, None)


def make(database: Database, name: str, definition: Definition, instead: Index | None = None) -> Index:
    """Writes the row of a new index, whose number is the etag of the row. It may take the place of another one of its name."""
    if not instead and len(database.indexes) >= database.limits.slots:
        raise Refused("TooManyIndexes")
    database.commit([put_of(name, definition)], by_client=False)
    if instead:
        database.indexes.remove(instead)
    index = Index(database.store.last, name, definition)
    database.indexes.append(index)
    return index


def take_out(database: Database, indexes: list[Index]) -> None:
    """Removes indexes and their rows, in one change."""
    database.commit([deletion_of(index) for index in indexes], by_client=False)
    database.indexes = [index for index in database.indexes if index not in indexes]


def define(database: Database, name: str, definition: Static) -> Reply:
    """A definition by text. Another one than that which serves is built beside it, in place of what is built there already."""
    if folded(name).startswith("auto/") or is_replacement(name):
        raise Refused("ReservedName")
    if size(name) > MAX_NEW_NAME:
        raise Refused("NameTooLong", Len=size(name))
    serving = database.serving(name)
    if not serving:
        return {"Index": make(database, name, definition).name}
    replacement = database.replacement_of(serving)
    if serving.definition.is_same(definition):
        take_out(database, [replacement] if replacement else [])
        return {"Index": serving.name}
    if replacement and replacement.definition.is_same(definition):
        return {"Index": replacement.name}
    return {"Index": make(database, REPLACEMENT + serving.name, definition, replacement).name}


def remove(database: Database, name: str) -> Reply:
    """What is built beside the index goes with it."""
    index = database.live(name)
    replacement = database.replacement_of(index)
    take_out(database, [index, replacement] if replacement else [index])
    return {"Removed": index.name}


def switch(database: Database, name: str) -> Reply:
    """Puts what was built beside an index in its place. It has to have all that it reads of the store as it is now."""
    old = database.live(name)
    new = database.replacement_of(old)
    if not new:
        raise Refused("NoReplacement")
    if len(database.notes) >= database.limits.notes:
        raise Refused("NotesFull")
    newest, etag = database.newest(new), database.store.last + 1
    if newest > new.etag:
        raise Refused("NotFresh", IndexEtag=new.etag, Newest=newest)
    database.commit([put_of(old.name, new.definition), deletion_of(new)], by_client=False)
    database.notes.append(Note(etag, old.name, old.number, new.number, new.etag, newest))
    database.indexes.remove(old)
    new.name = old.name
    return {"Etag": etag, "Switched": new.name}
