"""Tidying: switches to what is ready, and then the removal of automatic indexes that are no longer of use."""

from raven_tools.model import optimiser, slots
from raven_tools.model.database import Database, Reply
from raven_tools.model.indexes import Index
from raven_tools.texts import folded


def is_ready(database: Database, index: Index) -> bool:
    """Whether a switch to what is built beside the index would be made now."""
    new = database.replacement_of(index)
    return new is not None and not database.is_stale(new) and len(database.notes) < database.limits.notes


def tidy(database: Database) -> Reply:
    """One step after another. Those before one that is refused stand."""
    switched: list[str] = []
    for index in sorted(database.indexes, key=lambda index: folded(index.name)):
        if is_ready(database, index):
            slots.switch(database, index.name)
            switched.append(index.name)
    useless = optimiser.retired(database)
    slots.take_out(database, useless)
    return {"Retired": [index.name for index in useless], "Switched": switched}
