"""The command `serve` over doors in memory: the connections of a door one after another, and the doors beside one another."""

import dataclasses

from raven_tools import model
from raven_tools.model import http_session, keeping, serving
from raven_tools.model.http_session import Options
from raven_tools.model.outside import Clock, Door, LeftOpen, Outside


def is_defined(database: model.Database) -> bool:
    """Whether there is an index, or was one: what is read of it depends on when a pump made a batch."""
    return any(row.collection == "@indexes" for row in database.store.rows.values())


def is_cleanable(database: model.Database) -> bool:
    """Whether there is a tombstone below the last etag: it goes when a pump cleans."""
    return bool(database.store.tombstones(database.store.last - 1))


def session(database: model.Database, options: Options, connection: Outside, clock: Clock) -> bytes:
    """What is written to a connection. How its session ends is nobody's concern."""
    _, written = http_session.session(database, options, dataclasses.replace(connection, clock=clock))
    if is_defined(database):
        raise LeftOpen("when a pump makes a batch")
    if is_cleanable(database):
        raise LeftOpen("when a pump cleans")
    return written


def serve(database: model.Database, options: Options, doors: list[Door], clock: Clock) -> None:
    """Serves each door up to an accept that fails. The pumps make batches and clean, and no session does."""
    if sum(any(connection.script for connection in door.accepted()) for door in doors) > 1:
        raise LeftOpen("which of two doors is served first")
    for door in doors:
        door.back = [session(database, options, connection, clock) for connection in door.accepted()]


def run(given: Outside, keeper: keeping.Keeper) -> tuple[str, bytes]:
    """The status. What was written to connections is at the doors, and nothing is to the output."""
    options = serving.options_of(given.arguments)
    database = http_session.opened(options, keeper)
    if isinstance(database, str):
        return database, b""
    if 1 in given.crew:
        return "NoThread", b""
    serve(database, Options(options.base, options.name, 0), given.doors, given.clock)
    return "DoorFault" if any(door.is_failing() for door in given.doors) else "Done", b""
