"""A whole run of the program: what it is called with, what is read, opened and written, and how it ends."""

import collections.abc

from raven_tools import model
from raven_tools.model import doors, http_session, keeping, measuring, opening
from raven_tools.model.outside import Clock, LeftOpen, Outside, base_of, pairs_of


def options(arguments: tuple[str, ...]) -> dict[str, str] | None:
    """The options of `run`, or None if the arguments are not valid."""
    found = pairs_of(arguments, "run", {"--data", "--id"})
    return found if found is not None and base_of(found) else None


def is_read(given: Outside) -> bool:
    """Whether no call fails. How much a call gives is left open, if it is not one byte: there is at least one for the bytes, and one
    for the end."""
    if not given.reads:
        return True
    first, most = min(given.reads), len(given.script) + 1
    if first > most:
        return True
    if first > (2 if given.script else 1) and given.gives != 1:
        raise LeftOpen("how many calls the input takes")
    return False


def moments(clock: Clock, lines: list[bytes]) -> collections.abc.Iterator[tuple[bytes, int]]:
    """Each line that has bytes, with the moment at which its turn comes."""
    moment = clock.moment
    for line in lines:
        if line:
            yield line, moment
            moment += clock.step
        elif clock.step:
            raise LeftOpen("whether the clock is asked at an empty line")


def answered(database: model.Database, given: Outside) -> tuple[str, bytes]:
    """The status, and the replies: each is one call of the output, and no line behind a failing one is executed."""
    written = []
    for line, moment in moments(given.clock, model.lines(given.script)):
        database.store.now = moment
        reply = model.write_json(model.answer(database, line)) + "\n"
        if len(written) + 1 in given.writes:
            return "WriteFault", b"".join(written)
        written.append(reply.encode())
    return "Done", b"".join(written)


def measured(given: Outside, keeper: keeping.Keeper) -> tuple[str, bytes]:
    """The command `measure`. Its summary is one call of the output."""
    if given.clock.step:
        raise LeftOpen("which requests of `measure` ask the clock")
    return measuring.measure(given.arguments[1:], keeper, given.clock.moment, 1 not in given.writes)


def executed(given: Outside, keeper: keeping.Keeper) -> tuple[str, bytes]:
    """The command `run`."""
    found = options(given.arguments)
    if found is None:
        return "Usage", b""
    if not is_read(given):
        return "ReadFault", b""
    if len(given.script) > model.MAX_SCRIPT:
        return "InputTooLarge", b""
    try:
        database = opening.opened(keeper, found.get("--id", model.BASE))
    except keeping.Failed:
        return "KeptFault", b""
    except keeping.KeptBad as bad:
        return f"KeptBad {bad.etag}", b""
    return answered(database, given)


COMMANDS = {"run": executed, "http": http_session.run, "measure": measured, "serve": doors.run}


def run(given: Outside, keeper: keeping.Keeper) -> tuple[str, bytes]:
    """The status and what was written. The causes come in this order; the keeper is left as the run leaves it."""
    command = COMMANDS.get(given.arguments[0]) if given.arguments else None
    return command(given, keeper) if command else ("Usage", b"")
