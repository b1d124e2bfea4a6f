"""The command `http`: one session over the input and the output."""

import collections.abc
import dataclasses
import typing

from raven_tools import model
from raven_tools.model import http_answering, http_asking, http_reading, keeping, opening
from raven_tools.model.database import Reply
from raven_tools.model.http_reading import HttpRequest, Reading
from raven_tools.model.limits import MAX_BATCH, MAX_REQUESTS
from raven_tools.model.lines import answer, pump_line
from raven_tools.model.outside import NUMBER, LeftOpen, Outside, base_of, name_of, pairs_of

# What gives the next bytes, or none at the end, and what takes a response.
Taking = collections.abc.Callable[[], bytes]
Giving = collections.abc.Callable[[bytes], object]


@dataclasses.dataclass(frozen=True)
class Options:
    base: str = model.BASE
    name: str = "db"
    pump: int = 1_024


def options_of(arguments: tuple[str, ...]) -> Options | None:
    """The options of the command, or None if the arguments are not valid. Where the documents are kept is the keeper's."""
    found = pairs_of(arguments, "http", {"--data", "--id", "--db", "--pump"})
    if found is None:
        return None
    base, name = base_of(found), name_of(found)
    pump = found.get("--pump", str(Options.pump))
    is_valid = base and name and NUMBER.fullmatch(pump) and int(pump) <= MAX_BATCH
    return Options(base, name, int(pump)) if is_valid else None


# What is done for a request


def tidy(database: model.Database) -> None:
    """What the line TIDY does, whose reply is dropped."""
    answer(database, b"TIDY")


def go_on(database: model.Database, pump: int) -> None:
    """What follows a request that reached the database: a batch of each index, and then what TIDY does."""
    if pump:
        pump_line(database, str(pump))
        tidy(database)


def replied_by(name: str, request: HttpRequest, execute: collections.abc.Callable[[http_asking.Action], Reply]) -> tuple[int, Reply]:
    """The status and the reply of a request to the database of this name. What reaches it is executed so."""
    try:
        route = http_asking.route_of(request, name)
        return route.status, execute(route.asking(request))
    except model.Refused as refused:
        return http_answering.refusal(refused)


def replied(database: model.Database, options: Options, request: HttpRequest) -> tuple[int, Reply]:
    """The status and the reply, and then what follows a request that reached the database."""

    def execute(action: http_asking.Action) -> Reply:
        try:
            return action(database)
        finally:
            go_on(database, options.pump)

    return replied_by(options.name, request, execute)


def responses(database: model.Database, options: Options, reading: Reading) -> collections.abc.Iterator[bytes]:
    """The responses in order. No request is executed before the response to the one before it was taken."""
    for number, request in enumerate(reading.requests, 1):
        status, reply = replied(database, options, request)
        yield http_answering.response(status, reply, request.close or number == MAX_REQUESTS)
    last = http_answering.response_to_end(reading.end)
    if last is not None:
        yield last


# Faults, and how a session ends


def cut_off(reading: Reading, count: int) -> Reading:
    """The session if so many bytes are read before the input fails."""
    if reading.shown_by is not None and reading.shown_by <= count:
        return reading
    whole = sum(place <= count for place in reading.places)
    return Reading(reading.requests[:whole], reading.places[:whole], "ReadFault", None)


def with_faults(reading: Reading, given: Outside) -> Reading:
    """The session with what the input is said to do. How much a call gives is left open, if it is not one byte: it may be one byte,
    all, or any number between."""
    length = len(given.script)
    first = min(given.reads, default=length + 2)
    if first > length + 1:
        return reading
    if given.gives == 1:
        return cut_off(reading, first - 1)
    ways = [cut_off(reading, first - 1), cut_off(reading, length if first > 1 else 0)]
    if first > 2:
        ways.append(reading)
    if len({(len(way.requests), way.end) for way in ways}) > 1:
        raise LeftOpen("how much a call of the input gives")
    return ways[0]


def status_of(end: str) -> str:
    if end in ("Ended", "Closed"):
        return "Done"
    return end if end in ("ReadFault", "Enough") else f"HttpRefused {end}"


def session(database: model.Database, options: Options, given: Outside) -> tuple[str, bytes]:
    """The status, and what was written. A response is one call of the output, and no request behind one that fails is executed."""
    reading = with_faults(http_reading.session_of(given.script), given)
    if reading.requests and given.clock.step:
        raise LeftOpen("how often a session asks the clock")
    database.store.now = given.clock.moment
    written: list[bytes] = []
    for response in responses(database, options, reading):
        if len(written) + 1 in given.writes:
            return "WriteFault", b"".join(written)
        written.append(response)
    return status_of(reading.end), b"".join(written)


def opened(options: typing.Any, keeper: keeping.Keeper) -> model.Database | str:
    """The database of these options, which have a base id, or the status if there is none. The causes come in this order."""
    if options is None:
        return "Usage"
    try:
        return opening.opened(keeper, options.base)
    except keeping.Failed:
        return "KeptFault"
    except keeping.KeptBad as bad:
        return f"KeptBad {bad.etag}"


def run(given: Outside, keeper: keeping.Keeper) -> tuple[str, bytes]:
    """The status and what was written. The keeper is left as the session leaves it."""
    options = options_of(given.arguments)
    database = opened(options, keeper)
    return (database, b"") if isinstance(database, str) else session(database, options, given)


# A session with bytes as they come


def serve(arguments: tuple[str, ...], keeper: keeping.Keeper, take: Taking, give: Giving) -> str:
    """The status. More bytes are taken only if those that are there are no whole request and show no end."""
    options = options_of(arguments)
    database = opened(options, keeper)
    if isinstance(database, str):
        return database
    return converse(take, give, lambda request: replied(database, options, request))


def converse(take: Taking, give: Giving, replying: collections.abc.Callable[[HttpRequest], tuple[int, Reply]]) -> str:
    """The status of a session whose requests are replied to so."""
    data, place, is_all = b"", 0, False
    number = 0
    while True:
        try:
            request, place = http_reading.next_request(data, place)
        except http_reading.Stopped as stopped:
            if stopped.shown_by is None and not is_all:
                more = take()
                data, place, is_all = data[place:] + more, 0, not more
                continue
            last = http_answering.response_to_end(stopped.end)
            if last is not None:
                give(last)
            return status_of(stopped.end)
        number += 1
        status, reply = replying(request)
        give(http_answering.response(status, reply, request.close or number == MAX_REQUESTS))
        if number == MAX_REQUESTS:
            return "Enough"
        if request.close:
            return "Done"
