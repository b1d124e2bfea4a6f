"""What a request over HTTP asks: its route, its parameters, and the members of its body.

What reads a request raises what is refused before the database is asked. It gives an action, which raises what the database refuses.
"""

import collections.abc
import dataclasses
import re

from raven_tools.model import slots
from raven_tools.model.asking import Ask, answer_to, read_query
from raven_tools.model.database import Database, Reply
from raven_tools.model.http_reading import HttpRequest
from raven_tools.model.json import read_json
from raven_tools.model.lines import (
    ALONE,
    ask_of,
    commands_of,
    definition_of,
    drop_line,
    get_line,
    id_of,
    name_of,
    object_of,
    stale_line,
)
from raven_tools.model.refused import Refused
from raven_tools.model.transactions import Command

BEFORE_NAME = "/databases/"
ESCAPE = re.compile(rb"%([0-9A-Fa-f]{2})")

Action = collections.abc.Callable[[Database], Reply]
Asking = collections.abc.Callable[[HttpRequest], Action]

# Parameters


def decoded(text: str) -> str:
    """What a name or value stands for. What is no escape stays as it is, and bytes that are no UTF-8 become U+FFFD."""
    data = text.replace("+", " ").encode()
    return ESCAPE.sub(lambda found: bytes.fromhex(found[1].decode()), data).decode("utf-8", "replace")


def parameter(request: HttpRequest, name: str) -> str:
    """The first parameter of this name; one without `=` is empty."""
    for piece in filter(None, request.query.split("&")):
        named, _, value = piece.partition("=")
        if decoded(named) == name:
            return decoded(value)
    raise Refused("BadMember", Name=name)


# Documents


def put(request: HttpRequest) -> Action:
    body = read_json(request.body)
    name = id_of(parameter(request, "id"))
    command = Command(name, request.expected, object_of(body, "body"))
    return lambda database: database.write(command)


def delete(request: HttpRequest) -> Action:
    command = Command(id_of(parameter(request, "id")), request.expected)
    return lambda database: database.write(command)


def get(request: HttpRequest) -> Action:
    """The document stands among results, as those of a query do."""
    name = id_of(parameter(request, "id"))
    return lambda database: {"Includes": {}, "Results": [get_line(database, name)]}


def bulk(request: HttpRequest) -> Action:
    commands = commands_of(read_json(request.body))
    return lambda database: database.bulk(commands)


# Queries


def answered(ask: Ask) -> Action:
    return lambda database: answer_to(database, ask)


def query(request: HttpRequest) -> Action:
    return answered(Ask(read_query(parameter(request, "query"))))


def ask(request: HttpRequest) -> Action:
    """Whether it waits or not, each look finds the same database, so the last answers as the first did."""
    return answered(ask_of(read_json(request.body)))


# Indexes


def define(request: HttpRequest) -> Action:
    """Exactly one definition, in a list."""
    definitions = object_of(read_json(request.body), "body").get("Indexes")
    if not isinstance(definitions, list) or len(definitions) != 1:
        raise Refused("BadMember", Name="Indexes")
    name, definition = definition_of(object_of(definitions[0], "Indexes"))
    return lambda database: slots.define(database, name, definition)


def remove(request: HttpRequest) -> Action:
    name = name_of(parameter(request, "name"))
    return lambda database: drop_line(database, name)


def staleness(request: HttpRequest) -> Action:
    name = name_of(parameter(request, "name"))
    return lambda database: stale_line(database, name)


def listed(_: HttpRequest) -> Action:
    return ALONE["INDEXES"]


def stats(_: HttpRequest) -> Action:
    return ALONE["STATS"]


# Routes


@dataclasses.dataclass(frozen=True)
class Route:
    asking: Asking
    status: int  # of a reply that refuses nothing


ROUTES = {
    ("PUT", "/docs"): Route(put, 201),
    ("DELETE", "/docs"): Route(delete, 204),
    ("GET", "/docs"): Route(get, 200),
    ("POST", "/bulk_docs"): Route(bulk, 201),
    ("GET", "/queries"): Route(query, 200),
    ("POST", "/queries"): Route(ask, 200),
    ("PUT", "/admin/indexes"): Route(define, 201),
    ("GET", "/indexes"): Route(listed, 200),
    ("DELETE", "/indexes"): Route(remove, 204),
    ("GET", "/indexes/staleness"): Route(staleness, 200),
    ("GET", "/stats"): Route(stats, 200),
}


def route_of(request: HttpRequest, database: str) -> Route:
    """The route, whatever the database. Then the database has to be this one."""
    if not request.path.startswith(BEFORE_NAME):
        raise Refused("NoRoute")
    name, slash, page = request.path.removeprefix(BEFORE_NAME).partition("/")
    route = ROUTES.get((request.method, slash + page))
    if not name or not route:
        raise Refused("NoRoute")
    if name != database:
        raise Refused("NoDatabase")
    return route
