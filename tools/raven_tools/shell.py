"""Lines of a script, typed at a server: the request that each is, and how its response looks in a terminal."""

import collections.abc
import dataclasses
import json
import time
import typing
import unicodedata

from raven_tools import explaining
from raven_tools.model import Refused
from raven_tools.model.lines import arguments
from raven_tools.remote import Answer, Database, Index, quoted
from raven_tools.scalars import is_number

# Lines that have no route: the server does by itself what they ask for.
BY_ITSELF = {"AUTO", "PUMP", "SWITCH", "TIDY", "READ", "PUBLISH", "CLEAN", "FIND"}
# Lines that scripts alone have.
OF_SCRIPTS = {"MULTI", "MASK"}
# The widest cell of a table, in characters.
WIDEST = 40
# How long a stale query is left alone before it is asked again, in seconds.
NAP = 0.05
HELP = """PUT <id> <body>             GET <id>              QUERY <query>
PUTIF <id> <vector> <body>  INDEX <definition>    ASK <question>
DEL <id>                    DROP <index>          STALE <index>
DELIF <vector> <id>         INDEXES               STATS
BULK <commands>             help                  quit"""

Lines = collections.abc.Iterator[str]


@dataclasses.dataclass(frozen=True)
class Request:
    method: str
    page: str
    body: str | None = None
    match: str | None = None


# Requests


def put(rest: str) -> Request:
    name, body = arguments(rest, 1)
    return Request("PUT", f"/docs?id={quoted(name)}", body)


def put_if(rest: str) -> Request:
    name, vector, body = arguments(rest, 2)
    return Request("PUT", f"/docs?id={quoted(name)}", body, vector)


def delete_if(rest: str) -> Request:
    vector, name = arguments(rest, 1)
    return Request("DELETE", f"/docs?id={quoted(name)}", match=vector)


REQUESTS: dict[str, collections.abc.Callable[[str], Request]] = {
    "PUT": put,
    "PUTIF": put_if,
    "DEL": lambda rest: Request("DELETE", f"/docs?id={quoted(rest)}"),
    "DELIF": delete_if,
    "BULK": lambda rest: Request("POST", "/bulk_docs", rest),
    "GET": lambda rest: Request("GET", f"/docs?id={quoted(rest)}"),
    "INDEX": lambda rest: Request("PUT", "/admin/indexes", f'{{"Indexes":[{rest}]}}'),
    "DROP": lambda rest: Request("DELETE", f"/indexes?name={quoted(rest)}"),
    "QUERY": lambda rest: Request("POST", "/queries", json.dumps({"Query": rest}, ensure_ascii=False)),
    "ASK": lambda rest: Request("POST", "/queries", rest),
    "STALE": lambda rest: Request("GET", f"/indexes/staleness?name={quoted(rest)}"),
}
ALONE = {"STATS": Request("GET", "/stats"), "INDEXES": Request("GET", "/indexes")}


def request_of(line: str) -> Request:
    """What a line asks. One that is none of those with a route is Refused."""
    if line in ALONE:
        return ALONE[line]
    word, rest = arguments(line, 1)
    if word not in REQUESTS:
        raise Refused("UnknownLine")
    return REQUESTS[word](rest)


# Texts


def safe(text: str) -> str:
    """Without what a terminal would obey: documents are strangers' text."""
    return "".join(" " if unicodedata.category(mark) in ("Cc", "Cf", "Cs") else mark for mark in text)


def compact(value: object) -> str:
    return json.dumps(value, ensure_ascii=False, separators=(",", ":"))


def plain(value: object) -> str:
    """A value in a cell."""
    text = safe(value if isinstance(value, str) else compact(value))
    return text if len(text) <= WIDEST else text[: WIDEST - 2] + ".."


def flag(is_stale: bool) -> str:
    return "STALE" if is_stale else "FRESH"


def table(heads: list[str], rows: list[list[object]]) -> Lines:
    """Numbers stand at the right. A cell of `...` has no value."""
    cells = [["" if value is ... else plain(value) for value in row] for row in rows]
    are_numbers = [all(value is ... or is_number(value) for value in column) for column in zip(*rows)]
    widths = [max(map(len, column)) for column in zip(map(plain, heads), *cells)]
    rules = ["-" * width for width in widths]
    for line in [list(map(plain, heads)), rules, *cells]:
        placed = [cell.rjust(width) if right else cell.ljust(width) for cell, width, right in zip(line, widths, are_numbers)]
        yield "  ".join(placed).rstrip()


# Responses


def id_of(row: dict[str, typing.Any]) -> object:
    metadata = row.get("@metadata")
    return metadata.get("@id", ...) if isinstance(metadata, dict) else ...


def results(reply: dict[str, typing.Any], took: float) -> Lines:
    """The rows of a query with all members that any of them has, and its flag."""
    rows = reply["Results"]
    names = list(dict.fromkeys(name for row in rows for name in row if name != "@metadata"))
    cells = [[row.get(name, ...) for name in names] for row in rows]
    if any("@metadata" in row for row in rows):
        names = ["id", *names]
        cells = [[id_of(row), *line] for row, line in zip(rows, cells)]
    if rows:
        yield from table(names, cells)
    for name, document in reply["Includes"].items():
        yield safe(f"include {name} {compact(document)}")
    counts = f"{len(rows)} of {reply['TotalResults']}"
    yield safe(f"{flag(reply['IsStale'])}  {counts}, {reply['IndexName']} at etag {reply['IndexEtag']}, {took * 1000:.0f} ms")


def document(reply: dict[str, typing.Any]) -> Lines:
    yield from map(safe, json.dumps(reply["Results"][0], ensure_ascii=False, indent=2).split("\n"))


def staleness(reply: dict[str, typing.Any]) -> Lines:
    yield f"{flag(reply['IsStale'])}  at etag {reply['IndexEtag']}, the newest that it reads is {reply['Newest']}"


def stats(reply: dict[str, int]) -> Lines:
    yield from table(list(reply), [list(reply.values())])


def indexes(listed: list[Index]) -> Lines:
    heads = ["Name", "Kind", "Entries", "Errors", "Etag", "Behind", "State"]
    rows: list[list[object]] = []
    for index in listed:
        given = index.listed
        rows.append([index.name, given["Definition"]["Kind"], *(given[name] for name in heads[2:5]), index.behind, flag(given["IsStale"])])
    if rows:
        yield from table(heads, rows)


def refusal(line: str, answer: Answer, causes: list[explaining.Cause]) -> Lines:
    """Why it is refused, with a mark below the byte of the text that the refusal names."""
    reply = answer.reply
    text = explaining.text_of(line, reply)
    if text is not None:
        yield from map(safe, explaining.pointed(text, reply["At"]))
    members = "".join(f", {name} {compact(value)}" for name, value in reply.items() if name != "Error")
    yield safe(f"{answer.status} {reply['Error']}{members}")
    when = explaining.when_of(reply, causes)
    if when:
        yield f"if {when}"


class Shown(typing.NamedTuple):
    """What is shown for a line, and whether it was refused."""

    lines: list[str]
    is_refused: bool = False


@dataclasses.dataclass(frozen=True)
class Shell:
    """Answers lines from a database."""

    database: Database
    patience: float = 0  # how long a stale query is asked again, in seconds
    causes: list[explaining.Cause] = dataclasses.field(default_factory=explaining.causes)

    def answer(self, line: str) -> Shown:
        """A `NoServer` if nothing answers."""
        if line in ("", "help"):
            return Shown(HELP.split("\n") if line else [])
        try:
            request = request_of(line)
            began = time.monotonic()
            answer = self.asked(request, began + self.patience)
        except Refused:
            return Shown([unknown(line)], True)
        except ValueError as fault:
            return Shown([safe(f"this cannot be asked over HTTP: {fault}")], True)
        if answer.status >= 400:
            return Shown(list(refusal(line, answer, self.causes)), True)
        return Shown(list(self.taken(request, answer, time.monotonic() - began)))

    def asked(self, request: Request, until: float) -> Answer:
        body = None if request.body is None else request.body.encode()
        match = None if request.match is None else f'"{request.match}"'.encode()
        while True:
            answer = self.database.ask(request.method, request.page, body, match)
            is_stale = request.page == "/queries" and answer.status == 200 and answer.reply["IsStale"]
            if not is_stale or time.monotonic() + NAP > until:
                return answer
            time.sleep(NAP)

    def taken(self, request: Request, answer: Answer, took: float) -> Lines:
        """A response that is no refusal."""
        if answer.reply is None:
            return iter(["done"])
        if request == ALONE["INDEXES"]:
            return indexes(self.database.indexes())
        if request == ALONE["STATS"]:
            return stats(answer.reply)
        match request.method, request.page.partition("?")[0]:
            case "POST", "/queries":
                return results(answer.reply, took)
            case "GET", "/docs":
                return document(answer.reply)
            case "GET", "/indexes/staleness":
                return staleness(answer.reply)
        return iter([safe(compact(answer.reply))])


def unknown(line: str) -> str:
    word = line.partition(" ")[0]
    if word in OF_SCRIPTS:
        return f"{word} has no route: define the parts by an INDEX each, and ask one after another"
    if word in BY_ITSELF:
        return f"{word} has no route: indexes catch up, switch and are cleaned by themselves, and a query makes those that it needs"
    return "UnknownLine: no line with a route; `help` lists them, and docs/script.md says what each is"
