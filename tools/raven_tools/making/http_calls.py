"""Calls of a server over HTTP, each before it is spelled: those that ask what lines of a script ask, and simple ones by chance."""

import collections.abc
import dataclasses

from raven_tools import model
from raven_tools.making.chance import Chance


@dataclasses.dataclass(frozen=True)
class Call:
    """The page is what stands behind the name of the database. Without a body nothing is sent of one."""

    method: str
    page: str
    parameters: tuple[tuple[str, str], ...] = ()
    expected: str | None = None
    body: bytes | None = None


# What lines ask


def put(name: str, body: str, expected: str | None = None) -> Call:
    return Call("PUT", "/docs", (("id", name),), expected, body.encode())


def delete(name: str, expected: str | None = None) -> Call:
    return Call("DELETE", "/docs", (("id", name),), expected)


def with_name(method: str, page: str) -> collections.abc.Callable[[str], Call]:
    return lambda name: Call(method, page, (("name", name),))


# For each command how many arguments stand before the rest of the line, and the call.
CALLS: dict[str, tuple[int, collections.abc.Callable[..., Call]]] = {
    "PUT": (1, put),
    "PUTIF": (2, lambda name, vector, body: put(name, body, vector)),
    "DEL": (0, delete),
    "DELIF": (1, lambda vector, name: delete(name, vector)),
    "GET": (0, lambda name: Call("GET", "/docs", (("id", name),))),
    "BULK": (0, lambda body: Call("POST", "/bulk_docs", body=body.encode())),
    "INDEX": (0, lambda body: Call("PUT", "/admin/indexes", body=f'{{"Indexes":[{body}]}}'.encode())),
    "DROP": (0, with_name("DELETE", "/indexes")),
    "STALE": (0, with_name("GET", "/indexes/staleness")),
    "QUERY": (0, lambda text: Call("GET", "/queries", (("query", text),))),
    "ASK": (0, lambda body: Call("POST", "/queries", body=body.encode())),
}
ALONE = {"INDEXES": Call("GET", "/indexes"), "STATS": Call("GET", "/stats")}


def call_of(line: bytes) -> Call | None:
    """The call that asks what a line asks, or None if there is none."""
    try:
        text = line.decode()
    except UnicodeDecodeError:
        return None
    word, _, rest = text.partition(" ")
    if text in ALONE or word not in CALLS:
        return ALONE.get(text)
    count, call = CALLS[word]
    arguments = rest.split(" ", count)
    return call(*arguments) if len(arguments) > count and all(arguments) else None


# Simple calls

BODIES = ["{}", '{"Name":"Ada","@metadata":{"@collection":"Users"}}', '{"Name":"é","N":{"A":[1,null,true]}}', "[]", "", "{", '{"A":1.5}']
COMMANDS = ['{"Commands":[]}', '{"Commands":[{"Id":"a","Type":"DELETE"}]}', '{"Commands":[{"Id":"a","Type":"PUT","Document":{}}]}']
COMMANDS += ['{"Commands":7}', "{}", '{"Commands":[{"Id":"a","Type":"PUT"}]}', '{"Commands":[{"Id":"a","Type":"PUT","Document":{}},7]}']
DEFINITIONS = ['{"Map":"from u in docs.Users select new { u.Name }","Name":"U"}', '{"Map":"from","Name":"V"}', '{"Name":"U"}', "7"]
DEFINITIONS += ['{"Map":"from u in docs.Users select new { u.N }","Name":"U"}']
QUESTIONS = ["from Users", "from Users where Name = 'ada' order by Age", "from index 'U' where Name = 'ada' select Name"]
QUESTIONS += ["from index 'V'", "from", "from Users select count()", ""]
IDS = ["a", "A", "users/1", "Users/1", "b c", "é&=+%#?/", '"', "", "tab\t", "\U0001f426", "%41", "@index/x"]
PAGES = ["/docs", "/bulk_docs", "/queries", "/admin/indexes", "/indexes", "/indexes/staleness", "/stats", "/", "", "/docs/", "/Docs"]
METHODS = ["GET", "PUT", "POST", "DELETE", "HEAD", "OPTIONS", "PATCH", "get", "!"]
VECTORS = ["", "", "x", "A:1-" + model.BASE, '"', '"a', 'a"', '"a"', "é", "*", "a b", 'W/"a"']


class Calls(Chance):
    """Makes calls by chance: mostly ones that have a route."""

    def vector(self) -> str | None:
        return self.one_of(VECTORS) if self.chance(30) else None

    def put(self) -> Call:
        return put(self.one_of(IDS), self.one_of(BODIES[:3] if self.chance(80) else BODIES), self.vector())

    def delete(self) -> Call:
        return delete(self.one_of(IDS), self.vector())

    def get(self) -> Call:
        return Call("GET", "/docs", (("id", self.one_of(IDS)),))

    def bulk(self) -> Call:
        return Call("POST", "/bulk_docs", body=self.one_of(COMMANDS).encode())

    def define(self) -> Call:
        return Call("PUT", "/admin/indexes", body=f'{{"Indexes":[{self.one_of(DEFINITIONS)}]}}'.encode())

    def query(self) -> Call:
        return Call("GET", "/queries", (("query", self.one_of(QUESTIONS)),))

    def ask(self) -> Call:
        members = {"Query": self.one_of(QUESTIONS), "WaitForNonStaleResults": self.chance(50), "Looks": self.one_of([1, 64, 65])}
        return Call("POST", "/queries", body=model.write_json(members).encode())

    def of_index(self) -> Call:
        method, page = self.one_of([("GET", "/indexes/staleness"), ("DELETE", "/indexes")])
        return Call(method, page, (("name", self.one_of(["U", "u", "V", ""])),))

    def alone(self) -> Call:
        return self.one_of([ALONE["INDEXES"], ALONE["STATS"]])

    def odd(self) -> Call:
        """Any method on any page, with what may be missing elsewhere."""
        parameters = self.one_of([(), (("ID", "a"),), (("x", "y"), ("id", "a"), ("id", "b"))])
        body = self.one_of(BODIES).encode() if self.chance(50) else None
        return Call(self.one_of(METHODS), self.one_of(PAGES), parameters, self.vector(), body)

    def call(self) -> Call:
        kinds = [self.put] * 5 + [self.delete] * 2 + [self.get] * 3 + [self.bulk] * 2 + [self.define, self.query, self.ask]
        return self.one_of(kinds + [self.of_index, self.alone, self.odd, self.odd])()
