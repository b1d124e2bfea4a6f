"""Random rows of a keeper: documents, and definitions of automatic indexes, of which one is bad now and then."""

import random

from raven_tools import model
from raven_tools.making.chance import Chance
from raven_tools.making.choice_scripts import GROUPS, PATHS, ChoiceMaker
from raven_tools.model.documents import collection_of
from raven_tools.model.json import Json, read_json, write_json
from raven_tools.model.keeping import KeptRow
from raven_tools.queries.trees import in_order

NAMES = ["Auto/Users/ByF", "auto/1", "Auto/2", "Auto/3", "AUTO/É", "Auto/Users/By", "Auto/Users/ByAge", "Auto/x y"]
BAD_NAMES = ["F", "ReplacementOf/Auto/2", "Auto", "Auto2", "", "Auto/" + "n" * 196, "Auto/a\tb"]
BAD_PATHS: list[Json] = [["A", ""], ["A.B"], ["A("], ["A)"], [], "A", 7, [7], None, ["A", ["B"]]]
VALUES: list[Json] = [None, 7, True, "A", [], {}, ["A"]]

Body = dict[str, Json]


class KeptMaker(Chance):
    """Makes the rows of one keeper by chance."""

    def __init__(self, source: random.Random):
        super().__init__(source)
        self.documents = ChoiceMaker(self.random.randrange(10**9))
        self.etag = 0

    def row(self, name: str, collection: str, body: Body | None) -> KeptRow:
        self.etag += self.one_of([1, 1, 1, 2, 5])
        return KeptRow(self.etag, name, collection, None if body is None else write_json(body), self.random.randrange(1000))

    def document(self, name: str) -> KeptRow:
        body = read_json(self.documents.usual_body(name).encode())
        return self.row(name, collection_of(body), model.stored(body) if self.chance(85) else None)

    def paths(self, among: list, counts: list[int]) -> Json:
        return [list(path) for path in in_order(self.random.sample(among, self.one_of(counts)))]

    def definition(self) -> Body:
        body: Body = {"@metadata": {}, "Collection": self.one_of(["Users", "Users", "Users", "Orders", "", "@indexes"]), "Kind": "auto"}
        if self.chance(60):
            return {**body, "Fields": self.paths(PATHS, [0, 1, 1, 2, 2, 3, 5])}
        return {**body, "Groups": self.paths(GROUPS, [0, 1, 1, 1, 2]), "Kind": "auto-reduce", "Sums": self.paths(PATHS, [0, 1, 1, 2])}

    def with_bad_list(self, body: Body) -> Body:
        """With a list of paths that has something wrong, or is none."""
        name = self.one_of([name for name in body if name in ("Fields", "Groups", "Sums")])
        paths = body[name]
        wrong = self.one_of(BAD_PATHS)
        at = self.random.randint(0, len(paths))
        return {**body, name: self.one_of([paths[::-1], paths + paths, paths[:at] + [wrong] + paths[at:], wrong])}

    def with_bad_member(self, body: Body) -> Body:
        """With a member that is missing, of another kind, or one too many."""
        name = self.one_of(list(body))
        ways = [{other: value for other, value in body.items() if other != name}, {**body, "More": self.one_of(VALUES)}]
        ways += [{**body, name: self.one_of(VALUES)}, {**body, "Kind": self.one_of(["auto", "auto-reduce", "static", "Auto"])}]
        ways += [{**body, "@metadata": {"a": 1}}]
        return self.one_of(ways)

    def index(self, name: str, is_bad: bool) -> KeptRow:
        body = self.definition()
        if is_bad and self.chance(25):
            name = self.one_of(BAD_NAMES)
        elif is_bad:
            body = self.one_of([self.with_bad_list, self.with_bad_list, self.with_bad_member])(body)
        return self.row("@index/" + name, "@indexes", body)

    def rows(self) -> list[KeptRow]:
        """In order of etag. The names and ids are distinct."""
        names = self.random.sample(NAMES, self.random.randint(1, 5))
        ids = self.random.sample(["users/1", "Users/2", "u", "orders/1", "o", "a"], self.random.randint(0, 4))
        bad = self.one_of(names) if self.chance(40) else None
        places = [*(("index", name) for name in names), *(("document", name) for name in ids)]
        self.random.shuffle(places)
        return [self.index(name, name == bad) if kind == "index" else self.document(name) for kind, name in places]


def printed(rows: list[KeptRow]) -> list[str]:
    """The lines of a case that say the rows."""
    found: list[str] = []
    for row in rows:
        name = row.id.replace("\t", "⟨09⟩")
        found += [f"row {row.etag} {row.changed}", f"id {name}", f"collection {row.collection}"]
        found += [] if row.body is None else [f"body {row.body}"]
    return found
