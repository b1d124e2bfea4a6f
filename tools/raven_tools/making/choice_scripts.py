"""Random scripts of queries that choose, make and widen automatic indexes, and of tidying, which removes some of them."""

from raven_tools import model
from raven_tools.making.query_scripts import TEAMS, VALUES, QueryMaker
from raven_tools.making.random_scripts import USUAL, kind_of
from raven_tools.model import keeping, opening
from raven_tools.queries.trees import in_order

PATHS = [("F",), ("F",), ("Age",), ("Age",), ("Name",), ("Team",), ("N", "A"), ("N", "B"), ("Ref",), ("Gone",)]
# Those with parts that a query has to quote.
PATHS += [("x y",), ("order", "it's"), ("N", "x y"), ("é",)]
GROUPS = [("Team",), ("Team",), ("Name",), ("N", "A"), ("x y",)]


class ChoiceMaker(QueryMaker):
    """Mostly queries of some documents of a collection, over indexes that lag behind."""

    def usual_body(self, name: str) -> str:
        return self.body(USUAL.get(model.folded(name)[:1], "Users"))

    def body(self, usual: str) -> str:
        """With a member whose name has to be quoted, by chance."""
        members = super().body(usual)
        named = [f'"x y":{self.one_of(TEAMS)},', f'"order":{{"it\'s":{self.one_of(VALUES)}}},']
        return "{" + "".join(part for part in named if self.chance(40)) + members[1:]

    def some(self) -> str:
        """A query of some documents, or of groups of them, mostly of what they have."""
        collection = self.one_of(["Users", "Users", "Users", "Orders", "C", "@empty"])
        paths = in_order(self.random.sample(PATHS, self.one_of([0, 1, 1, 1, 2, 2, 3])))
        groups = in_order(self.random.sample(GROUPS, self.one_of([1, 1, 2]))) if self.chance(35) else ()
        wanted = model.AutoReduce(collection, groups, paths) if groups else model.Auto(collection, paths)
        index = model.Index(0, "", wanted)
        index.table = {key: row for key, row in self.database.store.rows.items() if row.is_document()}
        self.questions.about(index)
        return self.questions.of_documents(collection, groups)

    def question(self) -> str:
        if self.database.indexes and self.chance(20):
            index = self.one_of(self.database.indexes)
            return self.questions.of_index(index, self.in_other_case(index.name), 5)
        return self.some() if self.chance(95) else self.questions.of_collection("Users", 5)

    def auto(self) -> str:
        field = self.one_of(["F", "Age", "Name", "Team", "f"])
        return f"AUTO {self.one_of(['Users', 'Users', 'users', 'Orders', 'C'])} {field}"

    def all(self) -> str:
        return "PUMP 64"

    def twice(self) -> str:
        """A query, and again when all indexes have come up to the store."""
        self.questions.parameters = None
        text = self.some()
        self.ahead = [self.all, lambda: f"QUERY {text}"] + [self.one_of([self.tidy, self.put, self.query])] * self.chance(70)
        return f"QUERY {text}"

    def kinds_of_lines(self) -> list:
        kinds = [self.put] * 4 + [self.several] + [self.delete] * 2 + [self.pump] * 2 + [self.pump_one] * 4 + [self.tidy] * 3
        kinds += [self.clean] * 2 + [self.auto] * 2 + [self.drop, self.listed, self.stats, self.find, self.stale]
        return kinds + [self.query] * 8 + [self.ask] * 5 + [self.twice] * 8

    def script(self, count: int) -> bytes:
        written = [self.several(), self.several()]
        for line in written:
            model.answer(self.database, line.encode())
        for _ in range(count):
            make = self.ahead.pop(0) if self.ahead else self.one_of(self.kinds_of_lines())
            written.append(make())
            self.kinds[kind_of(model.answer(self.database, written[-1].encode()))] += 1
        return "\n".join(written).encode()


def over(seed: int, rows: list[keeping.KeptRow]) -> ChoiceMaker:
    """A maker whose scripts run over what the rows open, if they do."""
    maker = ChoiceMaker(seed)
    try:
        maker.database = opening.opened(keeping.Keeper(rows))
    except keeping.KeptBad:
        pass
    return maker
