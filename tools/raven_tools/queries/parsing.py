"""From the text of a query to what it says, or to the first token that is refused."""

import collections.abc

from raven_tools.queries import trees
from raven_tools.queries.tokens import DEEPEST, LONGEST, MOST_FIELDS, Refusal, Token, tokens_of

# In the order in which they stand.
CLAUSES = ("group", "where", "order", "select", "include")
DOWN = {"asc": False, "ascending": False, "desc": True, "descending": True}
LONG = {"long": True, "string": False}
SIGNS = frozenset(["=", "!=", "<", "<=", ">", ">="])


class Parser:
    """The tokens from the next one on, and how many fields have begun."""

    def __init__(self, tokens: list[Token]):
        self.tokens = tokens
        self.at = 0
        self.fields = 0

    # tokens

    def next(self) -> Token:
        return self.tokens[self.at]

    def refuse(self, kind: str = "Unexpected") -> Refusal:
        """That the next token is refused. A bad number is that wherever it is, unless an earlier cause counts."""
        token = self.next()
        return Refusal(token.at, "BadNumber" if token.kind == "bad" and kind == "Unexpected" else kind)

    def is_next(self, kind: str, *values: object) -> bool:
        return self.next().kind == kind and (not values or self.next().value in values)

    def take_if(self, kind: str, *values: object) -> bool:
        is_there = self.is_next(kind, *values)
        self.at += is_there
        return is_there

    def take(self, kind: str, *values: object) -> object:
        if not self.is_next(kind, *values):
            raise self.refuse()
        self.at += 1
        return self.tokens[self.at - 1].value

    def is_call(self, *names: str) -> bool:
        """Whether the next token is one of these names, in any case of letters, and `(` follows it."""
        is_name = self.is_next("name") and self.next().value.lower() in names
        return is_name and self.tokens[self.at + 1][:2] == ("mark", "(")

    def several(self, rule: collections.abc.Callable[[], object]) -> list:
        found = [rule()]
        while self.take_if("mark", ","):
            found.append(rule())
        return found

    # fields and values

    def part(self) -> str:
        if self.is_next("text") and (not self.next().value or set(self.next().value) & set(".()")):
            raise self.refuse()
        return self.take("text") if self.is_next("text") else self.take("name")

    def path(self) -> trees.Path:
        parts = [self.part()]
        while self.take_if("mark", "."):
            parts.append(self.part())
        return tuple(parts)

    def begin_field(self) -> None:
        if self.next().kind in ("name", "text"):
            if self.fields == MOST_FIELDS:
                raise self.refuse("TooLarge")
            self.fields += 1

    def counted_path(self) -> trees.Path:
        self.begin_field()
        return self.path()

    def field(self) -> trees.Field:
        self.begin_field()
        if self.is_call("count"):
            self.at += 2
            self.take("mark", ")")
            return ("count",)
        if self.is_call("sum"):
            self.at += 2
            path = self.path()
            self.take("mark", ")")
            return ("sum", path)
        return ("path", self.path())

    def value(self) -> trees.Value:
        for kind in ("text", "number"):
            if self.is_next(kind):
                return (kind, self.take(kind))
        if self.is_next("word", "true", "false", "null"):
            return (self.take("word"),)
        self.take("mark", "$")
        return ("parameter", self.take("name"))

    # conditions; `depth` is how many parts are open round them

    def condition(self, depth: int) -> trees.Condition:
        left = self.conjunction(depth)
        while self.take_if("word", "or"):
            left = ("or", left, self.conjunction(depth))
        return left

    def conjunction(self, depth: int) -> trees.Condition:
        left = self.negation(depth)
        while self.take_if("word", "and"):
            left = ("and", left, self.negation(depth))
        return left

    def open(self, depth: int) -> int:
        if depth == DEEPEST:
            raise self.refuse("TooLarge")
        self.at += 1
        return depth + 1

    def negation(self, depth: int) -> trees.Condition:
        if self.is_next("word", "not"):
            return ("not", self.negation(self.open(depth)))
        return self.test(depth)

    def test(self, depth: int) -> trees.Condition:
        if self.is_next("mark", "("):
            inner = self.condition(self.open(depth))
            self.take("mark", ")")
            return inner
        if self.is_next("word", "exact"):
            depth = self.open(depth)
            self.take("mark", "(")
            inner = self.condition(depth)
            self.take("mark", ")")
            return ("exact", inner)
        if self.take_if("word", "true"):
            return ("true",)
        if self.is_call("startswith", "exists"):
            return self.call()
        return self.comparison(self.field())

    def call(self) -> trees.Condition:
        is_exists = self.is_call("exists")
        self.at += 2
        field = self.field()
        if is_exists:
            self.take("mark", ")")
            return ("exists", field)
        self.take("mark", ",")
        value = self.value()
        self.take("mark", ")")
        return ("startsWith", field, value)

    def comparison(self, field: trees.Field) -> trees.Condition:
        if self.is_next("mark", *SIGNS):
            return ("compare", field, self.take("mark"), self.value())
        if self.take_if("word", "between"):
            low = self.value()
            self.take("word", "and")
            return ("between", field, low, self.value())
        self.take("word", "in")
        self.take("mark", "(")
        values = self.several(self.value)
        self.take("mark", ")")
        return ("in", field, values)

    # clauses

    def sort(self) -> trees.Sort:
        sort = trees.Sort(self.field())
        if self.take_if("word", "as"):
            if not (self.is_next("name") and self.next().value.lower() in LONG):
                raise self.refuse()
            sort.is_long = LONG[self.take("name").lower()]
        if self.is_next("name") and self.next().value.lower() in DOWN:
            sort.is_down = DOWN[self.take("name").lower()]
        return sort

    def column(self) -> tuple[trees.Field, str | None]:
        field = self.field()
        return field, self.take("name") if self.take_if("word", "as") else None

    def source(self) -> tuple[str, str]:
        if self.take_if("word", "index"):
            return "index", self.take("text")
        if self.is_next("text") and self.next().value.startswith("@") and self.next().value != "@empty":
            raise self.refuse()
        return "collection", self.take("text") if self.is_next("text") else self.take("name")

    def clause(self, query: trees.Query, word: str) -> None:
        if word in ("group", "order"):
            self.take("word", "by")
        if word == "group":
            query.groups = self.several(self.counted_path)
        elif word == "where":
            query.condition = self.condition(0)
        elif word == "order":
            query.sorts = self.several(self.sort)
        elif word == "select":
            query.columns = self.several(self.column)
        else:
            query.includes = self.several(self.counted_path)

    def query(self) -> trees.Query:
        self.take("word", "from")
        query = trees.Query(self.source())
        left = list(CLAUSES)
        if query.origin[0] == "index" and self.is_next("word", "group"):
            raise self.refuse()
        while self.is_next("word", *CLAUSES):
            word = self.next().value
            if word not in left:
                raise self.refuse("ClauseOrder")
            self.at += 1
            self.clause(query, word)
            left = left[left.index(word) + 1 :]
        self.take("end")
        return query


def parse(text: str) -> trees.Query:
    if len(text.encode()) > LONGEST:
        raise Refusal(LONGEST, "TooLarge")
    return Parser(tokens_of(text)).query()
