"""Maps: the tree that a text spells, or the place and the kind of its refusal."""

import dataclasses

from raven_tools.language.tokens import DEEPEST, LEVEL_OF, LONGEST, MOST_MEMBERS, MOST_OPERATORS, RESERVED, Refusal, Token, tokens_of


@dataclasses.dataclass(frozen=True)
class Map:
    var: str
    collection: str
    clauses: tuple  # of ("where", expression) and ("let", variable, expression)
    members: tuple  # of (name, expression)


class Reader:
    """Reads the tokens of a map from the left, each once; what no map goes on with is Unexpected there."""

    def __init__(self, tokens: list[Token]):
        self.tokens = tokens
        self.next = 0
        self.opened = 0  # the parts that are open within one another
        self.operators = 0  # those of this clause or member
        self.bound = set()
        self.unknown: int | None = None  # the place of the first name that is not bound, or is bound again
        self.doubled: int | None = None  # the place of the first member whose name is there already

    # single tokens

    @property
    def token(self) -> Token:
        return self.tokens[self.next]

    def take(self) -> Token:
        self.next += 1
        return self.tokens[self.next - 1]

    def unexpected(self):
        return Refusal(self.token.at, "Unexpected")

    def too_large(self):
        return Refusal(self.token.at, "TooLarge")

    def is_mark(self, *marks: str) -> bool:
        return self.token.kind == "mark" and self.token.value in marks

    def is_word(self, *words: str) -> bool:
        return self.token.kind == "name" and self.token.value in words

    def mark(self, mark: str) -> Token:
        if not self.is_mark(mark):
            raise self.unexpected()
        return self.take()

    def word(self, word: str) -> Token:
        if not self.is_word(word):
            raise self.unexpected()
        return self.take()

    def of_kind(self, kind: str) -> Token:
        if self.token.kind != kind:
            raise self.unexpected()
        return self.take()

    def variable(self):
        if self.is_word(*RESERVED):
            raise self.unexpected()
        return self.of_kind("name")

    # limits and names

    def open(self):
        """Takes a token with which a part begins."""
        if self.opened == DEEPEST:
            raise self.too_large()
        self.opened += 1
        return self.take()

    def close(self):
        self.opened -= 1

    def operator(self):
        """Takes a binary operator or a point."""
        if self.operators == MOST_OPERATORS:
            raise self.too_large()
        self.operators += 1
        return self.take().value

    def use(self, token):
        if token.value not in self.bound:
            self.miss(token)
        return ("var", token.value)

    def miss(self, token):
        if self.unknown is None:
            self.unknown = token.at

    # rules

    def map(self) -> Map:
        self.word("from")
        var = self.variable().value
        self.bound.add(var)
        self.word("in")
        self.word("docs")
        self.mark(".")
        collection = self.of_kind("name").value
        clauses = []
        while not self.is_word("select"):
            clauses.append(self.clause())
        self.word("select")
        self.word("new")
        members = self.members()
        self.of_kind("end")
        return Map(var, collection, tuple(clauses), tuple(members))

    def clause(self):
        self.operators = 0
        if self.is_word("where"):
            self.take()
            return ("where", self.expression())
        self.word("let")
        var = self.variable()
        if var.value in self.bound:
            self.miss(var)
        self.mark("=")
        value = self.expression()
        self.bound.add(var.value)
        return ("let", var.value, value)

    def members(self):
        self.mark("{")
        members = {}
        count = 0
        while count == 0 or not self.is_mark("}"):
            at = self.token.at
            name, value = self.member(count)
            if name in members and self.doubled is None:
                self.doubled = at
            members[name] = value
            count += 1
            if not self.is_mark("}"):
                self.mark(",")
        self.mark("}")
        return members.items()

    def member(self, before):
        self.operators = 0
        if self.token.kind == "name" and before == MOST_MEMBERS:
            raise self.too_large()
        first = self.of_kind("name")
        if self.is_mark("="):
            self.take()
            return first.value, self.expression()
        if first.value in RESERVED:
            raise self.unexpected()
        value = self.points(self.use(first))
        return value[-1], value

    def expression(self):
        test = self.binary(0)
        if not self.is_mark("?"):
            return test
        self.open()
        yes = self.expression()
        self.mark(":")
        no = self.expression()
        self.close()
        return ("if", test, yes, no)

    def binary(self, least):
        """An expression of operators that bind at least so much; those of one level group to the left."""
        left = self.unary()
        while self.token.kind == "mark" and LEVEL_OF.get(self.token.value, -1) >= least:
            mark = self.operator()
            left = ("binary", mark, left, self.binary(LEVEL_OF[mark] + 1))
        return left

    def unary(self):
        if not self.is_mark("!", "-"):
            return self.points(self.primary())
        mark = self.open().value
        operand = self.unary()
        self.close()
        return ("unary", mark, operand)

    def points(self, value):
        while self.is_mark("."):
            self.operator()
            value = ("dot", value, self.of_kind("name").value)
        return value

    def primary(self):
        if self.token.kind in ("number", "text"):
            token = self.take()
            return (token.kind, token.value)
        if self.is_word("true", "false"):
            return ("flag", self.take().value == "true")
        if self.is_word("null"):
            self.take()
            return ("null",)
        if self.is_word("LoadDocument"):
            return self.load()
        if not self.is_mark("("):
            return self.use(self.variable())
        self.open()
        value = self.expression()
        self.mark(")")
        self.close()
        return value

    def load(self):
        self.word("LoadDocument")
        if not self.is_mark("("):
            raise self.unexpected()
        self.open()
        name = self.expression()
        self.mark(",")
        collection = self.of_kind("text").value
        self.mark(")")
        self.close()
        return ("load", name, collection)


def parse(text: str) -> Map:
    """The map that the text spells. The causes of a refusal are looked for in this order."""
    if len(text.encode()) > LONGEST:
        raise Refusal(LONGEST, "TooLarge")
    reader = Reader(tokens_of(text))
    tree = reader.map()
    if reader.unknown is not None:
        raise Refusal(reader.unknown, "UnknownName")
    if reader.doubled is not None:
        raise Refusal(reader.doubled, "DuplicateField")
    return tree


def expressions_of(tree: Map) -> list[tuple]:
    return [part[-1] for part in [*tree.clauses, *tree.members]]


def loaded_by(expression: tuple) -> set[str]:
    """The collections that `LoadDocument` names in an expression."""
    found = {expression[2]} if expression[0] == "load" else set()
    return found.union(*[loaded_by(part) for part in expression if isinstance(part, tuple)])


def scope_of(tree: Map) -> set[str]:
    """The collections whose rows count for a map."""
    return {tree.collection}.union(*map(loaded_by, expressions_of(tree)))
