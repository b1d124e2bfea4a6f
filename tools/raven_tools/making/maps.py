"""Random maps: good ones, other spellings of one, and ones that are broken at some place."""

import random

from raven_tools import language
from raven_tools.making.chance import Chance

VARIABLES = ["u", "o", "_", "U", "docs1"]
LETS = ["a", "b", "c", "Key", "Sum", "u1"]
COLLECTIONS = ["Users", "Users", "Orders", "Orders", "C", "c", "in", "_x"]
LOADED = ["Users", "Users", "Orders", "Orders", "C", "c", "@empty", "@indexes", "É", 'a"b', ""]
MEMBERS = ["Name", "Name", "Name", "F", "F", "Ref", "When", "Age", "Year", "X", "Y", "from", "LoadDocument", "_", "name"]
NUMBERS = [0, 0, 1, 1, 2, 3, 7, 10, 18, 36, 100, 4_611_686_018_427_387_904, language.GREATEST]
TEXTS = ["Ada", "ada", "Bo", "", "x", "é", "\U0001f426", 'a"b', "\\", "a\tb\n\r", "1997-09-19", "36"]
IDS = ["users/1", "USERS/1", "users/2", "orders/1", "a", "Z", "é", "@index/O", "nobody", "", "tab\tid", "i" * 513]
# Tokens, and bytes that are none, which take the place of others.
STRANGE = sorted(language.RESERVED) + ["u", "v", "Name", "Sum", "_", "0", "007", "9223372036854775807", "9223372036854775808"]
STRANGE += ["9" * 30, "12ab", '"a"', '"', '"open', '"a\\x"', '"a\tb"', '"\x7f"', "'a'", "&", "|", "&&", "||", "=", "==", "==="]
STRANGE += ["=>", "!", "!=", "<", "<=", ">", ">=", "+", "-", "*", "/", "//", "%", "?", ":", ".", "..", ",", "(", ")", "{", "}"]
STRANGE += [";", "é", "\U0001f426", "\0", "\x0b", "\f", "\u00a0", "@", "#", "1.5", "''"]
BLANKS = [" "] * 12 + ["  ", "\t", "\n", "\r\n", " \n\t"]


def strength(tree: tuple) -> int:
    """How much an expression binds: a conditional least, then the binary operators in their order, then unary ones."""
    if tree[0] == "if":
        return 0
    if tree[0] == "binary":
        return 1 + language.LEVEL_OF[tree[1]]
    return 7 if tree[0] == "unary" else 8


def path_of(tree: tuple) -> list[str] | None:
    """The names of a variable and the points behind it, or None if it is something else."""
    if tree[0] == "var":
        return [tree[1]]
    before = path_of(tree[1]) if tree[0] == "dot" else None
    return before and [*before, tree[2]]


def literal(value: object) -> tuple:
    """The expression of a value that is no list and no object."""
    if value is None:
        return ("null",)
    if isinstance(value, bool):
        return ("flag", value)
    if isinstance(value, str):
        return ("text", value)
    if value == language.LEAST:
        return ("binary", "-", literal(value + 1), ("number", 1))
    return ("number", value) if value >= 0 else ("unary", "-", ("number", -value))


class Maps(Chance):
    """Makes maps by chance. Trees are those of `raven_tools.language`."""

    def __init__(self, source: random.Random):
        super().__init__(source)
        self.collections = COLLECTIONS
        self.variables: list[str] = []

    # trees

    def variable(self):
        return ("var", self.one_of(self.variables[:1] * 3 + self.variables))

    def point(self, *names):
        return ("dot", self.variable(), self.one_of(names))

    def load(self, depth):
        name = self.point("Ref", "Ref", "Name") if self.chance(75) else self.expression(depth + 2)
        if self.chance(25):
            name = ("text", self.one_of(IDS))
        return ("load", name, self.one_of(LOADED))

    def number(self, depth):
        kind = self.random.randrange(11)
        if kind <= 2 or depth > 3:
            return ("number", self.one_of(NUMBERS))
        if kind == 10:
            # The divisor is 0 now and then.
            return ("binary", self.one_of("/%"), self.number(depth + 1), self.point("Count", "Count", "Age"))
        if kind <= 5:
            return self.point("Age", "Age", "Age", "Count", "F")
        if kind == 6:
            return ("dot", self.point("When", "When", "Name"), self.one_of(["Year", "Month", "Day", "Year", "year"]))
        if kind == 7:
            return ("unary", "-", self.number(depth + 1))
        return ("binary", self.one_of("+-*/%"), self.number(depth + 1), self.number(depth + 1))

    def text(self, depth):
        kind = self.random.randrange(8)
        if kind <= 1 or depth > 3:
            return ("text", self.one_of(TEXTS + IDS))
        if kind <= 4:
            return self.point("Name", "F", "Ref", "When")
        if kind == 5:
            return ("binary", "+", self.text(depth + 1), self.text(depth + 1))
        if kind == 6:
            return ("dot", self.load(depth + 1), self.one_of(["Name", "F", "Ref", "Kind"]))
        return ("if", self.flag(depth + 1), self.text(depth + 1), self.text(depth + 1))

    def flag(self, depth):
        kind = self.random.randrange(9)
        if kind == 0 or depth > 3:
            return ("flag", self.chance(60))
        if kind == 1:
            return ("unary", "!", self.flag(depth + 1))
        if kind == 2:
            return ("binary", self.one_of(["&&", "||"]), self.flag(depth + 1), self.flag(depth + 1))
        if kind <= 4:
            return ("binary", self.one_of(["==", "!="]), self.expression(depth + 1), self.expression(depth + 1))
        side = self.number if self.chance(60) else self.text
        return ("binary", self.one_of(["<", "<=", ">", ">="]), side(depth + 1), side(depth + 1))

    def expression(self, depth=0):
        kind = self.random.randrange(20)
        if kind <= 5:
            return self.number(depth)
        if kind <= 11:
            return self.text(depth)
        if kind <= 14:
            return self.flag(depth)
        if kind == 15:
            return ("null",)
        if kind == 16 and depth < 4:
            return ("if", self.expression(depth + 1), self.expression(depth + 1), self.expression(depth + 1))
        if kind == 17 and depth < 4:
            return ("binary", self.one_of(sorted(language.LEVEL_OF)), self.expression(depth + 1), self.expression(depth + 1))
        if kind == 18 and depth < 4:
            return self.load(depth)
        return self.variable() if self.chance(40) else self.point("T", "N", "L", "Gone")

    def where(self):
        if self.chance(50):
            return ("where", ("binary", "!=", self.point("Name", "F", "Age"), ("null",)))
        return ("where", self.flag(1) if self.chance(90) else self.expression())

    def clause(self):
        names = [name for name in LETS if name not in self.variables]
        if self.chance(45) or not names:
            return self.where()
        name = self.one_of(names)
        value = self.load(0) if self.chance(50) else self.expression()
        self.variables.append(name)
        return ("let", name, value)

    def tree(self) -> language.Map:
        self.variables = [self.one_of(VARIABLES)]
        collection = self.one_of(self.collections)
        clauses = tuple(self.clause() for _ in range(self.one_of([0, 0, 1, 1, 2, 3])))
        members = {}
        for _ in range(self.one_of([1, 1, 2, 2, 3, 4])):
            path = self.point(*MEMBERS) if self.chance(45) else None
            members[path[2] if path else self.one_of(MEMBERS)] = path or self.expression()
        return language.Map(self.variables[0], collection, clauses, tuple(members.items()))

    def loading(self, collection: str | None = None, loaded: str | None = None) -> language.Map:
        """A map of which most entries depend on another document."""
        name = ("dot", ("var", "o"), "Ref")
        second = self.one_of(self.collections)
        clauses = [("let", "c", ("load", name, loaded or self.one_of(self.collections)))]
        if self.chance(40):
            clauses.append(("let", "d", ("load", ("dot", ("var", "c"), "Ref"), second)))
        if self.chance(30):
            clauses.append(("where", ("binary", self.one_of(["!=", "!=", "=="]), ("var", "c"), ("null",))))
        self.variables = ["o", *(clause[1] for clause in clauses if clause[0] == "let")]
        fields = self.random.sample(["Name", "F", "Ref", "Age"], 2)
        members = {field: ("dot", ("var", self.variables[-1]), field) for field in fields}
        known = ("binary", "==", ("var", "c"), ("null",))
        members["X"] = ("if", known, ("text", "none"), ("dot", ("var", "c"), "Name"))
        return language.Map("o", collection or self.one_of(self.collections), tuple(clauses), tuple(members.items()))

    def probed(self, tree: language.Map, body: dict, load) -> language.Map:
        """The map with members that say by a text whether they give what they give of this document now."""
        try:
            entry = language.entry_of(tree, body, load) or {}
        except language.Failed:
            return tree
        members = []
        for name, value in tree.members:
            if name in entry and not isinstance(entry[name], str) and self.chance(85):
                test = ("binary", "==", value, literal(entry[name]))
                value = ("if", test, ("text", "same"), ("text", "other"))
            members.append((name, value))
        return language.Map(tree.var, tree.collection, tree.clauses, tuple(members))

    # spellings

    def spelled(self, tree, least=0):
        """The tokens of an expression that has to bind at least so much. Parentheses are put if they have to be, or by chance."""
        if strength(tree) < least or self.chance(4):
            return ["(", *self.spelled(tree), ")"]
        kind, *parts = tree
        if kind == "if":
            return [*self.spelled(parts[0], 1), "?", *self.spelled(parts[1]), ":", *self.spelled(parts[2])]
        if kind == "binary":
            level = strength(tree)
            return [*self.spelled(parts[1], level), parts[0], *self.spelled(parts[2], level + 1)]
        if kind == "unary":
            return [parts[0], *self.spelled(parts[1], 7)]
        if kind == "dot":
            return [*self.spelled(parts[0], 8), ".", parts[1]]
        if kind == "load":
            return ["LoadDocument", "(", *self.spelled(parts[0]), ",", language.quoted(parts[1]), ")"]
        if kind == "number":
            return ["0" * self.one_of([0] * 9 + [2]) + str(parts[0])]
        return [language.printed_expression(tree)]

    def member(self, name, value):
        path = path_of(value)
        if path and path[-1] == name and self.chance(80):
            return ".".join(path).replace(".", " . ").split()
        return [name, "=", *self.spelled(value)]

    def tokens(self, tree):
        """The tokens of one of the spellings of a map."""
        tokens = ["from", tree.var, "in", "docs", ".", tree.collection]
        for word, *var, value in tree.clauses:
            tokens += [word, *var, *(["="] if var else []), *self.spelled(value)]
        tokens += ["select", "new", "{"]
        for name, value in tree.members:
            tokens += [*self.member(name, value), ","]
        if self.chance(85):
            tokens.pop()
        return [*tokens, "}"]

    def joined(self, tokens):
        """The tokens with blanks between them if they have to be there, and by chance elsewhere."""
        text = self.one_of(BLANKS) if self.chance(5) else ""
        for token in tokens:
            is_word = text[-1:].isalnum() or text[-1:] == "_"
            must = is_word and (token[0].isalnum() or token[0] == "_")
            text += (self.one_of(BLANKS) if must or self.chance(60) else "") + token
        return text + (self.one_of(BLANKS) if self.chance(5) else "")

    def text_of(self, tree: language.Map) -> str:
        return self.joined(self.tokens(tree))

    # broken maps

    def replaced(self, parts, strange):
        """The tokens, or the characters, with some change at one place."""
        at = self.random.randrange(len(parts))
        kind = self.random.randrange(6)
        if kind == 0:
            return parts[:at] + parts[at + 1 :]
        if kind == 1:
            return parts[: at + 1] + parts[at:]
        if kind == 2:
            return parts[:at] + [self.one_of(strange)] + parts[at + 1 :]
        if kind == 3:
            return parts[:at] + [self.one_of(strange)] + parts[at:]
        if kind == 4:
            other = self.random.randrange(len(parts))
            return parts[:at] + [parts[other]] + parts[at + 1 :]
        return parts[:at] if self.chance(40) else parts[:at] + parts[at + 1 : at + 2] + parts[at : at + 1] + parts[at + 2 :]

    def misnamed(self, tree):
        """The tokens with a variable or two in place of others, or with a member that is there twice."""
        tokens = self.tokens(tree)
        if self.chance(35):
            name = self.one_of([name for name, _ in tree.members])
            ways = [f"{name} = 1", f"{tree.var} . {name}", f"{name} = v"]
            more = [self.one_of(ways).split() for _ in range(self.one_of([1, 1, 2]))]
            while tokens[-1] in ("}", ","):
                tokens.pop()
            return [*tokens, *(token for part in more for token in [",", *part]), "}"]
        places = [at for at, token in enumerate(tokens) if token in self.variables]
        for _ in range(self.one_of([1, 1, 2])):
            tokens[self.one_of(places)] = self.one_of(VARIABLES + LETS)
        return tokens

    def broken(self, tree: language.Map) -> str:
        """A text that is mostly none of the language, or that has a name too many or too few."""
        if self.chance(30):
            return self.joined(self.misnamed(tree))
        tokens = self.tokens(tree)
        if self.chance(65):
            for _ in range(self.one_of([1, 1, 1, 2])):
                tokens = self.replaced(tokens, STRANGE) or ["from"]
            return self.joined(tokens)
        return "".join(self.replaced(list(self.joined(tokens)), list("\"\\ .,(){}=!<>&|+-?:_aZ09é\x00\n\x7f")))
