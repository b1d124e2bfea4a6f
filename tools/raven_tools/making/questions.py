"""Random queries over what a database has: mostly good ones, in any of their spellings, and ones that are refused."""

import collections.abc
import random

from raven_tools import language, model
from raven_tools.making.chance import Chance
from raven_tools.queries.printing import part
from raven_tools.queries.tokens import GREATEST, KEY_WORDS, LEAST
from raven_tools.queries.trees import COUNT, Path
from raven_tools.scalars import Scalar, is_number

Tokens = list[str]
# Values that no row may have, of each kind.
VALUES = [None, True, False, 0, 1, -1, 7, 36, 2**63 - 1, -(2**63), "", "a", "ada", "Ada", "A", "z", "é", "É", "7", "true", "null"]
# Paths that a document may have.
PATHS = [("Name",), ("F",), ("Age",), ("Ref",), ("When",), ("N",), ("L",), ("N", "A"), ("N", "B"), ("name",), ("Gone",), ("F", "A")]
PATHS += [("@metadata",), ("@metadata", "@id"), ("@metadata", "@other"), ("Team",), ("x y",), ("order",), ("count",), ("z",), ("é",)]
NAMES = ["A", "b", "Count", "F", "Name", "as1", "long", "desc", "_"]
SIGNS = ["=", "==", "!=", "<>", "<", "<=", ">", ">="]
# Tokens, and bytes that are none, which take the place of others.
STRANGE = sorted(KEY_WORDS) + ["F", "Name", "count", "sum", "exists", "startsWith", "long", "desc", "0", "-1", "12ab", "1.5", "-"]
STRANGE += ["9223372036854775807", "9223372036854775808", "-9223372036854775809", "''", "'a'", '"b"', "'a.b'", "'", '"', "$", "$p"]
STRANGE += ["(", ")", ",", ".", "=", "!", "!=", "<", "<>", ">", ">=", "@", "@empty", "'@x'", "'@empty'", "é", ";", "\x0b", "\x7f", "*"]
BLANKS = [" "] * 14 + ["  ", "\t", "\r", " \t"]


def words_of(text: str) -> str:
    """The text without the characters that no text of a query may have."""
    return "".join(mark for mark in text if mark >= " " and mark != "\x7f")


def constant(value: Scalar) -> str:
    """A value that is no text."""
    return "null" if value is None else str(value).lower()


class Questions(Chance):
    """Makes queries by chance. While one is made, its parameters are collected, if it may have any."""

    def __init__(self, source: random.Random):
        super().__init__(source)
        self.fields: list[str] = []
        self.rows: list[dict] = []
        self.has_rows = False  # those of a reduce
        self.parameters: dict[str, object] | None = None

    def about(self, index: model.Index, others: collections.abc.Sequence[model.Index] = ()) -> None:
        """The rows that the index has, by whose fields its queries ask. If there are others, those of all their entries."""
        entries = [entry for one in (index, *others) for entry in one.mapped()[0].values()]
        reduce = index.definition.reduce
        self.fields = index.definition.fields()
        self.has_rows = bool(reduce)
        self.rows = language.rows_of(reduce, entries) if reduce else entries

    # values

    def in_other_case(self, text):
        return self.one_of([text, text, text, text.lower(), text.upper(), text.swapcase()])

    def near(self, value):
        """The value, or one that is close to it in some order."""
        if isinstance(value, str):
            value = self.in_other_case(value)
            return value[: self.random.randint(0, len(value))] if self.chance(20) else value
        return value + self.one_of([0, 0, 0, 1, -1]) if is_number(value) else value

    def value_like(self, field):
        values = [row[field] for row in self.rows if field in row]
        value = self.near(self.one_of(values)) if values and self.chance(80) else self.one_of(VALUES)
        is_outside = is_number(value) and not LEAST <= value <= GREATEST
        return self.one_of([LEAST, GREATEST, str(value)]) if is_outside else value

    def quoted(self, text):
        mark = self.one_of("''\"")
        return mark + words_of(text).replace("\\", "\\\\").replace(mark, "\\" + mark) + mark

    def spelled_value(self, value) -> Tokens:
        if self.parameters is not None and self.chance(25):
            name = self.one_of(["p", "q", "P", "x1"])
            self.parameters.setdefault(name, value if self.chance(98) else self.one_of([[], [value], {}]))
            return ["$", name]
        return [self.quoted(value) if isinstance(value, str) else constant(value)]

    # fields

    def spelled_part(self, name):
        return self.quoted(name) if part(name).startswith("'") or self.chance(15) else name

    def spelled_path(self, path) -> Tokens:
        return [token for name in path for token in (".", self.spelled_part(name))][1:]

    def spelled_field(self, name: str) -> Tokens:
        """A field by the name that rows have for it."""
        if name == COUNT:
            return ["count", "(", ")"]
        if name.startswith("sum("):
            return ["sum", "(", *self.spelled_path(name[len("sum(") : -1].split(".")), ")"]
        return self.spelled_path(name.split("."))

    def field(self) -> tuple[str, Tokens]:
        """Mostly one that the index has."""
        if self.fields and self.chance(98):
            name = self.one_of(self.fields)
            return name, self.spelled_field(name)
        path = self.one_of(PATHS)
        calls = [["count", "(", ")"], ["sum", "(", *self.spelled_path(path), ")"]]
        return ".".join(path), self.one_of([self.spelled_path(path)] * 3 + calls)

    def own_path(self):
        """A path that the rows have, and that is no count or sum, if there is one."""
        return tuple(self.one_of([name for name in self.fields if "(" not in name] or ["Gone"]).split("."))

    def any_path(self):
        if self.fields and self.chance(30):
            return self.own_path()
        return self.one_of(PATHS)

    # conditions

    def several_values(self, field) -> Tokens:
        tokens = []
        for _ in range(self.one_of([1, 1, 2, 3])):
            tokens += [",", *self.spelled_value(self.value_like(field))]
        if self.parameters is not None and self.chance(20):
            name = self.one_of(["list", "items"])
            values = [self.value_like(field) for _ in range(self.random.randrange(4))]
            self.parameters.setdefault(name, values if self.chance(97) else [*values, []])
            tokens += [",", "$", name]
        return tokens[1:]

    def test(self) -> Tokens:
        field, tokens = self.field()
        kind = self.random.randrange(12)
        if kind == 0:
            return ["exists", "(", *tokens, ")"]
        if kind <= 2:
            value = self.value_like(field)
            value = value if isinstance(value, str) or self.chance(3) else self.one_of(["a", "A", "", "b"])
            return ["startsWith", "(", *tokens, ",", *self.spelled_value(value), ")"]
        if kind <= 4:
            return [*tokens, "in", "(", *self.several_values(field), ")"]
        if kind == 5:
            low, high = self.value_like(field), self.value_like(field)
            return [*tokens, "between", *self.spelled_value(low), "and", *self.spelled_value(high)]
        if kind == 6 and self.chance(20):
            return ["true"]
        return [*tokens, self.one_of(SIGNS), *self.spelled_value(self.value_like(field))]

    def condition(self, depth=0) -> Tokens:
        """Without parentheses the words bind by their rank, which is as good."""
        kind = self.random.randrange(14 if depth < 4 else 6)
        if kind <= 6:
            return self.test()
        if kind <= 8:
            return [*self.condition(depth + 1), self.one_of(["and", "or"]), *self.condition(depth + 1)]
        if kind == 9:
            return ["(", *self.condition(depth + 1), ")"]
        inner = self.condition(depth + 1)
        return ["not", *inner] if kind == 10 else ["exact", "(", *inner, ")"]

    def where(self) -> Tokens:
        """A condition, in three of ten on one field."""
        fields = self.fields
        if fields and self.chance(30):
            self.fields = [self.one_of(fields)]
        tokens = self.condition()
        self.fields = fields
        return tokens

    # clauses

    def listed(self, rule, counts) -> Tokens:
        return [token for _ in range(self.one_of(counts)) for token in (",", *rule())][1:]

    def sort(self) -> Tokens:
        _, tokens = self.field()
        if self.chance(50):
            tokens += ["as", self.one_of(["long", "long", "long", "string"])]
        return tokens + self.one_of([[], [], ["desc"], ["asc"], ["descending"], ["ascending"]])

    def column(self) -> Tokens:
        """Of a reduce mostly fields are taken, since other paths are refused."""
        tokens = self.field()[1] if self.has_rows and self.chance(97) else self.spelled_path(self.any_path())
        return tokens + (["as", self.one_of(NAMES)] if self.chance(35) else [])

    def included(self) -> Tokens:
        if self.has_rows and self.chance(70):
            return self.spelled_path(self.own_path())
        return self.spelled_path(self.any_path() if self.chance(50) else self.one_of([("Ref",), ("Ref",), ("N", "B")]))

    def tail(self, is_of_index: bool, selected: int) -> Tokens:
        """The clauses behind the source; so many in a hundred queries select columns."""
        tokens = []
        if not is_of_index and self.chance(8):
            tokens += ["group", "by", *self.listed(lambda: self.spelled_path(self.any_path()), [1, 2])]
        if is_of_index and self.chance(70) or self.chance(6):
            tokens += ["where", *self.where()]
        if is_of_index and self.chance(55) or self.chance(6):
            tokens += ["order", "by", *self.listed(self.sort, [1, 1, 2, 3])]
        if self.chance(selected):
            tokens += ["select", *self.listed(self.column, [1, 1, 2, 3, 4])]
        if self.chance(35):
            tokens += ["include", *self.listed(self.included, [1, 1, 2])]
        return tokens

    # whole queries

    def replaced(self, tokens) -> Tokens:
        """The tokens with some change at one place."""
        at = self.random.randrange(len(tokens))
        other = self.random.randrange(len(tokens))
        ways = [tokens[:at] + tokens[at + 1 :], tokens[: at + 1] + tokens[at:], tokens[:at], tokens[:at] + tokens[other:]]
        ways += [tokens[:at] + [self.one_of(STRANGE)] + tokens[at + more :] for more in (0, 1, 1)]
        return self.one_of(ways) or ["from"]

    def joined(self, tokens) -> str:
        """The tokens, key words in any case of letters, with blanks where they have to be, and by chance elsewhere."""
        text = self.one_of(BLANKS) if self.chance(4) else ""
        for token in tokens:
            if token.lower() in KEY_WORDS or token in ("startsWith", "exists", "count", "sum", "long", "desc", "asc"):
                token = self.one_of([token] * 6 + [token.upper(), token.capitalize()])
            must = (text[-1:].isalnum() or text[-1:] == "_") and (token[:1].isalnum() or token[:1] in "_-.")
            text += (self.one_of(BLANKS) if must and token[:1] != "." or self.chance(55) else "") + token
        return text + (self.one_of(BLANKS) if self.chance(4) else "")

    def text(self, source: Tokens, tail: Tokens, broken: int = 12) -> str:
        """The text of a query; so many in a hundred have something wrong."""
        tokens = ["from", *source, *tail]
        if self.chance(broken):
            for _ in range(self.one_of([1, 1, 1, 2])):
                tokens = self.replaced(tokens)
        return self.joined(tokens)

    def of_index(self, index: model.Index, name: str, broken: int = 12, others: collections.abc.Sequence[model.Index] = ()) -> str:
        self.about(index, others)
        selected = 35 if self.has_rows else 60
        return self.text(["index", self.quoted(name)], self.tail(True, selected), broken)

    def of_documents(self, name: str, groups: collections.abc.Iterable[Path], broken: int = 6) -> str:
        """Of some documents of a collection, or of groups of them. `about` has been told what they have."""
        paths = [token for path in groups for token in (",", *self.spelled_path(path))]
        grouped = ["group", "by", *paths[1:]] if paths else []
        return self.text([self.spelled_part(name)], [*grouped, *self.tail(True, 40)], broken)

    def of_collection(self, name: str, broken: int = 12) -> str:
        self.fields, self.rows, self.has_rows = [], [], False
        return self.text([self.spelled_part(name)], self.tail(False, 60), broken)
