"""What a map gives of a document."""

import collections.abc
import typing

from raven_tools.language import dates
from raven_tools.language.maps import Map
from raven_tools.language.tokens import GREATEST, LEAST, LEVELS
from raven_tools.scalars import is_number

# The body of a document of a collection, by its id, or None.
Load: typing.TypeAlias = collections.abc.Callable[[str, str], dict | None]


class Failed(Exception):
    """The document has no entry, and counts as failed."""


def whole(number: int) -> int:
    if not LEAST <= number <= GREATEST:
        raise Failed
    return number


def same(left: object, right: object) -> bool:
    """Whether they are the same value: a flag is no number, and lists and objects are compared through."""
    if isinstance(left, dict) and isinstance(right, dict):
        return left.keys() == right.keys() and all(same(left[name], right[name]) for name in left)
    if isinstance(left, list) and isinstance(right, list):
        return len(left) == len(right) and all(map(same, left, right))
    return type(left) is type(right) and left == right


def is_ordered(mark: str, left: object, right: object) -> bool:
    """Comparisons are of two numbers, or of two texts by their bytes, which is by their characters."""
    if not (is_number(left) and is_number(right) or isinstance(left, str) and isinstance(right, str)):
        return False
    if mark in ("<", "<="):
        return left < right or mark == "<=" and left == right
    return left > right or mark == ">=" and left == right


def quotient(left: int, right: int) -> int:
    """Cut towards zero."""
    if right == 0:
        raise Failed
    size = abs(left) // abs(right)
    return size if (left < 0) == (right < 0) else -size


def computed(mark, left, right):
    if mark == "+" and isinstance(left, str) and isinstance(right, str):
        return left + right
    if not (is_number(left) and is_number(right)):
        return None
    if mark == "%":
        return whole(left - right * quotient(left, right))
    if mark == "/":
        return whole(quotient(left, right))
    return whole({"+": left + right, "-": left - right, "*": left * right}[mark])


def member_of(value, name):
    if isinstance(value, dict):
        return value.get(name)
    if isinstance(value, str) and name in ("Year", "Month", "Day"):
        date = dates.date_of(value)
        return date and date[("Year", "Month", "Day").index(name)]
    return None


class Meaning:
    """What expressions come to. `names` has the values so far; `load` gives the body of a document."""

    def __init__(self, names: dict[str, object], load: Load):
        self.names = names
        self.load = load

    def value(self, tree):
        kind, *parts = tree
        if kind in ("number", "text", "flag"):
            return parts[0]
        if kind == "null":
            return None
        if kind == "var":
            return self.names[parts[0]]
        if kind == "dot":
            return member_of(self.value(parts[0]), parts[1])
        if kind == "if":
            return self.value(parts[1] if self.is_true(parts[0]) else parts[2])
        if kind == "unary":
            return self.unary(*parts)
        return self.binary(*parts) if kind == "binary" else self.loaded(*parts)

    def is_true(self, tree):
        return self.value(tree) is True

    def unary(self, mark, operand):
        value = self.value(operand)
        if mark == "!":
            return value is not True
        return whole(-value) if is_number(value) else None

    def binary(self, mark, left, right):
        if mark == "&&":
            return self.is_true(left) and self.is_true(right)
        if mark == "||":
            return self.is_true(left) or self.is_true(right)
        left, right = self.value(left), self.value(right)
        if mark in ("==", "!="):
            return same(left, right) == (mark == "==")
        return is_ordered(mark, left, right) if mark in LEVELS[3] else computed(mark, left, right)

    def loaded(self, name, collection):
        name = self.value(name)
        return self.load(name, collection) if isinstance(name, str) else None


def entry_of(tree: Map, body: dict, load: Load) -> dict | None:
    """The entry of a document, or None if a clause leaves it out. It fails by Failed."""
    meaning = Meaning({tree.var: body}, load)
    for word, *var, value in tree.clauses:
        result = meaning.value(value)
        if word == "let":
            meaning.names[var[0]] = result
        elif result is not True:
            return None
    values = {name: meaning.value(value) for name, value in tree.members}
    return {name: None if isinstance(value, (list, dict)) else value for name, value in values.items()}
