"""Which values meet a condition."""

import collections.abc

from raven_tools.queries import trees
from raven_tools.scalars import Scalar, is_number, place_of
from raven_tools.texts import folded

# The value of a field, by the path that rows have for it.
Values = collections.abc.Callable[[trees.Path], Scalar]
CONSTANTS = {"true": True, "false": False, "null": None}


class Meeting:
    """Tests conditions of one row, with these values of its fields and of the parameters."""

    def __init__(self, fields: Values, parameters: dict):
        self.fields = fields
        self.parameters = parameters

    def of_field(self, field: trees.Field) -> Scalar:
        return self.fields(trees.path_of(field))

    def scalar(self, value: trees.Value) -> Scalar:
        kind, *parts = value
        if kind == "parameter":
            return self.parameters[parts[0]]
        return parts[0] if parts else CONSTANTS[kind]

    def listed(self, values: list[trees.Value]) -> list[Scalar]:
        """A parameter may be a list here, and stands for its items."""
        found = []
        for value in map(self.scalar, values):
            found += value if isinstance(value, list) else [value]
        return found

    def meets(self, condition: trees.Condition, is_exact: bool = False) -> bool:
        kind, *parts = condition
        inner = [self.meets(part, is_exact or kind == "exact") for part in trees.parts_of(condition)]
        if inner:
            return {"or": any, "and": all, "exact": all, "not": lambda held: not held[0]}[kind](inner)
        return kind == "true" or self.holds(kind, self.of_field(parts[0]), parts[1:], is_exact)

    def holds(self, kind: str, value: Scalar, parts: list, is_exact: bool) -> bool:
        """A test of one field."""
        if kind == "exists":
            return value is not None
        if kind == "in":
            return any(is_equal(value, item, is_exact) for item in self.listed(parts[0]))
        if kind == "between":
            low, high = map(self.scalar, parts)
            return compares(">=", value, low, is_exact) and compares("<=", value, high, is_exact)
        if kind == "startsWith":
            return isinstance(value, str) and spelled(value, is_exact).startswith(spelled(self.scalar(parts[0]), is_exact))
        sign, operand = parts[0], self.scalar(parts[1])
        if sign in ("=", "!="):
            return is_equal(value, operand, is_exact) == (sign == "=")
        return compares(sign, value, operand, is_exact)


def spelled(text: str, is_exact: bool) -> str:
    return text if is_exact else folded(text)


def is_equal(left: Scalar, right: Scalar, is_exact: bool) -> bool:
    """Whether they are the same value; texts are compared folded if they are not compared exactly."""
    if isinstance(left, str) and isinstance(right, str):
        return spelled(left, is_exact) == spelled(right, is_exact)
    return place_of(left) == place_of(right)


def compares(sign: str, left: Scalar, right: Scalar, is_exact: bool) -> bool:
    """Only two numbers, or two texts, are ordered. The order of characters is that of their bytes."""
    if isinstance(left, str) and isinstance(right, str):
        left, right = spelled(left, is_exact), spelled(right, is_exact)
    elif not (is_number(left) and is_number(right)):
        return False
    return {"<": left < right, "<=": left <= right, ">": left > right, ">=": left >= right}[sign]
