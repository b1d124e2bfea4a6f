"""What refuses a query that is read: its parameters, its fields and its page. What stands first in the text counts."""

import collections.abc

from raven_tools.queries import printing, trees
from raven_tools.scalars import is_scalar

MOST_ROWS = 2_147_483_647


class Unbound(Exception):
    """A query that is refused with this error, for the parameter or field of this name if there is one."""

    def __init__(self, error: str, name: str | None = None):
        super().__init__(error)
        self.error = error
        self.name = name


def is_dynamic(query: trees.Query) -> bool:
    """Whether it asks for some of the documents of a collection, so that an index has to be found for it."""
    return query.origin[0] == "collection" and bool(query.groups or query.condition or query.sorts)


def tests_of(condition: trees.Condition | None) -> list[trees.Condition]:
    """The tests of single fields, in the order of the text."""
    if condition is None or condition[0] == "true":
        return []
    inner = trees.parts_of(condition)
    return [test for part in inner for test in tests_of(part)] if inner else [condition]


# Parameters


def values_of(test: trees.Condition) -> list[trees.Value]:
    kind, _, *parts = test
    if kind == "in":
        return parts[0]
    return [part for part in parts if isinstance(part, tuple)]


def is_list(value: object) -> bool:
    return isinstance(value, list) and all(map(is_scalar, value))


def check_value(kind: str, value: trees.Value, parameters: dict) -> None:
    """A value of a test of this kind."""
    if value[0] == "parameter":
        name = value[1]
        has_value = name in parameters and (is_scalar(parameters[name]) or kind == "in" and is_list(parameters[name]))
        if not has_value:
            raise Unbound("NoParameter", name)
    is_text = value[0] == "text" or value[0] == "parameter" and isinstance(parameters[value[1]], str)
    if kind == "startsWith" and not is_text:
        raise Unbound("NoParameter", "startsWith")


# Fields


def named(query: trees.Query) -> collections.abc.Iterator[tuple[str, trees.Field]]:
    """The fields of `where`, `order` and `select`, each with its clause, in the order of the text."""
    for test in tests_of(query.condition):
        yield "where", test[1]
    for sort in query.sorts:
        yield "order", sort.field
    for field, _ in query.columns:
        yield "select", field


def check_groups(query: trees.Query) -> None:
    """Of a query of a collection: what is grouped has its group paths, and counts and sums; what is not has neither of these."""
    if query.origin[0] == "index":
        return
    for _, field in named(query):
        is_path = field[0] == "path"
        if is_path and query.groups and field[1] not in query.groups or not is_path and not query.groups:
            raise Unbound("NotGrouped", printing.field(field))


# The two kinds of refusal


def check(query: trees.Query, parameters: dict, start: int, size: int | None) -> None:
    """What is refused whatever indexes there are."""
    for test in tests_of(query.condition):
        for value in values_of(test):
            check_value(test[0], value, parameters)
    check_groups(query)
    if not all(0 <= number <= MOST_ROWS for number in (start, size or 0)):
        raise Unbound("BadPage")


def check_fields(query: trees.Query, fields: collections.abc.Container[str], has_rows: bool) -> None:
    """Of a query of an index with these fields, which has rows of its own if it has a reduce. Else any path may be selected."""
    for clause, field in named(query):
        is_free = clause == "select" and field[0] == "path" and not has_rows
        if not is_free and trees.joined(trees.path_of(field)) not in fields:
            raise Unbound("NoField", printing.field(field))
