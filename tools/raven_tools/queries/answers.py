"""The order and the page of rows, and what is shown of each."""

import collections.abc
import typing

from raven_tools.queries import trees
from raven_tools.queries.conditions import Meeting, Values
from raven_tools.scalars import Scalar, is_number
from raven_tools.texts import folded

Row = typing.TypeVar("Row")


def text_form(value: Scalar) -> tuple:
    """Null comes first, and all else is ordered as a text."""
    if value is None:
        return (False, "")
    if isinstance(value, bool):
        return (True, "true" if value else "false")
    return (True, folded(str(value)))


def long_form(value: Scalar) -> tuple:
    """What is no number comes first, whatever it is."""
    return (True, value) if is_number(value) else (False, 0)


def found(
    query: trees.Query, rows: list[Row], values_of: collections.abc.Callable[[Row], Values], parameters: dict
) -> list[Row]:
    """The rows that meet the condition, in their order. Those that tie stay in the order in which they were given."""
    if query.condition:
        rows = [row for row in rows if Meeting(values_of(row), parameters).meets(query.condition)]
    for sort in reversed(query.sorts):
        form = long_form if sort.is_long else text_form
        rows = sorted(rows, key=lambda row: form(values_of(row)(trees.path_of(sort.field))), reverse=sort.is_down)
    return rows


def page(rows: list[Row], start: int, size: int | None) -> list[Row]:
    return rows[start:] if size is None else rows[start : start + size]


def name_of(field: trees.Field) -> str:
    """The column of a field that is given no name."""
    return "Count" if field[0] == "count" else trees.joined(field[1])


def columns_of(query: trees.Query) -> list[tuple[trees.Field, str | None]]:
    """What a query shows of each row. One that groups and selects nothing shows its groups and their counts."""
    if query.columns or not query.groups:
        return query.columns
    return [*((("path", path), None) for path in query.groups), (("count",), None)]


def selected(query: trees.Query, values: collections.abc.Callable[[trees.Path], object]) -> dict:
    """The columns, with what is there. Of columns with one name the last counts."""
    return {name or name_of(field): values(trees.path_of(field)) for field, name in columns_of(query)}


def at_path(value: object, path: trees.Path) -> object:
    """What the path leads to in a document, or None."""
    for part in path:
        value = value.get(part) if isinstance(value, dict) else None
    return value
