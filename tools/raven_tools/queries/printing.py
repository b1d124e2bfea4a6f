"""The canonical text of a query."""

import collections.abc
import re

from raven_tools.queries import trees
from raven_tools.queries.tokens import KEY_WORDS

NAME = re.compile(r"[A-Za-z_][A-Za-z0-9_]*")


def quoted(text: str) -> str:
    return "'" + text.replace("\\", "\\\\").replace("'", "\\'") + "'"


def part(text: str) -> str:
    """As a name, if it is one."""
    is_name = NAME.fullmatch(text) and text.lower() not in KEY_WORDS
    return text if is_name else quoted(text)


def path(parts: trees.Path) -> str:
    return ".".join(map(part, parts))


def field(tree: trees.Field) -> str:
    kind, *parts = tree
    return {"count": "count()", "sum": f"sum({path(*parts or [()])})"}.get(kind) or path(*parts)


def value(tree: trees.Value) -> str:
    kind, *parts = tree
    if kind == "text":
        return quoted(*parts)
    if kind == "parameter":
        return "$" + parts[0]
    return str(parts[0]) if parts else kind


def operand(tree: trees.Condition) -> str:
    return f"({condition(tree)})" if tree[0] in ("or", "and", "not") else condition(tree)


def condition(tree: trees.Condition) -> str:
    kind, *parts = tree
    if kind in ("or", "and"):
        return f" {kind} ".join(map(operand, parts))
    if kind == "not":
        return "not " + operand(*parts)
    if kind == "exact":
        return f"exact({condition(*parts)})"
    if kind == "startsWith":
        return f"startsWith({field(parts[0])}, {value(parts[1])})"
    if kind == "exists":
        return f"exists({field(*parts)})"
    if kind == "compare":
        return f"{field(parts[0])} {parts[1]} {value(parts[2])}"
    if kind == "between":
        return f"{field(parts[0])} between {value(parts[1])} and {value(parts[2])}"
    if kind == "in":
        return f"{field(parts[0])} in ({', '.join(map(value, parts[1]))})"
    return "true"


def sort(key: trees.Sort) -> str:
    return field(key.field) + " as long" * key.is_long + " desc" * key.is_down


def column(shown: tuple[trees.Field, str | None]) -> str:
    of, name = shown
    return field(of) + (f" as {name}" if name else "")


def clause(words: str, texts: collections.abc.Iterable[str]) -> str:
    listed = ", ".join(texts)
    return f" {words} {listed}" if listed else ""


def printed(query: trees.Query) -> str:
    kind, name = query.origin
    text = "from " + (f"index {quoted(name)}" if kind == "index" else part(name))
    text += clause("group by", map(path, query.groups))
    text += clause("where", [condition(query.condition)] if query.condition else [])
    text += clause("order by", map(sort, query.sorts)) + clause("select", map(column, query.columns))
    return text + clause("include", map(path, query.includes))
