"""What a query says, as a tree."""

import collections.abc
import dataclasses

Path = tuple[str, ...]
# ("path", parts), ("count",) or ("sum", parts)
Field = tuple
# ("text", t), ("number", n), ("true",), ("false",), ("null",) or ("parameter", name)
Value = tuple
# ("or", a, b), ("and", a, b), ("not", a), ("exact", a), ("true",), ("startsWith", field, value), ("exists", field),
# ("compare", field, sign, value), ("between", field, value, value) or ("in", field, values)
Condition = tuple


@dataclasses.dataclass
class Sort:
    field: Field
    is_long: bool = False
    is_down: bool = False


@dataclasses.dataclass
class Query:
    origin: tuple[str, str]  # ("index" or "collection", its name)
    groups: list[Path] = dataclasses.field(default_factory=list)
    condition: Condition | None = None
    sorts: list[Sort] = dataclasses.field(default_factory=list)
    columns: list[tuple[Field, str | None]] = dataclasses.field(default_factory=list)
    includes: list[Path] = dataclasses.field(default_factory=list)


def parts_of(condition: Condition) -> list[Condition]:
    """The conditions inside one that is made of others. A chain of one word may be long, so all that it joins are its parts."""
    kind, *parts = condition
    if kind in ("or", "and"):
        while parts[0][0] == kind:
            parts[:1] = parts[0][1:]
    return parts if kind in ("or", "and", "not", "exact") else []


def joined(path: Path) -> str:
    return ".".join(path)


def in_order(paths: collections.abc.Iterable[Path]) -> tuple[Path, ...]:
    """Each path once, by the bytes of its joined form."""
    return tuple(sorted(set(paths), key=lambda path: joined(path).encode()))


def sum_name(path: Path) -> str:
    """The name that rows of groups have for a sum."""
    return f"sum({joined(path)})"


# The name that they have for their count.
COUNT = "count()"


def path_of(field: Field) -> Path:
    """The path by which rows have a field. A count and a sum have a name of one part, which is that of no member."""
    kind, *parts = field
    if kind == "count":
        return (COUNT,)
    return parts[0] if kind == "path" else (sum_name(parts[0]),)
