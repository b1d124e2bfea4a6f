"""What a reduce gives of entries: one row for each group of equal keys."""

from raven_tools.language.reduces import Reduce
from raven_tools.scalars import Scalar, is_number, place_of

Entry = dict[str, Scalar]


def key_of(reduce: Reduce, entry: Entry) -> tuple:
    """What the key of an entry is told by. Rows are in the order of this."""
    return tuple(place_of(entry[part]) for part in reduce.key)


def folded_values(kind: str, values: list[Scalar]) -> Scalar:
    if kind == "Sum":
        return sum(filter(is_number, values))
    present = [value for value in values if value is not None]
    return (min if kind == "Min" else max)(present, key=place_of, default=None)


def quotient(left: int, right: int) -> int | None:
    """Cut towards zero; null if the second is 0."""
    if right == 0:
        return None
    size = abs(left) // abs(right)
    return size if (left < 0) == (right < 0) else -size


def value_of(value: tuple, name: str, group: list[Entry]) -> Scalar:
    kind, *parts = value
    if kind == "quotient":
        _, field, _, by = parts
        return quotient(*(folded_values("Sum", [entry[summed] for entry in group]) for summed in (field, by)))
    values = [entry[name] for entry in group]
    return values[0] if kind == "key" else folded_values(parts[0], values)


def row_of(reduce: Reduce, group: list[Entry]) -> Entry:
    return {name: value_of(value, name, group) for name, value in reduce.members}


def rows_of(reduce: Reduce, entries: list[Entry]) -> list[Entry]:
    groups: dict[tuple, list[Entry]] = {}
    for entry in entries:
        groups.setdefault(key_of(reduce, entry), []).append(entry)
    return [row_of(reduce, groups[key]) for key in sorted(groups)]
