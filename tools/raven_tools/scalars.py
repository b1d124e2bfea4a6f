"""Scalars: null, flags, whole numbers of any size and texts. Which are equal, and their order."""

import typing

from raven_tools.texts import folded

Scalar: typing.TypeAlias = None | bool | int | str


def is_number(value: object) -> bool:
    return isinstance(value, int) and not isinstance(value, bool)


def is_scalar(value: object) -> bool:
    return not isinstance(value, (list, dict))


def place_of(value: Scalar) -> tuple:
    """Scalars are in the order of this: null, false, true, numbers by size, texts by their folded form and then by their bytes."""
    if value is None:
        return (0,)
    if isinstance(value, bool):
        return (1, value)
    return (2, value) if is_number(value) else (3, folded(value), value)
