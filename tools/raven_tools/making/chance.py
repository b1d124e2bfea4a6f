"""Draws by chance."""

import collections.abc
import random
import typing

T = typing.TypeVar("T")


class Chance:
    """Draws from one source, so that all it makes depends on the seed alone."""

    def __init__(self, source: random.Random):
        self.random = source

    def one_of(self, choices: collections.abc.Sequence[T]) -> T:
        return self.random.choice(choices)

    def chance(self, percent: float) -> bool:
        return self.random.random() * 100 < percent
