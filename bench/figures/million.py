"""A touched document of a reduce whose one group has a million entries: no script has room for them, so a file is filled first."""

import collections.abc

from figures import reduces
from harness import Bench
from report import Figure, duration, ratio

SIZE = 1_000_000
MILLION = reduces.line_of(SIZE)
LINES = (MILLION,)


def measure(bench: Bench) -> collections.abc.Iterator[Figure]:
    reduces.check(bench)
    few = reduces.group(bench, reduces.SIZES[0]).each(bench)
    many = reduces.group(bench, SIZE).each_in_file(bench)
    yield Figure(MILLION, ratio(many, few), duration(many))
