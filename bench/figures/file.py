"""PUT and BULK in a file, beside SQLite in a file that is as safe."""

import collections.abc

from figures import documents
from figures.stores import InFile
from harness import Bench
from report import Aim, Figure, Line, duration, ratio

DOCUMENTS = 1_000
PUT = Line("`PUT`s a second, among 1,000 documents in a file", "SQLite in a file, a transaction each", Aim("at least", 0.8))
BULK = Line("`BULK`s of 100 a second, among 1,000 documents in a file", "SQLite in a file, transactions of 100")
LINES = (PUT, BULK)


def measure(bench: Bench) -> collections.abc.Iterator[Figure]:
    store = InFile(bench, DOCUMENTS)
    for line, lines_of, start in ((PUT, documents.put_lines, 150), (BULK, documents.bulk_lines, 40)):
        each = store.each(lines_of, start)
        yield Figure(line, ratio(store.each_of_sqlite(lines_of, start), each), duration(each))
