"""PUT, BULK and GET in memory, beside SQLite in memory, and how a PUT grows with the store."""

import collections.abc

from figures import documents
from figures.stores import InMemory, checked_lines
from harness import Bench
from report import Aim, Figure, Line, duration, ratio

DOCUMENTS, FEW, MANY = 16_000, 1_000, 64_000
PUT = Line("`PUT`s a second, among 16,000 documents in memory", "SQLite in memory, a transaction each")
BULK = Line("`BULK`s of 100 a second, among 16,000 documents in memory", "SQLite in memory, transactions of 100")
BULK_OF_PUT = Line("Documents a second by `BULK`s of 100, among 16,000 in memory", "by `PUT`s", Aim("at least", 1.3))
GROWTH = Line("Time of a `PUT` among 64,000 documents in memory", "among 1,000", Aim("at most", 2))
GET = Line("`GET`s a second, among 16,000 documents in memory", "SQLite in memory, by its key")
LINES = (PUT, BULK, BULK_OF_PUT, GROWTH, GET)


def measure(bench: Bench) -> collections.abc.Iterator[Figure]:
    bench.check(checked_lines())
    store = InMemory(bench, DOCUMENTS)
    put = store.each(documents.put_lines, 4_000)
    yield Figure(PUT, ratio(store.each_of_sqlite(documents.put_lines, 20_000), put), duration(put))
    bulk = store.each(documents.bulk_lines, 40)
    yield Figure(BULK, ratio(store.each_of_sqlite(documents.bulk_lines, 200), bulk), duration(bulk))
    of_bulk = bulk / min(documents.BULK, store.documents)
    yield Figure(BULK_OF_PUT, ratio(put, of_bulk), f"{duration(of_bulk)} a document")
    few, many = (InMemory(bench, count).each(documents.put_lines, 4_000) for count in (FEW, MANY))
    yield Figure(GROWTH, ratio(many, few), duration(many))
    get = store.each(documents.get_lines, 50_000)
    yield Figure(GET, ratio(store.each_of_sqlite(documents.get_lines, 50_000), get), duration(get))
