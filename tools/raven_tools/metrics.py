"""What a server counts, in the text that Prometheus reads."""

import collections.abc
import typing

from raven_tools.model import MAX_ROWS
from raven_tools.remote import Database, Index, NoServer

KIND = "text/plain; version=0.0.4; charset=utf-8"


class Metric(typing.NamedTuple):
    """A gauge: all of these may fall."""

    name: str
    says: str
    values: list[tuple[str, int]]  # each with its labels

    def lines(self) -> collections.abc.Iterator[str]:
        yield f"# HELP raven_{self.name} {self.says}"
        yield f"# TYPE raven_{self.name} gauge"
        yield from (f"raven_{self.name}{labels} {value}" for labels, value in self.values)


def labels(index: Index) -> str:
    """A name may have any characters but control characters."""
    name = index.name.replace("\\", "\\\\").replace('"', '\\"')
    return f'{{index="{name}"}}'


def of_database(stats: dict[str, int]) -> list[Metric]:
    documents, tombstones, indexes = (stats[name] for name in ("CountOfDocuments", "CountOfTombstones", "CountOfIndexes"))
    counts = [
        ("documents", "Documents, without the definitions of indexes.", documents),
        ("tombstones", "What is left of deletions that some index has still to read.", tombstones),
        ("indexes", "Indexes, with those that are built beside others.", indexes),
        ("rows", "Documents, tombstones and definitions.", documents + tombstones + indexes),
        ("rows_limit", "At so many rows a new document is refused by 507 StoreFull.", MAX_ROWS),
        ("last_etag", "The etag that was taken last.", stats["LastDocEtag"]),
    ]
    return [Metric(name, says, [("", value)]) for name, says, value in counts]


def of_indexes(indexes: list[Index]) -> list[Metric]:
    counts: list[tuple[str, str, collections.abc.Callable[[Index], int]]] = [
        ("index_etag", "How far the index has come.", lambda index: index.listed["Etag"]),
        ("index_entries", "Documents that have an entry.", lambda index: index.listed["Entries"]),
        ("index_errors", "Documents for which the map failed.", lambda index: index.listed["Errors"]),
        ("index_stale", "1 if answers of the index may lack documents.", lambda index: int(index.listed["IsStale"])),
        ("index_behind", "Etags between the index and the newest row that it reads.", lambda index: index.behind),
    ]
    return [Metric(name, says, [(labels(index), count(index)) for index in indexes]) for name, says, count in counts]


def text(database: Database) -> tuple[str, bool]:
    """The text, and whether the server answered. Without an answer it says so alone."""
    try:
        metrics = of_database(database.stats()) + of_indexes(database.indexes())
        is_up = True
    except NoServer:
        metrics, is_up = [], False
    up = Metric("up", "1 if the server answered.", [("", int(is_up))])
    return "".join(f"{line}\n" for metric in [up, *metrics] for line in metric.lines()), is_up
