"""The writes that were acknowledged, and what they leave up to each etag.

An etag is known of every write but one that deletes by `DELETE`, whose response has none: of that there are bounds.
"""

import bisect
import collections
import dataclasses
import itertools
import re
import threading

from raven_tools.texts import folded

VECTOR = re.compile(r"A:([0-9]+)-[A-Za-z0-9]{22}")
Body = dict[str, object]


def etag_of(vector: str) -> int:
    found = VECTOR.fullmatch(vector)
    if not found:
        raise ValueError(f"no change vector: {vector!r}")
    return int(found[1])


@dataclasses.dataclass
class Version:
    """What a write left of an id, without the metadata that the server writes itself; no body is left by a deletion."""

    name: str
    collection: str
    body: Body | None
    low: int  # the least etag that it may have
    high: int  # and the greatest
    began: float  # when it was sent
    ended: float  # and acknowledged

    @property
    def is_known(self) -> bool:
        return self.low == self.high


class Versions:
    """Those of one id, in order."""

    def __init__(self, versions: list[Version]):
        self.all = versions
        self.lows = [version.low for version in versions]

    def at(self, etag: int) -> list[Version | None]:
        """Which of them may be the last one up to this etag; None if there may be none."""
        place = bisect.bisect_right(self.lows, etag)
        possible = [self.all[place - 1] if place else None]
        if place and self.all[place - 1].high > etag:
            possible.append(self.all[place - 2] if place > 1 else None)
        return possible


class History:
    """Several threads add to it. Nothing is asked of it before they have ended."""

    def __init__(self) -> None:
        self.lock = threading.Lock()
        self.writes: list[Version] = []
        self.transactions: list[tuple[int, int]] = []  # the first and the last etag of each that took several

    def add(self, *versions: Version) -> None:
        with self.lock:
            self.writes += versions
            if len(versions) > 1:
                self.transactions.append((versions[0].low, versions[-1].high))

    def end(self, last: int) -> None:
        """No write comes any more, and the last etag is this. The bounds of deletions become what they can be."""
        self.last = last
        self.bound()
        self.ids: dict[str, Versions] = {}
        by_name = collections.defaultdict(list)
        for version in self.writes:
            by_name[version.name].append(version)
        for name, versions in by_name.items():
            versions.sort(key=lambda version: version.low)
            for version, following in zip(versions, [*versions[1:], None]):
                if not version.is_known:
                    version.high = min(version.high, following.low - 1 if following else last)
            self.ids[name] = Versions(versions)
        self.by_collection = collections.defaultdict(list)
        for name in sorted(self.ids, key=lambda name: folded(name).encode()):
            self.by_collection[self.ids[name].all[0].collection].append(name)

    def bound(self) -> None:
        """An etag is past each that was acknowledged before its write was sent, and before each whose write was sent afterwards."""
        known = [version for version in self.writes if version.is_known]
        by_end = sorted(known, key=lambda version: version.ended)
        ends, greatest = [version.ended for version in by_end], list(itertools.accumulate((v.low for v in by_end), max))
        by_begin = sorted(known, key=lambda version: version.began, reverse=True)
        begins, least = [-version.began for version in by_begin], list(itertools.accumulate((v.low for v in by_begin), min))
        self.ends, self.greatest = ends, greatest
        for version in self.writes:
            if not version.is_known:
                after = bisect.bisect_left(begins, -version.ended)
                version.low = max(version.low, self.acknowledged(version.began) + 1)
                version.high = min(version.high, least[after - 1] - 1) if after else version.high

    def acknowledged(self, moment: float) -> int:
        """The greatest etag that was acknowledged before."""
        place = bisect.bisect_left(self.ends, moment)
        return self.greatest[place - 1] if place else 0

    def holds(self, collection: str, etag: int) -> list[tuple[str, list[Version | None]]]:
        """The ids of a collection in order, each with what may stand there up to this etag. Ids without a document are left out."""
        found = [(name, self.ids[name].at(etag)) for name in self.by_collection[collection]]
        return [(name, possible) for name, possible in found if any(version and version.body is not None for version in possible)]
