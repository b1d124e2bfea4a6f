"""Compares what clients were answered with the history of the writes that were acknowledged."""

import collections.abc
import itertools
import time

from raven_tools.serving.history import History, Version, etag_of
from raven_tools.serving.load import GROUPS, QUIET, THINGS, Definer, Log, Question, plain
from raven_tools.servers import PATIENCE, Answer, Client

Row = tuple[str, list[Version | None]]
Says = collections.abc.Iterator[str]
SCOPES = {
    "All": (THINGS,),
    "Joined": (THINGS, GROUPS),
    "Sums": (THINGS,),
    "Quiet": (QUIET,),
    "Auto/Quiet/ByN": (QUIET,),
    "Auto/Quiet/ByNAndOwn": (QUIET,),
}


def is_document(version: Version | None) -> bool:
    return version is not None and version.body is not None


def is_tombstone(version: Version | None) -> bool:
    return version is not None and version.body is None


# Rows that an answer has to show


def shown_whole(version: Version) -> dict:
    return {"body": version.body, "etag": version.low}


def found_whole(result: dict) -> dict:
    body, etag = plain(result)
    return {"body": body, "etag": etag}


def shown_columns(version: Version) -> dict:
    return {name: version.body[name] for name in ("Own", "N")}


def possible_rows(rows: list[Row], holds: collections.abc.Callable[[Version], bool], shown) -> list[list[dict | None]]:
    """Of each document what may be shown of it, or nothing. What is surely nothing is left out."""
    found = [[shown(v) if is_document(v) and holds(v) else None for v in possible] for _, possible in rows]
    return [each for each in found if any(row is not None for row in each)]


def differs(expected: list[list[dict | None]], found: list[dict]) -> str | None:
    """How the rows that were found differ from those that are possible, which come in this order."""
    left = list(found)
    for possible in expected:
        if left and left[0] in possible:
            left.pop(0)
        elif None not in possible:
            return f"there should be {str(possible)[:300]}, but the next row is {str(left[:1])[:300]}"
    return f"there should be no {str(left[0])[:300]}" if left else None


class Judge:
    """What is wrong of each question, if anything."""

    def __init__(self, history: History):
        self.history = history
        self.fresh = 0
        self.stale = 0
        self.unsure = 0
        self.cleaned = 0  # the ids that are deleted at the end, and whose tombstones are gone

    # what is read

    def get(self, question: Question) -> Says:
        """A document that was there at some moment between request and response."""
        name, answer = question.value, question.answer
        versions = self.history.ids[name].all if name in self.history.ids else []
        before = [version for version in versions if version.ended < answer.began]
        least = max((version.low for version in before), default=0)
        can_be = [version for version in versions if version.began < answer.ended and version.high >= least]
        if answer.status == 404:
            if before and not any(version.body is None for version in can_be):
                yield f"{name} was not found, though it was written with etag {least} and not deleted"
            return
        body, etag = plain(answer.reply["Results"][0])
        if not any(version.body == body and version.low == etag for version in can_be):
            yield f"{name} was read with etag {etag}; acknowledged before was {least}, and this was not written so: {str(body)[:200]}"

    def stats(self, question: Question) -> Says:
        last = question.answer.reply["LastDocEtag"]
        if last < self.history.acknowledged(question.answer.began):
            yield f"the last etag is said to be {last}, after {self.history.acknowledged(question.answer.began)} was acknowledged"
        for first, end in self.history.transactions:
            if first <= last < end:
                yield f"the last etag was {last}, within a transaction from {first} to {end}"
        least = greatest = most = 0
        for versions in self.history.ids.values():
            possible = versions.at(last)
            is_there = [is_document(version) for version in possible]
            least, greatest, most = least + all(is_there), greatest + any(is_there), most + any(map(is_tombstone, possible))
        if not least <= question.answer.reply["CountOfDocuments"] <= greatest:
            yield f"{question.answer.reply} with last etag {last}, though there were {least} to {greatest} documents"
        if question.answer.reply["CountOfTombstones"] > most:
            yield f"{question.answer.reply} with last etag {last}, though there were at most {most} tombstones"

    def tombstones(self, listed: list[dict], client: Client) -> Says:
        """Those go that all indexes have read, but for the row with the last etag; and no others."""
        upto = min([index["Etag"] for index in listed if index["Etag"]] + [self.history.last - 1])
        deleted = [versions.all[-1] for versions in self.history.ids.values() if is_tombstone(versions.all[-1])]
        least, greatest = sum(version.low > upto for version in deleted), sum(version.high > upto for version in deleted)
        until = time.monotonic() + PATIENCE
        while not least <= (left := client.stats()["CountOfTombstones"]) <= greatest and time.monotonic() < until:
            time.sleep(0.03)
        self.cleaned = len(deleted) - left
        if not least <= left <= greatest:
            yield f"{left} tombstones of {len(deleted)} are left at the end, in place of the {least} to {greatest} past {upto}"

    # the flag

    def scope(self, name: str) -> list[Version]:
        return [version for version in self.history.writes if version.collection in SCOPES[name]]

    def flag(self, question: Question, name: str) -> Says:
        """It is stale exactly if there was a row in its scope past its etag, up to the cutoff."""
        answer, cutoff = question.answer, question.cutoff
        etag, is_stale = answer.reply["IndexEtag"], answer.reply["IsStale"]
        scope = self.scope(name)
        if is_stale:
            self.stale += 1
            most = self.history.last if cutoff is None else cutoff
            if not any(version.high > etag and version.low <= most and version.began < answer.ended for version in scope):
                yield f"{name} is said to be stale at etag {etag} up to {most}, but nothing was written past it"
            return
        if cutoff is None:
            before = (v for v in scope if v.ended < answer.began and v.low > etag)
            missed = max((v.low for v in before if etag or not self.may_be_cleaned(v, answer)), default=None)
            if missed:
                yield f"{name} is said to be fresh at etag {etag}, though {missed} was acknowledged before the question"

    def may_be_cleaned(self, version: Version, answer: Answer) -> bool:
        """Whether nothing may be left of a write: its id was deleted then or later. It is missed by no index that has read nothing."""
        later = (other for other in self.history.ids[version.name].all if other.low >= version.low)
        return any(is_tombstone(other) and other.began < answer.ended for other in later)

    def staleness(self, question: Question) -> Says:
        yield from self.flag(question, question.value)
        reply = question.answer.reply
        if reply["IsStale"] != (reply["Newest"] > reply["IndexEtag"]):
            yield f"the staleness of {question.value}: {reply}"

    # answers

    def answered(self, question: Question) -> Says:
        """The flag; and if it is fresh, each row."""
        reply = question.answer.reply
        name = reply["IndexName"]
        if name == "collection/Quiet":
            self.fresh += 1
            if reply["IsStale"]:
                yield "a whole collection is said to be stale"
        else:
            yield from self.flag(question, name)
        if reply["IsStale"] or question.cutoff is not None:
            return
        self.fresh += name != "collection/Quiet"
        if question.kind == "sums":
            yield from self.sums(question)
        else:
            yield from self.rows(question)

    def rows(self, question: Question) -> Says:
        reply, value = question.answer.reply, question.value
        etag = reply["IndexEtag"]
        rows = self.history.holds(THINGS if question.kind in ("all", "some", "joined") else QUIET, etag)
        holds = self.condition(question, etag)
        if holds is None:
            self.unsure += 1
            return
        shown = shown_whole if question.kind == "all" else shown_columns
        found = list(map(found_whole, reply["Results"])) if question.kind == "all" else reply["Results"]
        difference = differs(possible_rows(rows, holds, shown), found)
        if difference:
            yield f"{reply['IndexName']} is fresh at etag {etag}, asked for {question.kind} {value}: {difference}"
        if reply["TotalResults"] != len(found):
            yield f"{reply['IndexName']}: {reply['TotalResults']} results in all, but {len(found)} are shown"

    def condition(self, question: Question, etag: int) -> collections.abc.Callable[[Version], bool] | None:
        """Whether a document meets the condition of the query; None if the loaded documents are not known."""
        if question.kind in ("all", "whole"):
            return lambda version: True
        if question.kind != "joined":
            return lambda version: version.body["N"] >= question.value
        titles = {}
        for name, possible in self.history.holds(GROUPS, etag):
            if len(possible) > 1:
                return None
            titles[name] = possible[0].body["Title"]
        return lambda version: titles.get(version.body["G"]) == question.value

    def sums(self, question: Question) -> Says:
        etag = question.answer.reply["IndexEtag"]
        rows = self.history.holds(THINGS, etag)
        if any(len(possible) > 1 for _, possible in rows):
            self.unsure += 1
            return
        numbers: dict[str, list[int]] = {}
        for _, (version,) in rows:
            numbers.setdefault(version.body["Kind"], []).append(version.body["N"])
        expected = [
            {"High": max(of), "Kind": kind, "Low": min(of), "Total": sum(of)} for kind, of in sorted(numbers.items())
        ]
        if question.answer.reply["Results"] != expected:
            yield f"Sums is fresh at etag {etag}, with {question.answer.reply['Results']} in place of {expected}"


# All that was written


def etags_are_right(history: History) -> Says:
    """They differ, and each is past all that were acknowledged before its write was sent."""
    known = sorted((version for version in history.writes if version.is_known), key=lambda version: version.low)
    for one, other in itertools.pairwise(known):
        if one.low == other.low:
            yield f"etag {one.low} was given to {one.name} and to {other.name}"
    for version in known:
        before = history.acknowledged(version.began)
        if version.low <= before:
            yield f"{version.name} was given etag {version.low}, after {before} was acknowledged"


def counts_are_right(history: History, own: int, last: int) -> Says:
    """Each etag was taken by a write that was acknowledged, or by a definition."""
    known = {version.low for version in history.writes if version.is_known}
    unknown = [version for version in history.writes if not version.is_known]
    if len(known) + len(unknown) + own != last:
        yield f"the last etag is {last}, but {len(known) + len(unknown)} writes and {own} definitions took one"
    for version in unknown:
        if all(etag in known for etag in range(version.low, version.high + 1)):
            yield f"no etag is left for the deletion of {version.name}, from {version.low} to {version.high}"


def shared_are_right(log: Log) -> Says:
    """No raise of a counter is lost, and of those that create a document one alone does."""
    for name, raised in log.counted.items():
        values = [value for _, value in sorted(raised)]
        if values != list(range(1, len(values) + 1)):
            yield f"{name} was raised to {values}, in order of etags"
    for name, times in log.created.items():
        if times != 1:
            yield f"{name} was created {times} times, on condition that there is none"


def documents_are_right(history: History, client: Client) -> Says:
    """Each id has what was written last, or nothing after a deletion. Moments are in the order of etags."""
    moments: list[tuple[int, str]] = []
    for name, versions in history.ids.items():
        last = versions.all[-1]
        answer = client.get(name)
        found = plain(answer.reply["Results"][0]) if answer.status == 200 else None
        expected = (last.body, last.low) if last.body is not None else None
        if answer.status not in (200, 404) or found != expected:
            yield f"{name} is {str(found)[:200]} at the end, status {answer.status}, in place of {str(expected)[:200]}"
        if found:
            moments.append((found[1], answer.reply["Results"][0]["@metadata"]["@last-modified"]))
    for (etag, moment), (following, later) in itertools.pairwise(sorted(moments)):
        if moment > later:
            yield f"etag {etag} was written at {moment}, and {following} at {later}"


def indexes_are_right(listed: list[dict]) -> Says:
    names = [index["Name"] for index in listed]
    expected = ["All", "Auto/Quiet/ByNAndOwn", "Joined", "Quiet", "Sums"]
    if sorted(names) != expected:
        yield f"the indexes are {names} at the end, in place of {expected}"
    yield from (f"{index['Name']} has {index['Errors']} errors" for index in listed if index["Errors"])


def judged(log: Log, definer: Definer, listed: list[dict], client: Client) -> tuple[list[str], Judge]:
    """What is wrong, and what was judged."""
    history = log.history
    last = client.stats()["LastDocEtag"]
    history.end(last)
    judge = Judge(history)
    wrong = [*log.wrong, *etags_are_right(history), *counts_are_right(history, definer.own, last), *shared_are_right(log)]
    wrong += [*indexes_are_right(listed), *documents_are_right(history, client), *judge.tombstones(listed, client)]
    kinds = {"get": judge.get, "stats": judge.stats, "staleness": judge.staleness}
    for question in log.questions:
        wrong += kinds.get(question.kind, judge.answered)(question)
    return wrong, judge
