"""Clients that write, read and query at once. Each knows what it wrote, and looks at each answer; what takes all writes is judged later."""

import dataclasses
import random
import threading
import time

from raven_tools.serving.history import Body, History, Version, etag_of
from raven_tools.servers import Answer, Client, Wrong, caught_up

THINGS, GROUPS, QUIET, SHARED = "Things", "Groups", "Quiet", "Shared"
MAPS = {
    "All": ("from t in docs.Things select new { t.Own, t.N, t.Kind }",),
    "Joined": ('from t in docs.Things let g = LoadDocument(t.G, "Groups") select new { t.Own, t.N, g.Title }',),
    "Sums": (
        "from t in docs.Things select new { t.Kind, Total = t.N, Low = t.N, High = t.N }",
        "from r in results group r by r.Kind into g select new { Kind = g.Key, Total = g.Sum(x => x.Total), Low = g.Min(x => x.Low), "
        "High = g.Max(x => x.High) }",
    ),
    "Quiet": ("from q in docs.Quiet select new { q.Own, q.N }",),
}
WIDER = "from t in docs.Things select new { t.Own, t.N, t.Kind, t.G }"
# Two automatic indexes, of which the second takes the place of the first.
NARROW = "from Quiet where N >= $least select Own, N"
WIDE = "from Quiet where N >= $least and Own != 'x' select Own, N"
# The etags that the server takes for the above: a definition takes one, a switch two, a removal or retirement one.
DEFINITIONS = len(MAPS) + 1
REPLACEMENT = 3
REMOVED = 2
AUTOMATIC = 3
KINDS = 5
TITLES = 4
GROUP_COUNT, LOST, COUNTERS, ONCE = 5, 3, 3, 12


@dataclasses.dataclass(frozen=True)
class Question:
    """What was asked, what it needs to be judged, and the answer."""

    kind: str
    answer: Answer
    value: object = None
    cutoff: int | None = None
    by: int = 0  # which client


class Log:
    """What all clients found."""

    def __init__(self) -> None:
        self.history = History()
        self.lock = threading.Lock()
        self.questions: list[Question] = []
        self.wrong: list[str] = []
        self.counted: dict[str, list[tuple[int, int]]] = {}  # of each counter, the etags and values that were written
        self.created: dict[str, int] = {}  # how often each document was created of those that may be created once
        self.requests = 0
        self.longest = 0.0

    def says(self, what: str) -> None:
        with self.lock:
            self.wrong.append(what)


def tagged(collection: str, **members: object) -> Body:
    return {**members, "@metadata": {"@collection": collection}}


def plain(document: Body) -> tuple[Body, int]:
    """A document as it was written, and its etag."""
    metadata = document["@metadata"]
    body = {name: value for name, value in document.items() if name != "@metadata"}
    return tagged(metadata["@collection"], **body), etag_of(metadata["@change-vector"])


class Writer:
    """One client. It alone writes its own documents, so it knows what it has to find there."""

    def __init__(self, number: int, port: int, log: Log, seed: int):
        self.number, self.port, self.log = number, port, log
        self.chance = random.Random(seed * 1_000_003 + number)
        self.names = [f"Things/{number}-{place}" for place in range(4)]
        self.quiet = f"Quiet/{number}"
        self.own: dict[str, Version] = {}
        self.last = 0  # the greatest etag that it knows of
        self.client: Client | None = None

    # a run

    def run(self, requests: int, until: float) -> None:
        """So many requests, over several connections, of which it opens one after the other."""
        left = requests
        try:
            while left > 0 and time.monotonic() < until:
                burst = self.chance.randint(1, 20)
                with Client(self.port) as self.client:
                    for _ in range(min(burst, left)):
                        self.chance.choices(self.WAYS, self.WEIGHTS)[0](self)
                left -= burst
        except Wrong as wrong:
            self.log.says(f"client {self.number}: {wrong}")
        except (KeyError, TypeError, ValueError, IndexError) as fault:
            self.log.says(f"client {self.number}: an answer of another form: {fault!r}")

    def told(self, answer: Answer, *statuses: int) -> Answer:
        with self.log.lock:
            self.log.requests += 1
            self.log.longest = max(self.log.longest, answer.ended - answer.began)
        if answer.status not in statuses:
            raise Wrong(f"status {answer.status} in place of {statuses}: {str(answer.reply)[:300]}")
        return answer

    def asked(self, kind: str, answer: Answer, value: object = None, cutoff: int | None = None) -> None:
        with self.log.lock:
            self.log.questions.append(Question(kind, answer, value, cutoff, self.number))

    # writes

    def body(self, name: str) -> Body:
        kind, group = f"k{self.chance.randrange(KINDS)}", self.chance.choice([f"groups/{self.chance.randrange(GROUP_COUNT)}", self.lost()])
        pad = "x" * self.chance.choice([0, 10, 10, 2_000])
        return tagged(THINGS, Own=name, N=self.chance.randrange(-1_000, 1_000), Kind=kind, G=group, Pad=pad)

    def rises(self, etag: int) -> int:
        """Etags rise from each answer to the next write of one client."""
        if etag <= self.last:
            raise Wrong(f"etag {etag} was given after {self.last}")
        self.last = etag
        return etag

    def wrote(self, name: str, collection: str, body: Body, answer: Answer) -> Version:
        etag = self.rises(etag_of(answer.reply["ChangeVector"]))
        if answer.reply["Id"] != name:
            raise Wrong(f"a PUT of {name} was answered {answer.reply}")
        version = Version(name, collection, body, etag, etag, answer.began, answer.ended)
        self.log.history.add(version)
        return version

    def vector(self, name: str) -> str:
        version = self.own.get(name)
        return f"A:{version.low}-{'A' * 22}" if version and version.body is not None else ""

    def put(self) -> None:
        name = self.chance.choice(self.names)
        body, match = self.body(name), self.vector(name) if self.chance.random() < 0.3 else None
        self.own[name] = self.wrote(name, THINGS, body, self.told(self.client.put(name, body, match), 201))
        if self.chance.random() < 0.5:
            self.see_own(name)

    def put_quiet(self) -> None:
        body = tagged(QUIET, Own=self.quiet, N=self.chance.randrange(100))
        version = self.wrote(self.quiet, QUIET, body, self.told(self.client.put(self.quiet, body), 201))
        self.own[self.quiet] = version
        if self.chance.random() < 0.7:
            self.wait_for(version)

    def conflict(self) -> None:
        """A write on a condition that does not hold changes nothing."""
        name = self.chance.choice(self.names)
        found = self.vector(name)
        answer = self.told(self.client.put(name, self.body(name), f"A:{max(self.last, 1) + 1_000_000}-{'A' * 22}"), 409)
        if answer.reply["Error"] != "Conflict" or answer.reply["Found"] != found:
            raise Wrong(f"{answer.reply} in place of a conflict that found {found!r}")
        self.see_own(name)

    def deleted(self, name: str, low: int, high: int, answer: Answer) -> Version:
        version = Version(name, THINGS, None, low, high, answer.began, answer.ended)
        self.own[name] = version
        return version

    def delete(self) -> None:
        name = self.chance.choice(self.names)
        is_there = bool(self.vector(name))
        answer = self.told(self.client.delete(name), 204)
        if is_there:
            # Its etag is not said. It is bounded by what is known before and after.
            self.log.history.add(self.deleted(name, self.last + 1, 2**53, answer))
            self.last += 1
        self.see_own(name)

    def bulk(self) -> None:
        names = self.chance.sample(self.names, self.chance.randint(2, len(self.names)))
        commands, bodies = [], {}
        for place, name in enumerate(names):
            if place == 0 or self.chance.random() < 0.6:
                bodies[name] = self.body(name)
                commands.append({"Type": "PUT", "Id": name, "Document": bodies[name]})
            else:
                commands.append({"Type": "DELETE", "Id": name})
        answer = self.told(self.client.bulk(commands), 201)
        self.took(names, bodies, answer)
        self.see_own(self.chance.choice(names))

    def took(self, names: list[str], bodies: dict[str, Body], answer: Answer) -> None:
        """A transaction takes etags one after another."""
        results, versions, etag = answer.reply["Results"], [], None
        for name, result in zip(names, results, strict=True):
            if result["Id"] != name:
                raise Wrong(f"{name} was answered {result}")
            if name in bodies:
                given = self.rises(etag_of(result["ChangeVector"]))
                if etag not in (None, given - 1):
                    raise Wrong(f"a transaction took {etag} and then {given}")
                etag = given
                version = Version(name, THINGS, bodies[name], etag, etag, answer.began, answer.ended)
            elif result["Deleted"] != bool(self.vector(name)):
                raise Wrong(f"of {name}, with {self.vector(name)!r}, it was said {result}")
            elif result["Deleted"]:
                etag = self.rises(etag + 1)
                version = self.deleted(name, etag, etag, answer)
            else:
                continue
            self.own[name] = version
            versions.append(version)
        self.log.history.add(*versions)

    def raise_shared(self, name: str, made) -> None:
        """Reads a document that all clients write, and writes it on condition that nobody did meanwhile."""
        read = self.told(self.client.get(name), 200, 404)
        self.asked("get", read, name)
        body, etag = plain(read.reply["Results"][0]) if read.status == 200 else (None, 0)
        following = made(body)
        match = f"A:{etag}-{'A' * 22}" if body else ""
        answer = self.told(self.client.put(name, following, match), 201, 409)
        if answer.status == 201:
            self.wrote(name, following["@metadata"]["@collection"], following, answer)
            with self.log.lock:
                self.log.counted.setdefault(name, []).append((self.last, following["Count"]))
        elif answer.reply["Error"] != "Conflict" or (answer.reply["Found"] and etag_of(answer.reply["Found"]) <= etag):
            raise Wrong(f"{name} was read with etag {etag}, and a write on this condition is answered {answer.reply}")

    def count(self) -> None:
        name = f"counters/{self.chance.randrange(COUNTERS)}"
        self.raise_shared(name, lambda body: tagged(SHARED, Count=body["Count"] + 1 if body else 1))

    def rename(self) -> None:
        name, title = f"groups/{self.chance.randrange(GROUP_COUNT)}", f"t{self.chance.randrange(TITLES)}"
        self.raise_shared(name, lambda body: tagged(GROUPS, Title=title, Count=body["Count"] + 1 if body else 1))

    def lost(self) -> str:
        return f"groups/lost-{self.chance.randrange(LOST)}"

    def lose(self) -> None:
        """A document that others load is written, and mostly deleted in the same transaction, so that the etags of both are known."""
        name, body = self.lost(), tagged(GROUPS, Title=f"t{self.chance.randrange(TITLES)}")
        left = self.chance.choice([[body], [body, None], [body, None]])
        put, delete = {"Type": "PUT", "Id": name, "Document": body}, {"Type": "DELETE", "Id": name}
        answer = self.told(self.client.bulk([put, delete][: len(left)]), 201)
        written, *deleted = answer.reply["Results"]
        if written["Id"] != name or deleted != [{"Deleted": True, "Id": name, "Type": "DELETE"}] * (len(left) - 1):
            raise Wrong(f"{name} was answered {answer.reply}")
        first = self.rises(etag_of(written["ChangeVector"]))
        self.last = first + len(deleted)
        versions = [Version(name, GROUPS, body, etag, etag, answer.began, answer.ended) for etag, body in enumerate(left, first)]
        self.log.history.add(*versions)

    def create(self) -> None:
        """A document that is created on condition that there is none: one client alone may do that."""
        name = f"once/{self.chance.randrange(ONCE)}"
        body = tagged(SHARED, By=self.number, Count=1)
        answer = self.told(self.client.put(name, body, ""), 201, 409)
        with self.log.lock:
            self.log.created[name] = self.log.created.get(name, 0) + (answer.status == 201)
        if answer.status == 201:
            self.wrote(name, SHARED, body, answer)

    # reads

    def see_own(self, name: str | None = None) -> None:
        """A client reads what it wrote last."""
        name = name or self.chance.choice(self.names)
        version = self.own.get(name)
        there = version and version.body is not None
        answer = self.told(self.client.get(name), 200, 404)
        found = plain(answer.reply["Results"][0]) if answer.status == 200 else None
        if found != ((version.body, version.low) if there else None):
            raise Wrong(f"{name} was written with etag {version and version.low}, but is read as {str(found)[:200]}")

    def see_other(self) -> None:
        name = self.chance.choice([f"Things/{self.chance.randrange(self.number + 10)}-{self.chance.randrange(4)}", self.lost()])
        self.asked("get", self.told(self.client.get(name), 200, 404), name)

    def see_stats(self) -> None:
        self.asked("stats", self.told(self.client.ask("GET", "/stats"), 200))

    def see_staleness(self) -> None:
        name = self.chance.choice(list(MAPS))
        self.asked("staleness", self.told(self.client.ask("GET", f"/indexes/staleness?name={name}"), 200), name)

    # queries

    def waits(self) -> dict[str, object]:
        """Whether a query waits, and how often it looks."""
        return self.chance.choice([{}, {}, {"WaitForNonStaleResults": True, "Looks": self.chance.choice([1, 2, 5, 10])}])

    def query(self) -> None:
        kind = self.chance.choice(["all", "some", "joined", "sums", "quiet", "quiet", "whole", "narrow", "narrow"])
        least, title = self.chance.randrange(-1_000, 1_000), f"t{self.chance.randrange(TITLES)}"
        few = self.chance.randrange(100)
        text, value = {
            "all": ("from index 'All'", None),
            "some": ("from index 'All' where N >= $least select Own, N", least),
            "joined": ("from index 'Joined' where Title = $title select Own, N", title),
            "sums": ("from index 'Sums'", None),
            "quiet": ("from index 'Quiet' where N >= $least select Own, N", few),
            "whole": ("from Quiet select Own, N", None),
            "narrow": (NARROW, few),
        }[kind]
        parameters = {"least": value, "title": value}
        waits = self.waits()
        answer = self.told(self.client.query(text, QueryParameters=parameters, **waits), 200)
        self.asked(kind, answer, value)
        self.looked(answer, waits.get("Looks", 1))

    def looked(self, answer: Answer, looks: int) -> None:
        """A query that waits ends fresh, or stale after all its looks, with a nap of 10 ms between each two."""
        took = answer.ended - answer.began
        if answer.reply["IsStale"] and took < 0.0095 * (looks - 1):
            raise Wrong(f"stale after {took * 1_000:.1f} ms, and {looks} looks were asked")

    def wait_for(self, version: Version) -> None:
        """Waits until the index has what it wrote: then its document is found as it is."""
        least = self.chance.randrange(100)
        text = self.chance.choice([NARROW, "from index 'Quiet' where N >= $least select Own, N"])
        looks = self.chance.choice([64, 64, 64, 3])
        members = {"CutoffEtag": version.low, "WaitForNonStaleResults": True, "Looks": looks}
        answer = self.told(self.client.query(text, QueryParameters={"least": least}, **members), 200)
        self.asked("cutoff", answer, None, version.low)
        self.looked(answer, looks)
        number = version.body["N"]
        expected = [{"Own": self.quiet, "N": number}] if number >= least else []
        found = [row for row in answer.reply["Results"] if row["Own"] == self.quiet]
        if not answer.reply["IsStale"] and found != expected:
            raise Wrong(f"{self.quiet} was written with etag {version.low} and N {number}; fresh up to it, N >= {least} gives {found}")

    WAYS = [put, put_quiet, conflict, delete, bulk, count, rename, lose, create, see_own, see_other, see_stats, see_staleness, query]
    WEIGHTS = [20, 8, 2, 7, 8, 6, 3, 4, 2, 4, 8, 3, 3, 28]


class Definer:
    """Defines the indexes, and changes them while the clients ask."""

    def __init__(self, port: int, log: Log):
        self.port, self.log = port, log
        self.own = 0  # the etags that the server takes for it

    def first(self) -> None:
        with Client(self.port) as client:
            for name, texts in MAPS.items():
                self.defined(client, name, texts, name)
            self.defined(client, "Gone", MAPS["Quiet"], "Gone")
            self.is_right(client.query(NARROW, QueryParameters={"least": 0}), 200)
        self.own = DEFINITIONS

    def defined(self, client: Client, name: str, texts: tuple[str, ...], named: str) -> None:
        answer = self.is_right(client.define(name, *texts), 201)
        if answer.reply != {"Index": named}:
            raise Wrong(f"a definition of {name} is answered {answer.reply}")

    @staticmethod
    def is_right(answer: Answer, status: int) -> Answer:
        if answer.status != status:
            raise Wrong(f"status {answer.status} in place of {status}: {answer.reply}")
        return answer

    def change(self, pause: float) -> None:
        """A removal, a definition under a name that serves, and a query that makes a wider index."""
        try:
            time.sleep(pause)
            with Client(self.port) as client:
                self.is_right(client.ask("DELETE", "/indexes?name=gone"), 204)
            time.sleep(pause)
            with Client(self.port) as client:
                self.defined(client, "All", (WIDER,), "ReplacementOf/All")
            time.sleep(pause)
            with Client(self.port) as client:
                self.is_right(client.query(WIDE, QueryParameters={"least": 0}), 200)
        except Wrong as wrong:
            self.log.says(f"the client that defines: {wrong}")
        self.own += REMOVED - 1 + REPLACEMENT + AUTOMATIC


def ask_again(port: int, log: Log, seed: int) -> None:
    """Questions once nobody writes and all have caught up: then none of them is answered by a stale index."""
    writer = Writer(0, port, log, seed)
    before = len(log.questions)
    try:
        with Client(port) as writer.client:
            for _ in range(60):
                writer.query()
                writer.see_staleness()
    except Wrong as wrong:
        log.says(f"after all writes: {wrong}")
    stale = [question for question in log.questions[before:] if question.answer.reply["IsStale"]]
    if stale:
        log.says(f"after all writes {len(stale)} answers are stale: {str(stale[0].answer.reply)[:200]}")


def run(port: int, clients: int, requests: int, seconds: float, seed: int) -> tuple[Log, Definer, list[dict]]:
    """What the clients found, and the indexes once all have ended and the indexes have caught up by themselves."""
    log = Log()
    definer = Definer(port, log)
    definer.first()
    until = time.monotonic() + seconds
    threads = [threading.Thread(target=Writer(number, port, log, seed).run, args=(requests, until)) for number in range(clients)]
    threads.append(threading.Thread(target=definer.change, args=(seconds / 8,)))
    for thread in threads:
        thread.start()
    for thread in threads:
        thread.join()
    with Client(port) as client:
        listed = caught_up(client)
    ask_again(port, log, seed)
    return log, definer, listed
