"""Writes over a file, during which the program is killed, and what is asked afterwards."""

import itertools
import random

from raven_tools import model
from raven_tools.making import lines
from raven_tools.making.maker import Maker

COLLECTIONS = ["Users", "Orders", "Events", "@empty"]
FIELDS = ["Name", "City", "Kind"]
NAMES = ["Ada", "Grace", "Linus", "Barbara", "Edsger", "Niklaus", "É", "\U0001f426"]
# Each id belongs to one collection, since an id keeps the collection of its first write.
IDS = [f"{COLLECTIONS[number % 4].strip('@').lower()}/{number}" for number in range(48)]
COLLECTION_OF = {name: COLLECTIONS[number % 4] for number, name in enumerate(IDS)}
# The names of the indexes that the database makes, of one field or more, with the fields; and those of groups.
SETS = [fields for count in (1, 2, 3) for fields in itertools.combinations(sorted(FIELDS), count)]
FIELDS_OF = {f"Auto/{collection}/By{'And'.join(fields)}": fields for collection in COLLECTIONS for fields in SETS}
AUTOS = list(FIELDS_OF)
GROUPED = [f"Auto/{name}/By{sums}ReducedBy{field}" for name in COLLECTIONS for sums in ("Count", "CountAndNumber") for field in FIELDS]
# Names that clients give indexes, the last of them the first one spelled anew, and the maps and reduces that these may have.
NAMED = ["Named", "Owners", "Shares", "Cities", "NAMED"]
TEXTS = [
    ("from u in docs.Users where u.Number >= 500000 select new { u.Name, u.City }", None),
    ('from o in docs.Orders let u = LoadDocument(o.Owner, "Users") select new { u.Name, Own = u.City == o.City }', None),
    ("from e in docs.Events select new { e.Name, Share = 1000 / (e.Number % 3) }", None),
    (
        "from u in docs.Users select new { u.City, u.Name, Total = u.Number }",
        "from r in results group r by r.City into g select new { City = g.Key, Name = g.Min(x => x.Name), Total = g.Sum(x => x.Total) }",
    ),
]


class CrashMaker(Maker):
    """Makes the lines of one round out of its seed. Its database is what the file holds when the round begins."""

    def __init__(self, seed: int, database: model.Database):
        super().__init__(random.Random(seed), database)

    def known_id(self) -> str:
        name = self.one_of(IDS)
        return name.upper() if self.chance(8) else name

    def usual_body(self, name: str) -> str:
        collection = COLLECTION_OF[name.lower()]
        if self.chance(3):
            collection = self.one_of(COLLECTIONS)
        size = self.one_of([0, 3, 40, 40, 300, 3_000]) if self.chance(97) else self.one_of([20_000, 200_000])
        members = {field: self.one_of(NAMES) for field in FIELDS if self.chance(60)}
        members["Number"] = self.random.randrange(1_000_000)
        members["Owner"] = self.one_of(IDS)
        members["Fill"] = "x" * self.random.randint(0, size)
        if collection != "@empty":
            members["@metadata"] = {"@collection": collection}
        return model.write_json(members)

    def vector(self, name: str) -> str:
        """Mostly the one that the document had when the round began."""
        document = self.database.store.document(name)
        etag = document.etag if document and self.chance(80) else self.random.randint(0, 9)
        return model.vector_of(etag)

    def command(self):
        name = self.known_id()
        expected = f',"ChangeVector":"{self.vector(name)}"' if self.chance(2) else ""
        if self.chance(30):
            return lines.command("DELETE", name, expected)
        return lines.put_command(name, self.usual_body(name), expected)

    def bulk(self):
        count = self.one_of([1, 2, 3, 5, 10, 30, 100])
        return lines.bulk(*(self.command() for _ in range(count)))

    def auto(self):
        return f"AUTO {self.one_of(COLLECTIONS)} {self.one_of(FIELDS)}"

    def query(self):
        """A query of some documents, or of groups of them, which makes its index if there is none."""
        first, second = self.random.sample(FIELDS, 2)
        source = f"QUERY from '{self.one_of(COLLECTIONS)}'"
        if self.chance(30):
            return f"{source} group by {first}" + self.one_of(["", " select sum(Number)"])
        return f"{source} where {first} = 'ada'" + self.one_of(["", f" order by {second} select Name"])

    def define(self):
        """Mostly a name has one definition, so that few are built beside another one."""
        at = self.random.randrange(len(NAMED))
        texts = TEXTS[at % len(TEXTS)] if self.chance(90) else self.one_of(TEXTS)
        return lines.definition(NAMED[at], *texts)

    def drop(self):
        """Mostly of an index that is there."""
        made = [index.name for index in self.database.indexes]
        return f"DROP {self.one_of(made if made and self.chance(50) else NAMED + AUTOS + GROUPED)}"

    def take_over(self) -> list[str]:
        """Another definition of a name, batches, and its switch, which is one commit of two rows."""
        name = self.one_of(NAMED)
        written = [lines.definition(name, *self.one_of(TEXTS)) for _ in range(self.one_of([1, 1, 2]))]
        return [*written, self.one_of(["PUMP 65536", self.pump()]), f"SWITCH {name}", self.look()]

    def pump(self):
        return f"PUMP {self.one_of([1, 2, 7, 64])}"

    def clean(self):
        return "CLEAN"

    def look(self):
        return self.one_of(["STATS", self.get(), f"FIND {self.one_of(AUTOS + NAMED)} Name ada", "INDEXES"])

    def script(self) -> list[bytes]:
        kinds = [self.put] * 8 + [self.put_if] * 2 + [self.delete] * 3 + [self.delete_if] + [self.bulk] * 5
        kinds += [self.auto, self.query, self.query, self.define, self.drop, self.pump, self.pump, self.look, self.take_over]
        kinds += [self.clean] * 2
        count = 1 if self.chance(25) else self.one_of([2, 5, 10, 20, 40, 80])
        script: list[str] = []
        while len(script) < count:
            made = self.one_of(kinds)()
            script += made if isinstance(made, list) else [made]
        return [line.encode() for line in script]


def ids_asked() -> list[str]:
    names = [*AUTOS, *GROUPED, *NAMED, *("ReplacementOf/" + name for name in NAMED)]
    return [*IDS, "nobody/1", *("@index/" + name for name in names)]


def questions(number: int) -> list[bytes]:
    """What is asked after a crash, and a document that is written after it."""
    asked = ["STATS", *(lines.get(name) for name in ids_asked()), "PUMP 65536"]
    asked += [f"FIND {name} {field} ada" for name, fields in FIELDS_OF.items() for field in fields]
    asked += [*(f"FIND {name} Name ada" for name in NAMED), "INDEXES"]
    asked += [f"QUERY from '{collection}' select Name, City, Number" for collection in COLLECTIONS]
    asked += [f"QUERY from index '{name}' order by Name desc" for name in NAMED]
    asked += [f'PUT {IDS[number % len(IDS)]} {{"Round":{number},"@metadata":{{"@collection":"{COLLECTIONS[number % 4]}"}}}}', "STATS"]
    return [line.encode() for line in asked]
