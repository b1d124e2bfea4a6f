"""Random scripts of several maps into one reduce: what they are defined by, what takes the place of a part, and questions about their rows."""

import collections.abc

from raven_tools import model
from raven_tools.making import lines
from raven_tools.making.random_scripts import NO_TEXTS, RandomMaker
from raven_tools.model import multi
from raven_tools.model.indexes import is_replacement

COMPANIES = ["c", "d", "C", "é", ""]
NUMBERS = ["0", "1", "-1", "4", "7", "-7", "30", "-250", "9223372036854775807", "-9223372036854775808"]
OTHERS = ["null", "true", '"7"', '"b"', "[1]"]
COLLECTIONS = ["Orders", "Refunds", "Fees"]
FIELDS = ["Cents", "Kilos", "Kind"]
NAMES = ["Net", "net", "Ends", "M"]
# Reduces, and what their maps have to give. Some differ in their spelling alone, and one in the name of a variable.
TOTAL = ["Company", "Total"]
REDUCES = [
    ("group r by r.Company into g select new { Company = g.Key, Total = g.Sum(x => x.Total) }", TOTAL),
    ("group r by r.Company into g select new { Company = g.Key, Total = g.Sum(x => x.Total) }", TOTAL),
    ("group r by new{r.Company}into g select new{g.Key.Company,Total=g.Sum(y=>y.Total)}", TOTAL),
    ("group r by new { r.Company } into g select new { g.Key.Company, Total = g.Sum(x => x.Total) }", TOTAL),
    ("group r by r.Company into h select new { Company = h.Key, Total = h.Sum(x => x.Total) }", TOTAL),
    ("group r by r.Company into g select new { Company = g.Key, Total = g.Max(x => x.Total) }", TOTAL),
    (
        "group r by r.Company into g select new { Company = g.Key, Low = g.Min(x => x.Low), High = g.Max(x => x.High), Count = g.Sum(x => x.Count) }",
        ["Company", "Low", "High", "Count"],
    ),
    (
        "group r by r.Company into g select new { Mean = g.Sum(x => x.Total) / g.Sum(x => x.Count), Company = g.Key, "
        "Total = g.Sum(x => x.Total), Count = g.Sum(x => x.Count) }",
        ["Company", "Total", "Count", "Mean"],
    ),
    (
        "group r by new { r.Kind, r.Company } into g select new { g.Key.Company, g.Key.Kind, Total = g.Sum(x => x.Total) }",
        ["Company", "Kind", "Total"],
    ),
    ("group r by r.Kind into g select new { Kind = g.Key }", ["Kind"]),
]
SOURCES = ["Cents", "Cents", "Kilos", "Kind"]
TEXTS = ["from", "", "from o in docs.Orders select new { v.A }", "from o in docs.Orders select new { o.B }"]


class MultiMaker(RandomMaker):
    """Mostly questions about the rows of several maps, and what changes these maps or what they have read."""

    def id(self) -> str:
        return f"{self.one_of(COLLECTIONS).lower()}/{self.random.randint(1, 4)}"

    def known_id(self) -> str:
        return self.id()

    def usual_body(self, name: str) -> str:
        usual = name.split("/")[0].capitalize()
        members = [f'"Company":{self.text(self.one_of(COMPANIES))}'] if self.chance(95) else []
        members += [f'"{field}":{self.one_of(NUMBERS if self.chance(85) else OTHERS)}' for field in FIELDS if self.chance(85)]
        return "{" + ",".join([*members, f'"@metadata":{{"@collection":"{usual}"}}']) + "}"

    def put(self) -> str:
        name = self.id()
        return lines.put(name, self.usual_body(name))

    # definitions

    def value(self, field: str) -> str:
        if field in ("Company", "Kind"):
            return f"o.{field}"
        if field in ("Count", "Mean"):
            return f"{field} = {self.one_of('1110')}"
        return f"{field} = {self.one_of(['', '', '-'])}o.{self.one_of(SOURCES)}"

    def map_text(self, fields: list[str]) -> str:
        """Of any of the collections, so several parts may map one."""
        where = f" where o.Cents {self.one_of(['<', '>'])} {self.one_of('04')}" if self.chance(15) else ""
        given = ", ".join(map(self.value, self.random.sample(fields, len(fields))))
        return f"from o in docs.{self.one_of(COLLECTIONS)}{where} select new {{ {given} }}"

    def reduce(self) -> tuple[str, list[str]]:
        """Mostly the one that an index of several maps has."""
        text, fields = self.one_of(REDUCES[:1] * 3 + REDUCES)
        return "from r in results " + text, fields

    def several(self) -> str:
        """Of a few maps, now and then of as many as there may be, or of too few or too many."""
        text, fields = self.reduce()
        count = self.one_of([2, 2, 2, 3, 3, 4] if self.chance(92) else [0, 1, 5, 8, 8, 9])
        maps = [self.map_text(fields) if self.chance(98) else self.one_of(TEXTS) for _ in range(count)]
        given = [model.quoted(one) if self.chance(99) else self.one_of(NO_TEXTS) for one in maps]
        name = self.one_of(NAMES) if self.chance(95) else self.one_of(["auto/x", "a\tb", "n" * 198, "n" * 199, "n" * 212, "n" * 213, "", "Net/1"])
        members = [self.member("Name", self.text(name), NO_TEXTS), self.member("Maps", f"[{','.join(given)}]", [*NO_TEXTS, model.quoted(maps[0] if maps else "")])]
        members.append(self.member("Reduce", model.quoted(text), NO_TEXTS))
        self.random.shuffle(members)
        return "MULTI {" + ",".join(members) + "}"

    def part(self) -> str:
        """The name of a part: mostly of one that is there, or of the one behind it."""
        of_parts = [index.name for index in self.database.indexes if "/" in index.name and not is_replacement(index.name)]
        if not of_parts or self.chance(10):
            return multi.name_of(self.one_of(NAMES), self.one_of([1, 2, 3, 4, 9]))
        name, _, number = self.one_of(of_parts).rpartition("/")
        return multi.name_of(self.in_other_case(name), int(number) + 1) if self.chance(30) and number.isdigit() else f"{name}/{number}"

    def one_part(self) -> str:
        """A part by itself, mostly of the reduce that it has already, or that part 1 has."""
        name = self.part()
        first = self.database.serving(name) or self.database.serving(multi.name_of(name.rpartition("/")[0], 1))
        has_reduce = first is not None and isinstance(first.definition, model.Static) and first.definition.reduce is not None
        text, fields = (first.definition.reduce_text, first.definition.fields()) if has_reduce and self.chance(80) else self.reduce()
        return lines.definition(name, self.map_text(fields), text if self.chance(95) else None)

    # questions

    def several_names(self) -> list[str]:
        """The names of several maps that may be asked."""
        names = {model.folded(index.name).rpartition("/")[0] for index in self.database.indexes if index.name.endswith("/1")}
        return sorted(name for name in names if len(multi.parts_of(self.database, name)) > 1)

    def question(self) -> str:
        names = self.several_names()
        if not names or self.chance(6):
            return self.questions.of_collection("Orders") if self.chance(20) else f"from index '{self.one_of(NAMES)}'"
        name = self.one_of(names)
        first, *others = multi.parts_of(self.database, name)
        alike = [other for other in others if multi.is_same_reduce(first, other)]
        return self.questions.of_index(first, self.in_other_case(name), 4, alike)

    def mask(self) -> str:
        return self.asked("MASK", self.question)

    def of_part(self) -> str:
        """A question about the rows of one part."""
        self.questions.parameters = None
        if not self.database.indexes:
            return self.mask()
        index = self.one_of(self.database.indexes)
        return f"QUERY {self.questions.of_index(index, index.name, 4)}"

    # what the parts have read

    def size(self) -> str:
        return self.one_of(["1", "2", "64", "64"])

    def pump_one(self) -> str:
        return f"PUMP {self.size()} {self.part()}"

    def drop(self) -> str:
        return f"DROP {self.part()}"

    def kinds_of_lines(self) -> list[collections.abc.Callable[[], str]]:
        kinds = [self.put] * 10 + [self.delete] * 3 + [self.several] * 2 + [self.one_part] * 3 + [self.drop] + [self.switch] * 2 + [self.tidy]
        kinds += [self.pump] * 4 + [self.pump_one] * 4 + [self.read, self.publish, self.clean, self.listed, self.stale]
        return kinds + [self.of_part] * 3 + [self.mask] * 18

    def line(self) -> bytes:
        make = self.several if not self.several_names() and self.chance(40) else self.one_of(self.kinds_of_lines())
        return make().encode()
