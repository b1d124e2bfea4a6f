"""Random scripts of queries over documents that have each kind of value, and over indexes that lag behind them."""

from raven_tools import language, model
from raven_tools.making import lines
from raven_tools.making.map_scripts import MapMaker
from raven_tools.making.random_scripts import kind_of

GREATEST, LEAST = str(language.GREATEST), str(language.LEAST)
# Members of documents have these, so that many are equal, or nearly, in some way.
VALUES = ["null", "true", "false", "0", "1", "1", "-1", "7", "10", "36", GREATEST, LEAST, '""', '"a"', '"A"', '"ada"', '"Ada"']
VALUES += ['"ADA"', '"adam"', '"b"', '"é"', '"É"', '"1"', '"10"', '"true"', "[]", "[1]", '{"A":1}']
NUMBERS = ["0", "1", "2", "2", "3", "-3", "10", "36", GREATEST, GREATEST, LEAST, "null", '"2"']
TEAMS = ['"red"', '"Red"', '"RED"', '"blue"', "null", "7", "true", "[]", '"7"']
NAMES = ['"Ada"', '"ada"', '"Bo"', '"Cy"', '"é"', "null", "7"]
IDS = [f"users/{number}" for number in range(1, 12)] + ["U", "uZ", "u_", "Users/é"]
IDS += ["orders/1", "Orders/2", "orders/3", "orders/10", "orders/20", "o", "a"]
# The maps and reduces of indexes.
TEXTS = {
    "All": ("from u in docs.Users select new { u.F, u.Name, u.Age, u.Team, u.Ref }", None),
    "Orders": ("from o in docs.Orders select new { o.F, o.Team, Half = o.Age / 2 }", None),
    "Some": (
        "from u in docs.Users where u.Age != null && u.Name != null select new { u.Name, Share = 72 / u.Age, A = u.N.A }",
        None,
    ),
    "Loaded": (
        'from o in docs.Orders let u = LoadDocument(o.Ref, "Users") '
        'select new { o.F, u.Name, Kind = u == null ? "none" : u.Team }',
        None,
    ),
    "Totals": (
        "from u in docs.Users select new { u.Team, Sum = u.Age, Low = u.F, High = u.F, Count = 1 }",
        "from r in results group r by r.Team into g select new { Team = g.Key, Sum = g.Sum(x => x.Sum), Low = g.Min(x => x.Low), "
        "High = g.Max(x => x.High), Count = g.Sum(x => x.Count) }",
    ),
    "Pairs": (
        "from o in docs.Orders select new { o.Team, o.F, o.Age, First = o.Ref }",
        "from r in results group r by new { r.F, r.Team } into g "
        "select new { g.Key.Team, g.Key.F, Age = g.Sum(x => x.Age), First = g.Min(x => x.First) }",
    ),
    "Joined": (
        'from o in docs.Orders let u = LoadDocument(o.Ref, "Users") select new { u.Name, Count = 1, Last = o.F }',
        "from r in results group r by r.Name into g "
        "select new { Name = g.Key, Count = g.Sum(x => x.Count), Last = g.Max(x => x.Last) }",
    ),
}
AUTOS = ["AUTO Users Name", "AUTO Orders F", "AUTO C Team"]


class QueryMaker(MapMaker):
    """Mostly queries, mostly good ones."""

    def size(self):
        return self.one_of(["1", "2", "3", "64", "64"])

    def id(self):
        return self.one_of(IDS)

    def ref(self):
        if self.chance(85):
            return self.text(self.in_other_case(self.one_of(IDS)))
        return self.one_of(['"nobody"', '""', '"a\\tb"', '"@index/All"', "7", "null", '["users/1"]', f'"{"i" * 513}"'])

    def body(self, usual):
        members = {"F": VALUES, "Age": NUMBERS, "Team": TEAMS, "Name": NAMES, "L": ["[]", '[1,{"A":[]}]', '"users/1"']}
        parts = [f'"{name}":{self.one_of(values)}' for name, values in members.items() if self.chance(80)]
        if self.chance(60):
            parts.append(f'"Ref":{self.ref()}')
        if self.chance(40):
            parts.append(f'"N":{{"A":{self.one_of(VALUES)},"B":{self.ref()}}}')
        return "{" + ",".join([*parts, f'"@metadata":{{"@collection":"{usual}","@other":{self.one_of(VALUES)}}}']) + "}"

    def several(self):
        names = [self.one_of(IDS) for _ in range(self.random.randint(2, 9))]
        commands = [lines.put_command(name, self.usual_body(name)) for name in names]
        return lines.bulk(*commands, *(lines.command("DELETE", name) for name in names if self.chance(5)))

    def question(self):
        if self.chance(85):
            index = self.one_of(self.database.indexes)
            return self.questions.of_index(index, self.in_other_case(index.name), 5)
        return self.questions.of_collection(self.one_of(["Users", "Orders", "C", "@empty", "users"]), 5)

    def known_id(self):
        documents = [row for row in self.database.store.rows.values() if row.is_document() and row.collection != "@indexes"]
        return self.in_other_case(self.one_of(documents).spelling if documents and self.chance(70) else self.id())

    def kinds_of_lines(self):
        kinds = [self.put] * 3 + [self.several] * 2 + [self.delete] * 4 + [self.pump] * 2 + [self.pump_one] * 2
        return kinds + [self.find, self.stats] + [self.query] * 12 + [self.ask] * 16

    def script(self, count: int) -> bytes:
        written: list[str] = []

        def add(line):
            written.append(line)
            self.kinds[kind_of(model.answer(self.database, line.encode()))] += 1

        for name in self.random.sample(sorted(TEXTS), 3):
            add(lines.definition(name, *TEXTS[name]))
        for line in (self.one_of(AUTOS), self.several(), self.several(), "PUMP 64"):
            add(line)
        for _ in range(count):
            add(self.one_of(self.kinds_of_lines())())
        return "\n".join(written).encode()
