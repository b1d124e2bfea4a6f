"""Random scripts of maps and of documents that load one another."""

from raven_tools import language, model
from raven_tools.making import lines
from raven_tools.making.random_scripts import SIZES, USUAL, RandomMaker, kind_of


class MapMaker(RandomMaker):
    """Makes scripts whose lines are mostly good, and mostly of maps and of documents that load one another."""

    def __init__(self, seed: int):
        super().__init__(seed)
        self.maps.collections = ["Users", "Users", "Orders", "Orders", "C"]
        self.loading = 50
        self.ahead: list = []  # what makes the next lines

    def id(self):
        return self.one_of(["users/1", "users/2", "Users/3", "orders/1", "orders/2", "Orders/3", "a"])

    def known_id(self):
        return self.in_other_case(self.id()) if self.chance(30) else self.id()

    def words(self):
        return self.one_of(["Ada", "ada", "Bo", "Cy", "Di", "É"])

    def size(self):
        return self.one_of(SIZES[:5] if self.chance(30) else ["64", "3"])

    def body(self, usual):
        members = [f'"{field}":{value}' for field, value in self.for_maps() if self.chance(75)]
        members += [self.text(field) + ":" + self.text(self.words()) for field in ("Name", "F") if self.chance(75)]
        return "{" + ",".join([*members, f'"@metadata":{{"@collection":"{usual}"}}']) + "}"

    def tree(self) -> language.Map:
        """Mostly of collections of which one document loads another."""
        pairs = [(row.collection, other.collection) for row, other in self.loads()]
        if pairs and self.chance(60):
            return self.maps.loading(*self.one_of(pairs))
        return super().tree()

    def loads(self) -> list[tuple[model.Row, model.Row]]:
        """The documents that name another one, each with that one."""
        documents = [row for row in self.database.store.rows.values() if row.is_document()]
        naming = [row for row in documents if isinstance(row.body.get("Ref"), str)]
        pairs = [(row, self.database.store.document(row.body["Ref"])) for row in naming]
        return [(row, other) for row, other in pairs if other]

    def change(self):
        """A write of a document that others name, before batches and questions."""
        pairs = self.loads()
        name = self.one_of(pairs)[1].spelling if pairs else self.id()
        self.ahead = [self.pump, self.one_of([self.find, self.query]), self.find, self.listed][: self.random.randint(2, 4)]
        return f"DEL {name}" if self.chance(25) else f"PUT {name} {self.usual_body(name)}"

    def kinds_of_lines(self):
        kinds = [self.put] * 10 + [self.delete] * 2 + [self.bulk, self.get, self.auto, self.drop, self.clean] + [self.stale] * 2
        kinds += [self.index] * 4 + [self.pump] * 4 + [self.pump_one] * 2 + [self.find] * 4 + [self.listed] * 2
        kinds += [self.query] * 3 + [self.ask] * 2
        return kinds + [self.change] * 5

    def line(self) -> bytes:
        if not self.database.indexes and self.chance(70):
            return self.index().encode()
        return self.ahead.pop(0)().encode() if self.ahead else self.one_of(self.kinds_of_lines())().encode()

    def joined(self, written: list[str]) -> bytes:
        """The script of these lines, whose replies are counted."""
        script = "\n".join(written).encode()
        replies = model.replies(script).split(b"\n")[:-1]
        self.kinds.update(kind_of(model.read_json(reply)) for reply in replies)
        return script


class MeaningMaker(MapMaker):
    """Makes scripts that ask what maps with deep expressions give of a few documents."""

    def tree(self) -> language.Map:
        self.loading = 10
        return RandomMaker.tree(self)

    def document(self, collection):
        """Values of each kind; lists and objects are compared whole."""
        shapes = ["[]", "[1,true]", "[1,1]", '{"A":{"B":-1}}', '{"A":[],"B":"x"}']
        kinds = {"T": ["true", "false", "null", "0"], "N": shapes, "L": shapes}
        members = [f'"{field}":{value}' for field, value in self.for_maps() if self.chance(90)]
        members += [f'"{field}":{self.text(self.words())}' for field in ("Name", "F") if self.chance(80)]
        members += [f'"{field}":{self.one_of(values)}' for field, values in kinds.items() if self.chance(80)]
        return "{" + ",".join([*members, f'"@metadata":{{"@collection":"{collection}"}}']) + "}"

    def definition_of(self, number):
        tree = self.tree()
        while tree.collection == "C":
            tree = self.tree()
        return lines.definition(f"M{number}", self.maps.text_of(tree))

    def script(self, count: int) -> bytes:
        names = ["users/1", "users/2", "orders/1", "orders/2", "a"]
        written: list[str] = []

        def add(line):
            written.append(line)
            model.answer(self.database, line.encode())

        for name in names:
            add(lines.put(name, self.document(USUAL[name[0]])))
        for number in range(count // 2):
            add(self.definition_of(number))
        add("PUMP 64")
        for index in self.database.indexes:
            found = sorted(set(self.texts_of(index)))
            written += [f"FIND {index.name} {field} {text}" for field, text in found if not set(text) & set("\r\n")]
        return self.joined([*written, "INDEXES"])


# What each index gives is a text of a document, of the one that it loads, or of that which this one loads.
LAGGING = {
    "One": 'from o in docs.Orders let u = LoadDocument(o.Ref, "Users") select new { u.Name, Kind = u == null ? "none" : "some" }',
    "Two": 'from o in docs.Orders let u = LoadDocument(o.Ref, "Users") let c = LoadDocument(u.Ref, "C") where c != null '
    "select new { c.Name, Kind = u.Name }",
    "Own": 'from u in docs.Users select new { Name = LoadDocument(u.Ref, "Users").Name, Kind = u.Name }',
    "Any": 'from u in docs.Users let c = u.Age > 7 ? LoadDocument(u.Ref, "C") : LoadDocument(u.Ref, "Orders") '
    "select new { c.Name, Kind = u.Name }",
}


class LagMaker(MapMaker):
    """Makes scripts of few documents that load one another, of which some indexes lag behind by a row or two."""

    def size(self):
        return self.one_of(["1", "1", "2", "64"])

    def write(self):
        name = self.id()
        if self.chance(20):
            return f"DEL {name}"
        members = f'"Age":{self.one_of([1, 9])},"Name":"{self.words()}","Ref":"{self.known_id()}"'
        return f'PUT {name} {{{members},"@metadata":{{"@collection":"{USUAL[name[0].lower()]}"}}}}'

    def look(self, name):
        field = self.one_of(["Name", "Name", "Kind"])
        text = self.one_of(["none", "some", "ada", "bo", "cy", "di", "É"])
        asked = f"QUERY from index '{name}' where {field} = '{text}' order by Name, Kind select Name, Ref include Ref"
        return self.one_of([f"FIND {name} {field} {text}"] * 4 + [asked] * 2 + [f"STALE {name}", "INDEXES"])

    def script(self, count: int) -> bytes:
        names = self.random.sample(sorted(LAGGING), 3)
        written = [lines.definition(name, LAGGING[name]) for name in names]
        for _ in range(count):
            if self.chance(60):
                written.append(self.write())
            else:
                written.append(self.one_of([f"PUMP {self.size()}", f"PUMP {self.size()} {self.one_of(names)}"]))
            written += [self.look(self.one_of(names)) for _ in range(2)]
        return self.joined(written)
