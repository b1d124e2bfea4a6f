"""Random scripts of indexes that are built beside others and take their place, and of batches that workers hold meanwhile."""

from raven_tools.making import lines
from raven_tools.making.map_scripts import LagMaker
from raven_tools.making.random_scripts import kind_of, own_name
from raven_tools import model

NAMES = ["U", "V", "w"]
# Definitions that any of these names may have, and of which each reads other collections.
TEXTS = [
    ("from u in docs.Users select new { u.Name, u.Age }", None),
    ("from u in docs.Users where u.Age > 1 select new { u.Name, Kind = u.Ref }", None),
    ('from o in docs.Orders let u = LoadDocument(o.Ref, "Users") select new { u.Name, o.Age }', None),
    ('from u in docs.Users let d = LoadDocument("@index/" + u.Name, "@indexes") select new { u.Name, Kind = d.Map }', None),
    (
        "from u in docs.Users select new { u.Name, Total = u.Age }",
        "from r in results group r by r.Name into g select new { Name = g.Key, Total = g.Sum(x => x.Total) }",
    ),
]


class SlotMaker(LagMaker):
    """Mostly definitions under names that serve, batches, and switches."""

    def words(self) -> str:
        return self.one_of(["Ada", "ada", "Bo", *NAMES])

    def name(self) -> str:
        return self.in_other_case(self.one_of(NAMES))

    def beside(self) -> str:
        return self.in_other_case("ReplacementOf/" + self.one_of(NAMES))

    def any_name(self) -> str:
        """Mostly that of an index, and mostly of one that is built beside another or lags behind."""
        live = self.database.indexes
        found = self.one_of([[index for index in live if "/" in index.name], list(filter(self.database.is_stale, live)), live]) or live
        if found and self.chance(93):
            return self.in_other_case(self.one_of(found).name)
        return self.one_of([self.beside, self.name])()

    def define(self) -> str:
        return lines.definition(self.name(), *self.one_of(TEXTS))

    def again(self) -> str:
        """The definition that an index has, or that which is built beside it."""
        static = [index for index in self.database.indexes if isinstance(index.definition, model.Static)]
        if not static:
            return self.define()
        index = self.one_of(static)
        return lines.definition(self.in_other_case(own_name(index)), index.definition.text, index.definition.reduce_text)

    def once_more(self) -> str:
        """Another definition for what is built beside an index, which takes its place, also if that is held or was fresh."""
        waiting = self.waiting()
        if not waiting:
            return self.define()
        ways = [self.read, self.all, self.switch, self.publish, self.again, self.write, self.tidy]
        self.ahead = [self.one_of(ways) for _ in range(self.random.randint(1, 3))] + self.ahead
        return lines.definition(self.in_other_case(self.one_of(waiting).name), *self.one_of(TEXTS))

    def drop_both(self) -> str:
        """A removal of an index with another one beside it, of which workers may hold batches."""
        waiting = self.waiting()
        if not waiting:
            return self.drop()
        index = self.one_of(waiting)
        self.ahead = [lambda: f"DROP {self.in_other_case(index.name)}", self.publish, self.listed]
        return f"READ {self.worker()} {self.size()} {self.one_of(['', 'ReplacementOf/'])}{index.name}"

    def behind(self) -> list[model.Index]:
        """The indexes that have something to read, mostly those that have read nothing."""
        stale = [index for index in self.database.indexes if self.database.is_stale(index)]
        unread = [index for index in stale if index.etag == 0]
        return unread if unread and self.chance(70) else stale

    def removal(self) -> str:
        """The deletion of a document, if there is one."""
        documents = [row for row in self.database.store.rows.values() if row.is_document() and row.collection != "@indexes"]
        return f"DEL {self.in_other_case(self.one_of(documents).spelling)}" if documents else self.delete()

    def held_too_long(self) -> str:
        """A batch, mostly a first one, that is held while documents are deleted, and cleaned as far as the other indexes have read."""
        behind = self.behind()
        if not behind:
            self.ahead = [self.write, self.held_too_long]
            return self.define()
        worker, index = self.worker(), self.one_of(behind)
        others = [other.name for other in self.database.indexes if other.etag > 0 and other is not index]
        self.ahead = [self.removal, self.write, self.write, *(lambda name=name: f"PUMP 65536 {name}" for name in others)]
        self.ahead += [self.clean, lambda: f"PUBLISH {worker}", self.ask_one]
        return f"READ {worker} {self.one_of(['1', '2', '64'])} {self.in_other_case(index.name)}"

    def waiting(self) -> list[model.Index]:
        """The indexes with another one beside them."""
        return [index for index in self.database.indexes if self.database.replacement_of(index)]

    def worker(self) -> str:
        return self.one_of("0012") if self.chance(80) else str(self.random.randrange(16))

    def pump_one(self) -> str:
        return f"PUMP {self.size()} {self.any_name()}"

    def switch(self) -> str:
        """Mostly of an index with another one beside it."""
        waiting = self.waiting()
        if waiting and self.chance(85):
            return f"SWITCH {self.in_other_case(self.one_of(waiting).name)}"
        return f"SWITCH {self.one_of([self.name, self.any_name])()}"

    def read(self) -> str:
        return f"READ {self.worker()} {self.size()} {self.any_name()}"

    def publish(self) -> str:
        """Mostly by a worker that holds something."""
        holding = list(self.database.held)
        return f"PUBLISH {self.one_of(holding) if holding and self.chance(90) else self.worker()}"

    def drop(self) -> str:
        return f"DROP {self.any_name()}"

    def auto(self) -> str:
        return f"AUTO {self.one_of(['Users', 'Users', 'Orders'])} {self.one_of(['Name', 'Age'])}"

    def all(self) -> str:
        return "PUMP 64"

    def take_over(self) -> str:
        """A definition, and what may lead to its switch."""
        ways = [self.all, self.pump_one, self.write, self.write, self.read, self.publish]
        self.ahead = [self.one_of(ways) for _ in range(self.random.randint(0, 3))] + [self.all] * self.chance(60)
        self.ahead += [self.one_of([self.switch, self.switch, self.tidy]), self.ask_one]
        return self.define()

    def take_over_all(self) -> str:
        """Definitions for all names, and a tidying, which may switch several."""
        names = self.random.sample(NAMES, len(NAMES))
        first, *more = [lines.definition(self.in_other_case(name), *self.one_of(TEXTS)) for name in names]
        self.ahead = [lambda text=text: text for text in more] + [self.all] * self.chance(90) + [self.tidy, self.ask_one, self.tidy]
        return first

    def hold(self) -> str:
        """A batch that is read, and what may come before it is published."""
        ways = [self.write, self.write, self.read, self.define, self.switch, self.pump_one, self.publish, self.tidy, self.clean, self.drop]
        self.ahead = [self.read, *(self.one_of(ways) for _ in range(self.random.randint(1, 3))), self.publish, self.ask_one]
        return self.write()

    def ask_one(self) -> str:
        return self.look(self.any_name())

    def kinds_of_lines(self) -> list:
        kinds = [self.write] * 6 + [self.define] * 2 + [self.take_over] * 5 + [self.hold] * 5 + [self.again] * 2 + [self.pump] * 2
        kinds += [self.once_more] * 2 + [self.take_over_all] * 4 + [self.drop_both]
        kinds += [self.pump_one] * 3 + [self.switch] * 2 + [self.clean] * 3 + [self.held_too_long] * 4
        kinds += [self.tidy, self.drop, self.listed, self.stats, self.auto, self.publish]
        return kinds + [self.ask_one] * 5 + [self.query] * 3 + [self.stale, self.bulk, self.get]

    def script(self, count: int) -> bytes:
        written: list[str] = []
        self.ahead = [self.define, self.define, self.define, self.write, self.write, self.write]
        while len(written) < count:
            make = self.ahead.pop(0) if self.ahead else self.one_of(self.kinds_of_lines())
            written.append(make())
            self.kinds[kind_of(model.answer(self.database, written[-1].encode()))] += 1
        return "\n".join(written).encode()
