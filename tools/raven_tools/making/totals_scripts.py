"""Random scripts of totals and of averages: reduces whose members are sums, least and greatest values, and quotients of two sums."""

from raven_tools.making import lines
from raven_tools.making.random_scripts import RandomMaker

COMPANIES = ["c", "d", "C", "é", ""]
NUMBERS = ["0", "1", "-1", "7", "-7", "400", "-250", "9223372036854775807", "-9223372036854775808"]
OTHERS = ["null", "true", '"7"', "[1]", "{}"]
SOURCES = ["o.Cents", "o.Kilos", "1", "0", "o.Cents - o.Kilos", "-o.Cents"]
NAMES = ["Means", "means", "PerKilo", "M"]
SUMMED = ["Total", "Count", "Weight"]


class TotalsMaker(RandomMaker):
    """Makes scripts of orders, and of reduces of which most have a quotient."""

    def id(self):
        return f"orders/{self.random.randint(1, 9)}"

    def known_id(self):
        return self.id()

    def usual_body(self, name):
        members = [f'"Company":{self.text(self.one_of(COMPANIES))}'] if self.chance(95) else []
        members += [f'"{field}":{self.one_of(NUMBERS if self.chance(90) else OTHERS)}' for field in ("Cents", "Kilos") if self.chance(85)]
        return "{" + ",".join([*members, '"@metadata":{"@collection":"Orders"}']) + "}"

    def put(self):
        name = self.id()
        return lines.put(name, self.usual_body(name))

    def sum(self, field):
        own = self.one_of(["x", "y", "k"])
        return f"g.Sum({own} => {own}.{field})"

    def quotient(self, summed):
        """Mostly of two fields that are members by themselves."""
        among = summed if self.chance(95) else [*SUMMED, "Mean"]
        return f"{self.sum(self.one_of(among))} / {self.sum(self.one_of(among))}"

    def index(self):
        summed = self.random.sample(SUMMED, self.random.randint(1, 3))
        means = self.random.sample(["Mean", "Share", "Avg"], self.one_of([0, 1, 1, 1, 2, 3]))
        members = [f"{name} = {self.sum(name)}" for name in summed] + [f"{name} = {self.quotient(summed)}" for name in means]
        fields = summed + means
        if self.chance(40):
            members.append(f"High = g.{self.one_of(['Min', 'Max'])}(x => x.High)")
            fields.append("High")
        members.append("Company = g.Key")
        given = ["o.Company", *(f"{field} = {self.one_of(SOURCES)}" for field in self.random.sample(fields, len(fields)))]
        text = f"from o in docs.Orders select new {{ {', '.join(given)} }}"
        reduce = f"from r in results group r by r.Company into g select new {{ {', '.join(self.random.sample(members, len(members)))} }}"
        return lines.definition(self.one_of(NAMES), text, reduce)

    def rows(self):
        """A question about the rows of an index, mostly of one that is there."""
        index = self.one_of(self.database.indexes) if self.database.indexes and self.chance(95) else None
        name = index.name if index else self.one_of(NAMES)
        field = self.one_of(index.definition.fields() if index else ["Mean", "Total"])
        query = f"from index '{name}'"
        if self.chance(50):
            query += f" where {field} {self.one_of(['<', '<=', '=', '>=', '>', '!='])} {self.one_of([*NUMBERS[:7], 'null'])}"
        if self.chance(60):
            query += f" order by {field}{self.one_of(['', ' as long', ' as long desc', ' desc'])}"
        return f"QUERY {query}{self.one_of(['', '', f' select {field}, Company'])}"

    def pump(self):
        return f"PUMP {self.one_of(['1', '2', '64', '64', '64'])}"

    def kinds_of_lines(self):
        kinds = [self.put] * 10 + [self.delete] * 3 + [self.index] * 2 + [self.pump] * 6 + [self.rows] * 10
        return [*kinds, lambda: "INDEXES", lambda: "TIDY", lambda: f"SWITCH {self.one_of(NAMES)}", lambda: f"STALE {self.one_of(NAMES)}"]

    def line(self) -> bytes:
        make = self.index if not self.database.indexes and self.chance(60) else self.one_of(self.kinds_of_lines())
        return make().encode()
