"""Random scripts in which each line that a script may have comes, and something is wrong now and then."""

import collections
import random

from raven_tools import model
from raven_tools.making import maps, questions, reduces
from raven_tools.making.maker import Maker
from raven_tools.model.indexes import REPLACEMENT, is_replacement

IDS = ["users/1", "USERS/1", "Users/1", "users/2", "users/10", "a", "A", "Z", "zz", "é", "É", "@index/x", "@INDEX/y",
       "@indexer", "orders/1", "x.y(z)", "users/\u212a", "\U0001f426", '"', "\\", "a\\b", "tab\tid", "del\x7f", "nul\0"]
COLLECTIONS = ["Users", "users", "Orders", "C", "c", "@empty", "@indexes", "@Indexes", "@other", "", "É", "C/ByF", "a\"b"]
FIELDS = ["Name", "name", "Age", "F", "F/2", "@metadata", "N.A", "N(A)", "\u00e9", "a\tb", "x" * 190, "\\", "é\"", "by"]
# A space ends an argument, but the last one of a DEL, DELIF or GET goes to the end of the line, and a BULK has its ids in JSON.
SPACED = ["a b", " a", "a ", " ", "users/1 ", "a\rb"]
TEXTS = ["Ada", "ADA", "ada", "ada ", " ada", "Bo", "", "É", "é", "null", "true", "36", "\U0001f426", "a\"b", "K", "\u212a"]
USUAL = {"u": "Users", "a": "C", "z": "c", "o": "Orders", "é": "@empty"}
NUMBERS = ["0", "1", "-1", "36", "9223372036854775807", "-9223372036854775808", "9223372036854775808",
           "-9223372036854775809", "18446744073709551615", "18446744073709551616", "-0", "-0.0", "0.0", "1.5", "1e2",
           "1E+2", "1e-2", "1e308", "1e309", "1e400", "-1e400", "1e-999", "0e99999", "0e-99999", "00", "01", "-", "+1",
           ".5", "5.", "1e", "1e+", "0x1", "NaN", "Infinity", "-Infinity", "1.7976931348623157e308",
           "1.7976931348623158e308", "1.7976931348623159e308", "9" * 308, "9" * 309, "9" * 310, "1" + "0" * 308,
           "1" + "0" * 309, "-" + "9" * 400, "1e99999999999999999999", "1e-99999999999999999999", "0.1e310",
           "179769313486231580793728971405303415079934132710037826936173778980444968292764750946649017977587207096330286"
           "416692887910946555547851940402630657488671505820681908902000708383676273854845817711531764475730270069855571"
           "366959622842914819860834936475292719074168444365510704342711559699508093042880",
           "179769313486231580793728971405303415079934132710037826936173778980444968292764750946649017977587207096330286"
           "416692887910946555547851940402630657488671505820681908902000708383676273854845817711531764475730270069855571"
           "366959622842914819860834936475292719074168444365510704342711559699508093042879"]
SIZES = ["1", "2", "3", "64", "65536", "0", "65537", "001", "0000000000000064", "00000000000000064", "-1", "+1", "1.0",
         " 1", "1 ", "x", "", "٣", "4 x", "9999999999999999", "99999999999999999999", "0000000000000000", "1e1", "0x1", "1\r"]
WORKERS = ["0", "1", "7", "15", "015", "0000000000000015", "00000000000000001", "16", "-1", "+1", "x", "", " 1", "1 ", "1.0", "٣", "9999999999999999"]
BAD_JSON = ["", "{", "}", "[1,]", "{\"a\":1,}", "{\"a\"}", "{a:1}", "{'a':1}", "nul", "True", "[1 2]", "{} {}", "{}x",
            "\ufeff{}", "\"\\x\"", "\"\\u12\"", "\"\\ud800\"", "\"\\udc00\"", "\"\\ud800\\u0041\"", "\"a", "// x", "[]]",
            "{\"a\":1 \"b\":2}", "\"\t\"", "{,}", "[,1]", "\"\\ud800x\"", "\"\\ud83d\\ud83d\""]
# Texts that are dates, or nearly.
DATES = ["1815-12-10", "1997-09-19T10:11:12.0000000Z", "2017-02-29", "2016-02-29", "-000044-03-15", "+002020-01-31 23:59:60",
         "20200131T1011-05", "2020-01-31T10+25:59[Europe/Paris][u-ca=hebrew]", "2020-01-31Z", "2020-01-31ZZ",
         "2020-01-31T10:11Z[UTC]", "2020-01-31T24", "2020-1-31", "Z"]
INDEX_NAMES = ["O", "o", "O", "Adults", "U/1", "u/1", "é", "É", "By Name", "N"]
ODD_NAMES = ["", "a\tb", "x\x7f", "n" * 200, "n" * 201, "n" * 214, "n" * 215, "é" * 100, "é" * 100 + "n", "é" * 107, "é" * 108,
             "auto/x", "AUTO/x", "Auto/Users/ByName", "Auto/" + "n" * 200, "ReplacementOf/O", "replacementof/", "ReplacementOf", "auto",
             " O", "O "]
# Values of a wrong kind.
NO_MAPS = ["null", "7", "[]", "{}", '["from","from"]', "[7]", '"from"', "true"]
NO_REDUCES = ['""', '"from r in results"', "7", "[]", "true", "{}"]
NO_TEXTS = ["null", "7", "true", "[]", "{}", "1.5"]
NO_OBJECTS = ["null", "7", "true", "[]", "[{}]", '"{}"']
NO_NUMBERS = ["null", "true", '"1"', "[1]", "{}", "1.5", "1e0"]
NO_FLAGS = ["null", "0", '"true"', "[]", "{}"]
NO_LISTS = ["null", "7", "{}", '"[]"', '{"Id":"a","Type":"DELETE"}']
TYPES = ["put", "Delete", "", "PUT ", "PATCH"]
VECTORS = ["A:0-" + model.BASE, "A:1-" + model.BASE, "a:1-" + model.BASE, "A:01-" + model.BASE, "A:1-", "A:1-" + "B" * 22,
           "x", "\u00e9", '"', "A:9007199254740992-" + model.BASE]
OTHERS = ["", "", " ", "\r", "PUT", "PUT ", "PUT a", "PUT a ", "AUTO", "AUTO C", "AUTO C ", "FIND", "FIND x", "FIND x y",
          "FIND x y ", "PUMP", "put a {}", "Put a {}", "get a", "DEL", "DEL ", "DEL  a", "GET", "GET ", "STATS ", "STATS x",
          "stats", "STALE", "STALE ", "STALE a b", "DELIF", "DELIF a", "DELIF a ", "DELIF  a", "DELIF a  b", "PUTIF a",
          "PUTIF a x", "PUTIF a x ", "PUTIF a  {}", "PUTIF  a x {}", "BULK", "BULK ", "BULK  {}", "BULK{}", "TIDY", "INDEXES",
          "CLEAN x", "PUMP 64 Auto/C/ByF", "QUERY from Users", "INDEX {}", "ASK {}", "DROP x", "SWITCH", "SWITCH ", "SWITCH  x", "SWITCH x",
          "SWITCH a\tb", "switch x", "READ", "READ 0", "READ 0 1", "READ 0 1 ", "READ 0  x", "READ 0 1  x", "READ  0 1 x", "READ 0 1 x",
          "READ 0 0 x", "READ 16 1 a\tb", "READ 0 1 a\tb", "PUBLISH", "PUBLISH ", "PUBLISH 0", "PUBLISH  0", "PUBLISH 0 x", "TIDY ", "TIDY x",
          "tidy", "clean", "CLEAN ", "INDEX", "INDEX ", "INDEX  {}", "INDEX{}", "INDEXES ", "INDEXES x", "indexes", "DROP", "DROP ",
          "DROP  x", "DROPx", "PUMP 1 ", "PUMP 1  x", "PUMP 1 x y", "PUMP 0 x", "PUMP x y", "PUMP x a\tb", "PUMP 1 a\tb", "#",
          "\ufeffPUMP 1", "PUT  a {}", "AUTO  C F", "FIND  x y z", "FIND x  y z", "PUMP  1", "PUTa {}"]
# The fill of the longest document.
FILL = model.MAX_BODY - len(model.write_json(model.stored({"F": ""})))


def kind_of(reply: dict) -> str:
    """The name of an error, or else the members that a reply has, or what kind of answer it is."""
    if "IndexName" in reply:
        names = [("Results", "results"), ("Includes", "includes")]
        return " ".join(["a stale" if reply["IsStale"] else "a fresh", "answer", *("with " + name for member, name in names if reply[member])])
    if "@metadata" in reply:
        return "a document"
    if any("Definition" in result for result in reply.get("Results", ())):
        return "indexes"
    return reply.get("Error") or " ".join(sorted(reply))


def own_name(index: model.Index) -> str:
    """The name of the index, or that of the one beside which it is built."""
    return index.name[len(REPLACEMENT) :] if is_replacement(index.name) else index.name


def padded(fill: int) -> str:
    """A document whose stored text has so many bytes more than that of an empty one."""
    return f'{{"F":"{"x" * fill}"}}'


class RandomMaker(Maker):
    """Makes one script out of a seed. Its database is what the lines so far lead to."""

    def __init__(self, seed: int):
        super().__init__(random.Random(seed), model.Database())
        self.maps = maps.Maps(self.random)
        self.reduces = reduces.Reduces(self.random)
        self.questions = questions.Questions(self.random)
        # How many in a hundred maps are of those that load.
        self.loading = 30
        # How often the model gives each kind of reply.
        self.kinds: collections.Counter[str] = collections.Counter()

    def words(self):
        return self.one_of(TEXTS[:4] if self.chance(70) else TEXTS)

    def space(self):
        return self.one_of(["", "", "", "", " ", "\t", "\r", "  "])

    def text(self, plain):
        """A JSON text of these characters, each spelled in one of its ways."""
        marks = []
        for mark in plain:
            code = ord(mark)
            if mark in '"\\':
                marks.append("\\" + mark)
            elif code < 0x20 or self.chance(4):
                units = mark.encode("utf-16-be")
                for at in range(0, len(units), 2):
                    unit = f"{units[at] * 256 + units[at + 1]:04x}"
                    marks.append("\\u" + (unit.upper() if self.chance(50) else unit))
            elif mark == "/" and self.chance(20):
                marks.append("\\/")
            else:
                marks.append(mark)
        if self.chance(3):
            marks.insert(self.random.randint(0, len(marks)), self.one_of(["\\b", "\\f", "\\n", "\\r", "\\t", "\\u0000", "\\u001f"]))
        return '"' + "".join(marks) + '"'

    def value(self, depth=0):
        kind = self.random.randrange(12)
        if kind == 0:
            return self.one_of(["null", "true", "false"])
        if kind <= 2:
            return self.one_of(NUMBERS) if self.chance(8) else str(self.random.randint(-40, 40))
        if kind <= 7 or depth > 3:
            return self.text(self.words())
        if kind == 8:
            return self.one_of(BAD_JSON) if self.chance(4) else "[]"
        if kind <= 10:
            items = [self.space() + self.value(depth + 1) + self.space() for _ in range(self.random.randint(1, 3))]
            return "[" + ",".join(items) + "]"
        return self.object(depth + 1)

    def object(self, depth=0, members=()):
        parts = list(members)
        for _ in range(self.random.randint(0, 3)):
            name = self.one_of(FIELDS[:9] + ["@id", "@collection", "@metadata", "z", "A", "a"])
            parts.append(self.text(name) + self.space() + ":" + self.space() + self.value(depth + 1))
        self.random.shuffle(parts)
        return "{" + ",".join(self.space() + part + self.space() for part in parts) + "}"

    def metadata(self, usual):
        collection = self.text(usual if self.chance(94) else self.one_of(COLLECTIONS))
        if self.chance(2):
            collection = self.value()
        parts = [self.text("@collection") + ":" + collection]
        for name in ["@id", "@change-vector", "@last-modified", "@index-score", "@other", "@Collection"]:
            if self.chance(8):
                parts.append(self.text(name) + ":" + self.value(3))
        self.random.shuffle(parts)
        return '"@metadata":{' + ",".join(parts) + "}"

    def nested(self):
        depth = self.one_of([96, 97, 98, 99, 100, 101, 150])
        inner = self.one_of(["", '"' + "[" * 30 + '"', '"\\"[["'])
        return '{"D":' + "[" * (depth - 1) + inner + "]" * (depth - 1) + "}"

    def body(self, usual):
        if self.chance(2):
            return self.nested()
        if self.chance(2):
            return self.value()
        members = []
        if usual != "@empty" or self.chance(20):
            members.append(self.metadata(usual))
        for field in self.random.sample(["Name", "F"], self.one_of([0, 1, 2, 2])):
            members.append(self.text(field) + ":" + self.text(self.words()))
        members += [f'"{field}":{value}' for field, value in self.for_maps() if self.chance(45)]
        return self.object(0, members)

    def for_maps(self):
        """Members that maps compute with and look other documents up by."""
        sizes = [0, 0, 1, 2, -1, -7, 7, 18, -36, 64, 65, 2**63 - 1, -(2**63), 2**62]
        yield "Age", self.one_of(sizes)
        yield "Count", self.one_of(sizes[:6])
        yield "When", self.text(self.one_of(DATES))
        yield "Ref", self.text(self.known_id() if self.chance(85) else "@index/" + self.one_of(INDEX_NAMES))

    def id(self):
        if self.chance(3):
            return self.one_of(["i" * 512, "i" * 513, "é" * 256, "é" * 256 + "x"])
        return self.one_of(IDS) if self.chance(40) else self.one_of(IDS[:7])

    def known_id(self):
        """Mostly the id of a row, in some case of letters."""
        rows = [row for row in self.database.store.rows.values() if row.collection != "@indexes" or self.chance(10)]
        if rows and self.chance(75):
            return self.in_other_case(self.one_of(rows).spelling)
        return self.one_of(SPACED) if self.chance(15) else self.id()

    def word_id(self):
        name = self.known_id() if self.chance(50) else self.id()
        return name if " " not in name else self.id()

    def usual_body(self, name):
        """An id keeps its collection, so most documents of one id are put into one."""
        if self.chance(0.3):
            return self.one_of(["", " "]) + padded(FILL + self.one_of([-1, 0, 0, 1, 2, 1000]))
        return self.body(USUAL.get(model.folded(name)[:1], "Users"))

    def vector(self, name):
        """Mostly the vector of the row, which is also that of the document if the row is no tombstone."""
        row = self.database.store.row(name)
        if row and self.chance(70):
            return model.vector_of(row.etag)
        return self.one_of(VECTORS)

    def member(self, name, right, wrong):
        """A member, now and then one that is wrong or of another name."""
        value = self.one_of(wrong) if self.chance(2) else right
        written = self.text(name.lower() if self.chance(1) else name)
        return written + self.space() + ":" + self.space() + value

    def command(self):
        """One command of a transaction, as JSON."""
        if self.chance(1):
            return self.value()
        name = self.known_id() if self.chance(98) else ""
        is_put = self.chance(65)
        kind = self.text("PUT" if is_put else "DELETE") if self.chance(98) else self.text(self.one_of(TYPES))
        parts = [self.member("Type", kind, NO_TEXTS), self.member("Id", self.text(name), NO_TEXTS)]
        if self.chance(40):
            vector = self.vector(name) if self.chance(85) else ""
            parts.append(self.member("ChangeVector", "null" if self.chance(15) else self.text(vector), NO_TEXTS[1:]))
        if is_put or self.chance(10):
            parts.append(self.member("Document", self.usual_body(name), NO_OBJECTS))
        if self.chance(1):
            parts.pop(self.random.randrange(len(parts)))
        if self.chance(5):
            parts.append(self.text(self.one_of(["Other", "type", "Id"])) + ":" + self.value(3))
        self.random.shuffle(parts)
        return "{" + ",".join(self.space() + part for part in parts) + "}"

    def bulk(self):
        commands = [self.command() for _ in range(self.one_of([0, 1, 1, 2, 2, 2, 3, 3, 5]))]
        parts = [self.member("Commands", "[" + ",".join(commands) + self.space() + "]", NO_LISTS)]
        if self.chance(5):
            parts.append(self.text(self.one_of(["commands", "Other"])) + ":" + self.value(3))
        body = "{" + ",".join(parts) + "}"
        return f"BULK {body if self.chance(97) else self.value()}"

    def stale(self):
        return f"STALE {self.live_name(15)}"

    def stats(self):
        return "STATS"

    def auto(self):
        collection = self.one_of(COLLECTIONS[:6] if self.chance(70) else COLLECTIONS)
        field = self.one_of(["Name", "F"] if self.chance(75) else FIELDS)
        if self.chance(4):
            return f"AUTO {self.one_of(['k' * 60, 'k' * 181, 'k' * 182, 'k' * 183, 'é' * 95])} {field}"
        return f"AUTO {collection} {field}"

    def size(self):
        return self.one_of(SIZES[:5] if self.chance(80) else SIZES)

    def pump(self):
        return f"PUMP {self.size()}"

    def live_name(self, missing=10):
        """Mostly the name of an index, in some case of letters. So many in a hundred are of none."""
        if self.chance(missing) or not self.database.indexes:
            return self.no_index()
        return self.in_other_case(self.one_of(self.database.indexes).name)

    def pump_one(self):
        return f"PUMP {self.size()} {self.live_name()}"

    def drop(self):
        return f"DROP {self.live_name()}"

    def switch(self):
        """Mostly of an index with another one beside it."""
        waiting = [index for index in self.database.indexes if self.database.replacement_of(index)]
        if waiting and self.chance(80):
            return f"SWITCH {self.in_other_case(self.one_of(waiting).name)}"
        return f"SWITCH {self.live_name(20)}"

    def tidy(self):
        return "TIDY"

    def clean(self):
        return "CLEAN"

    def worker(self):
        return self.one_of(WORKERS[:4] if self.chance(92) else WORKERS)

    def read(self):
        return f"READ {self.worker()} {self.size()} {self.live_name()}"

    def publish(self):
        """Mostly by a worker that holds something."""
        holding = list(self.database.held)
        return f"PUBLISH {self.one_of(holding) if holding and self.chance(80) else self.worker()}"

    def listed(self):
        return "INDEXES"

    def tree(self):
        """A map whose members mostly give texts, since a line finds nothing else."""
        tree = self.maps.loading() if self.chance(self.loading) else self.maps.tree()
        twin = model.Index(0, "", None)
        twin.table = {key: row for key, row in self.database.store.rows.items() if row.is_document()}
        rows = [row for row in twin.table.values() if row.collection == tree.collection]
        return self.maps.probed(tree, self.one_of(rows).body, twin.load) if rows else tree

    def definition(self):
        """The name, the map and the reduce, if there is one, of a definition: often one that serves already, in another spelling, or a broken one."""
        static = [index for index in self.database.indexes if isinstance(index.definition, model.Static)]
        if static and self.chance(35):
            index = self.one_of(static)
            tree = index.definition.tree
            text = index.definition.text if self.chance(20) else self.maps.text_of(tree)
            return self.in_other_case(own_name(index)), text, self.reduce_again(index.definition)
        name = self.one_of(ODD_NAMES if self.chance(8) else INDEX_NAMES)
        tree = self.tree()
        reduce = self.reduces.reduce_text([name for name, _ in tree.members]) if self.chance(25) else None
        return name, self.maps.broken(tree) if self.chance(30) else self.maps.text_of(tree), reduce

    def reduce_again(self, static):
        """The reduce of a definition in another spelling, or now and then another one."""
        if self.chance(15):
            return self.reduces.reduce_text(static.fields())
        if not static.reduce or self.chance(20):
            return static.reduce_text
        return self.reduces.joined(self.reduces.reduce_tokens(static.reduce))

    def index(self):
        name, text, reduce = self.definition()
        text = model.quoted(text) if self.chance(70) else self.text(text)
        parts = [self.member("Name", self.text(name), NO_TEXTS)]
        if self.chance(60):
            parts.append(self.member("Map", text, NO_MAPS))
        if len(parts) == 1 or self.chance(3):
            parts.append(self.member("Maps", f"[{text}]", NO_MAPS))
        if reduce is not None:
            parts.append(self.member("Reduce", model.quoted(reduce) if self.chance(70) else self.text(reduce), NO_REDUCES))
        elif self.chance(15):
            parts.append(self.member("Reduce", "null", NO_REDUCES))
        if self.chance(4):
            parts.append(self.text(self.one_of(["Other", "map", "Name", "Fields"])) + ":" + self.value(3))
        self.random.shuffle(parts)
        return "INDEX {" + ",".join(self.space() + part for part in parts) + "}"

    def in_other_case(self, text):
        return self.one_of([text, text, text.lower(), text.upper(), model.folded(text)])

    def no_index(self):
        return self.one_of(["n" * 214, "n" * 215, "é" * 107, "é" * 108, "a\tb", "x\x7f", "Auto/2", "auto/3", "Auto/None/ByX"])

    def texts_of(self, index):
        """The fields and texts by which an index finds something, or will once it is brought on."""
        twin = model.Index(0, "", index.definition)
        twin.table = {model.folded(row.spelling): row for row in self.database.read_by(index) if row.is_document()}
        entries = [*index.mapped()[0].values(), *twin.mapped()[0].values()]
        return [(field, text) for entry in entries for field, text in entry.items() if isinstance(text, str)]

    def find(self):
        loading = [index for index in self.database.indexes if len(index.definition.scope()) > 1]
        among = loading if self.chance(50) else self.database.indexes
        found = [(index, *pair) for index in among for pair in self.texts_of(index)]
        if found and self.chance(70):
            index, field, text = self.one_of(found)
            text = self.in_other_case(text).replace("\n", " ").replace("\r", " ")
            return f"FIND {self.in_other_case(index.name)} {field} {text}"
        if self.chance(25) or not self.database.indexes:
            return f"FIND {self.no_index()} {self.one_of(FIELDS)} {self.words()}"
        index = self.one_of(self.database.indexes)
        field = self.one_of((index.definition.fields() if self.chance(70) else FIELDS) or FIELDS)
        return f"FIND {self.in_other_case(index.name)} {field} {self.words()}"

    def question(self):
        """The text of a query, mostly of an index that is there."""
        if self.database.indexes and self.chance(75):
            index = self.one_of(self.database.indexes)
            name = self.in_other_case(index.name) if self.chance(97) else self.no_index()
            return self.questions.of_index(index, name)
        return self.questions.of_collection(self.one_of(COLLECTIONS[:6] if self.chance(90) else COLLECTIONS))

    def query(self):
        self.questions.parameters = {} if self.chance(4) else None
        return f"QUERY {self.question()}"

    def cutoff(self):
        etags = [0, self.database.store.last, 2**63 - 1, *(index.etag for index in self.database.indexes)]
        return str(max(0, self.one_of(etags) + self.one_of([-1, 0, 0, 1])) if self.chance(97) else self.one_of([-1, 2**63]))

    def page(self):
        return self.one_of(["0", "1", "1", "2", "3", "5", "9", "2147483647"] if self.chance(96) else ["-1", "2147483648"])

    def ask(self):
        return self.asked("ASK", self.question)

    def asked(self, word, question):
        """A line of this word with the members of a question."""
        self.questions.parameters = {}
        parts = [self.member("Query", self.text(question()), NO_TEXTS)]
        given = model.write_json(self.questions.parameters)
        parts += [self.member("QueryParameters", given, NO_OBJECTS)] if given != "{}" and self.chance(97) else []
        parts += [self.member("Start", self.page(), NO_NUMBERS)] if self.chance(35) else []
        parts += [self.member("PageSize", self.page(), NO_NUMBERS)] if self.chance(45) else []
        parts += [self.member("CutoffEtag", self.cutoff(), NO_NUMBERS)] if self.chance(30) else []
        parts += [self.member("WaitForNonStaleResults", self.one_of(["true", "false"]), NO_FLAGS)] if self.chance(15) else []
        looks = self.one_of(["1", "2", "7", "64"] if self.chance(93) else ["0", "65", "-1"])
        parts += [self.member("Looks", looks, NO_NUMBERS)] if self.chance(10) else []
        self.random.shuffle(parts)
        return word + " {" + ",".join(self.space() + part for part in parts) + "}"

    def other(self):
        return self.one_of(OTHERS)

    def spoiled(self, line):
        """The line with one byte or so changed."""
        if not line or not self.chance(8):
            return line
        at = self.random.randrange(len(line))
        kind = self.random.randrange(4)
        if kind == 0:
            return line[:at] + line[at + 1 :]
        if kind == 1:
            return line[:at] + bytes([self.random.randrange(256)]) + line[at:]
        if kind == 2:
            wrong = [b"\xff", b"\xc0\x80", b"\xed\xa0\x80", b"\xf4\x90\x80\x80", b"\xe2\x82", b" "]
            return line[:at] + self.one_of(wrong) + line[at + 1 :]
        return line[:at] + line[at : at + 1] + line[at:]

    def kinds_of_lines(self):
        kinds = [self.put] * 7 + [self.put_if] * 2 + [self.delete] * 3 + [self.delete_if] * 2 + [self.bulk] * 4 + [self.get] * 3
        kinds += [self.auto] * 2 + [self.pump] * 3 + [self.find] * 6 + [self.stale] * 2 + [self.stats, self.other]
        kinds += [self.query] * 5 + [self.ask] * 4 + [self.switch, self.tidy, self.clean, self.read, self.read, self.publish, self.publish]
        return kinds + [self.index] * 5 + [self.drop] + [self.listed] * 2 + [self.pump_one] * 2

    def line(self) -> bytes:
        return self.spoiled(self.one_of(self.kinds_of_lines())().encode())

    def script(self, count: int) -> bytes:
        parts = []
        for _ in range(count):
            line = self.line()
            if line:
                self.kinds[kind_of(model.answer(self.database, line))] += 1
            parts += [line, self.one_of([b"\n"] * 12 + [b"\r\n"] * 3 + [b"\r\r\n"])]
        if self.chance(30):
            parts.pop()
        return b"".join(parts)
