#!/usr/bin/env python3
"""Tests of the model by itself: scripts whose replies were worked out by hand, and what has to hold of each script.

    tools/test_model.py

It needs no program. It ends with 0 if every test holds, and otherwise at the first assertion that does not.
"""

import collections
import sys

sys.dont_write_bytecode = True
from raven_tools import examples, model
from raven_tools.checks.sound import agrees, scratch
from raven_tools.making import MAKERS, case_scripts, limit_scripts, worked, worked_answers
from raven_tools.making.lines import definition
from raven_tools.making.random_scripts import kind_of
from raven_tools.transcripts import holds, replies_of

ADULTS = """
> INDEX {"Map":"from u in docs.Users where u.Age >= 18 select new { u.Name, Old = u.Age > 64 ? \\"yes\\" : \\"no\\" }",\
"Name":"Adults"}
> PUT users/1 {"Age":70,"Name":"Ada",[Users]}
> PUT users/2 {"Age":7,"Name":"Bo",[Users]}
> PUMP 64 Adults
> FIND Adults Old YES
> INDEX {"Map":"from u in docs.Users select new { v.Name }","Name":"B"}
< {"Index":"Adults"}
< {"ChangeVector":"A:2-{B}","Id":"users/1"}
< {"ChangeVector":"A:3-{B}","Id":"users/2"}
< {"Pumped":[{"From":0,"Index":"Adults","To":3}]}
< {"Ids":["users/1"],"IndexEtag":3,"IsStale":false}
< {"At":34,"Error":"UnknownName","Part":"Map"}
"""

LOADED = """
> INDEX {"Map":"from o in docs.Orders let c = LoadDocument(o.Company, \\"Companies\\") select new { c.Name }","Name":"O"}
> PUT orders/1 {"Company":"companies/1",[Orders]}
> PUMP 64
> FIND O Name acme
> PUT companies/1 {"Name":"Acme",[Companies]}
> FIND O Name acme
> PUMP 64
> FIND O Name acme
> DEL companies/1
> PUMP 64
> FIND O Name acme
< {"Index":"O"}
< {"ChangeVector":"A:2-{B}","Id":"orders/1"}
< {"Pumped":[{"From":0,"Index":"O","To":2}]}
< {"Ids":[],"IndexEtag":2,"IsStale":false}
< {"ChangeVector":"A:3-{B}","Id":"companies/1"}
< {"Ids":[],"IndexEtag":2,"IsStale":true}
< {"Pumped":[{"From":2,"Index":"O","To":3}]}
< {"Ids":["orders/1"],"IndexEtag":3,"IsStale":false}
< {"Deleted":true,"Id":"companies/1"}
< {"Pumped":[{"From":3,"Index":"O","To":4}]}
< {"Ids":[],"IndexEtag":4,"IsStale":false}
"""

# A square that does not fit: the order has no entry, and counts as failed.
SQUARES = """
> INDEX {"Map":"from o in docs.Orders select new { P = o.Cents * o.Cents }","Name":"Squares"}
> PUT orders/1 {"Cents":9223372036854775807,"Company":"b",[Orders]}
> PUMP 64
> INDEXES
< {"Index":"Squares"}
< {"ChangeVector":"A:2-{B}","Id":"orders/1"}
< {"Pumped":[{"From":0,"Index":"Squares","To":2}]}
< {"Results":[{"Definition":{"Kind":"static","Map":"from o in docs.Orders select new { P = o.Cents * o.Cents }","Reduce":null,"Version":2},\
"Entries":0,"Errors":1,"Etag":2,"IsStale":false,"Name":"Squares"}]}
"""

# The rows of a reduce have no ids. What is counted are the entries that its map gives.
TOTALS = """
> INDEX {"Map":"from o in docs.Orders select new { o.Company, Total = o.Cents }","Name":"T",\
"Reduce":"from r in results group r by r.Company into g select new { Company = g.Key, Total = g.Sum(x => x.Total) }"}
> PUT orders/1 {"Cents":4,"Company":"c",[Orders]}
> PUT orders/2 {"Cents":6,"Company":"c",[Orders]}
> FIND T Company c
> PUMP 64
> FIND T Company c
> INDEXES
> INDEX {"Map":"from o in docs.Orders select new { o.Company }","Name":"T",\
"Reduce":"from r in results group r by r.Company into g select new { Company = g.Key, Total = g.Sum(x => x.Total) }"}
> INDEX {"Map":"from o in docs.Orders select new { o.Company, Total = o.Cents }","Name":"T",\
"Reduce":"from r in results group r by r.Company into g select new { Company = g.Key, Total = g.Key }"}
> INDEX {"Map":"from o in docs.Orders select new { o.Company, Total = o.Cents }","Name":"T"}
< {"Index":"T"}
< {"ChangeVector":"A:2-{B}","Id":"orders/1"}
< {"ChangeVector":"A:3-{B}","Id":"orders/2"}
< {"Ids":[],"IndexEtag":0,"IsStale":true}
< {"Pumped":[{"From":0,"Index":"T","To":3}]}
< {"Ids":[],"IndexEtag":3,"IsStale":false}
< {"Results":[{"Definition":{"Kind":"static","Map":"from o in docs.Orders select new { o.Company, Total = o.Cents }",\
"Reduce":"from r in results group r by r.Company into g select new { Company = g.Key, Total = g.Sum(x => x.Total) }","Version":2},\
"Entries":2,"Errors":0,"Etag":3,"IsStale":false,"Name":"T"}]}
< {"At":0,"Error":"FieldsDiffer","Part":"Reduce"}
< {"At":76,"Error":"NotReducible","Part":"Reduce"}
< {"Index":"ReplacementOf/T"}
"""

# A field of the groups may be the quotient of two sums. What the map gives for it does not count.
MEANS = """
> INDEX {"Map":"from o in docs.Orders select new { o.Company, Total = o.Cents, Count = 1, Mean = 0 }","Name":"M",\
"Reduce":"from r in results group r by r.Company into g select new { Company = g.Key, Total = g.Sum(x => x.Total), \
Count = g.Sum(x => x.Count), Mean = g.Sum(x => x.Total) / g.Sum(x => x.Count) }"}
> PUT orders/1 {"Cents":-4,"Company":"c",[Orders]}
> PUT orders/2 {"Cents":-3,"Company":"c",[Orders]}
> PUMP 64
> QUERY from index 'M'
> QUERY from index 'M' where Mean < -2 select Company, Mean
> QUERY from index 'M' where Mean < -3
> DEL orders/1
> PUMP 64
> QUERY from index 'M' select Mean, Total
> GET @index/M
< {"Index":"M"}
< {"ChangeVector":"A:2-{B}","Id":"orders/1"}
< {"ChangeVector":"A:3-{B}","Id":"orders/2"}
< {"Pumped":[{"From":0,"Index":"M","To":3}]}
< {"Includes":{},"IndexEtag":3,"IndexName":"M","IsStale":false,"Results":[{"Company":"c","Count":2,"Mean":-3,"Total":-7}],"TotalResults":1}
< {"Includes":{},"IndexEtag":3,"IndexName":"M","IsStale":false,"Results":[{"Company":"c","Mean":-3}],"TotalResults":1}
< {"Includes":{},"IndexEtag":3,"IndexName":"M","IsStale":false,"Results":[],"TotalResults":0}
< {"Deleted":true,"Id":"orders/1"}
< {"Pumped":[{"From":3,"Index":"M","To":4}]}
< {"Includes":{},"IndexEtag":4,"IndexName":"M","IsStale":false,"Results":[{"Mean":-3,"Total":-3}],"TotalResults":1}
< {"@metadata":{"@change-vector":"A:1-{B}","@collection":"@indexes","@id":"@index/M","@last-modified":"1970-01-01T00:00:00.0000000Z"},\
"Kind":"static","Map":"from o in docs.Orders select new { o.Company, Total = o.Cents, Count = 1, Mean = 0 }",\
"Reduce":"from r in results group r by r.Company into g select new { Company = g.Key, Total = g.Sum(x => x.Total), \
Count = g.Sum(x => x.Count), Mean = g.Sum(x => x.Total) / g.Sum(x => x.Count) }","Version":2}
"""

# Definition rows may be loaded too. Then each definition and removal counts, also those of the index itself.
OF_DEFINITIONS = """
> INDEX {"Map":"from o in docs.Orders let d = LoadDocument(o.Index, \\"@indexes\\") select new { d.Kind, d.Map }","Name":"D"}
> STALE D
> PUT orders/1 {"Index":"@index/d",[Orders]}
> PUMP 64
> FIND D Kind static
> AUTO Orders Index
> FIND D Kind static
> PUMP 64 d
> PUT orders/1 {"Index":"@index/Auto/Orders/ByIndex",[Orders]}
> PUMP 64 d
> FIND D Kind auto
> DROP auto/orders/byindex
> FIND D Kind auto
> PUMP 64
> FIND D Kind auto
< {"Index":"D"}
< {"IndexEtag":0,"IsStale":true,"Newest":1}
< {"ChangeVector":"A:2-{B}","Id":"orders/1"}
< {"Pumped":[{"From":0,"Index":"D","To":2}]}
< {"Ids":["orders/1"],"IndexEtag":2,"IsStale":false}
< {"Index":"Auto/Orders/ByIndex"}
< {"Ids":["orders/1"],"IndexEtag":2,"IsStale":true}
< {"Pumped":[{"From":2,"Index":"D","To":3}]}
< {"ChangeVector":"A:4-{B}","Id":"orders/1"}
< {"Pumped":[{"From":3,"Index":"D","To":4}]}
< {"Ids":["orders/1"],"IndexEtag":4,"IsStale":false}
< {"Removed":"Auto/Orders/ByIndex"}
< {"Ids":["orders/1"],"IndexEtag":4,"IsStale":true}
< {"Pumped":[{"From":4,"Index":"D","To":5}]}
< {"Ids":[],"IndexEtag":5,"IsStale":false}
"""

# A query shows of what is found only what is still there, and counts all of it.
GONE = """
> PUT users/1 {"Name":"Ada",[Users]}
> AUTO Users Name
> PUMP 64
> DEL USERS/1
> QUERY from index 'Auto/Users/ByName' where Name = 'ada'
> PUMP 64
> QUERY from index 'Auto/Users/ByName' where Name = 'ada'
< {"ChangeVector":"A:1-{B}","Id":"users/1"}
< {"Index":"Auto/Users/ByName"}
< {"Pumped":[{"From":0,"Index":"Auto/Users/ByName","To":2}]}
< {"Deleted":true,"Id":"users/1"}
< {"Includes":{},"IndexEtag":2,"IndexName":"Auto/Users/ByName","IsStale":true,"Results":[],"TotalResults":1}
< {"Pumped":[{"From":2,"Index":"Auto/Users/ByName","To":3}]}
< {"Includes":{},"IndexEtag":3,"IndexName":"Auto/Users/ByName","IsStale":false,"Results":[],"TotalResults":0}
"""

APPEARS = """
> INDEX {"Map":"from o in docs.Orders let c = LoadDocument(o.Company, \\"Companies\\") select new { c.Name }","Name":"O"}
> PUT orders/1 {"Company":"companies/1",[Orders]}
> PUMP 64
> QUERY from index 'O' where Name = 'acme' select Company
> PUT companies/1 {"Name":"Acme",[Companies]}
> QUERY from index 'O' where Name = 'acme' select Company
> PUMP 64
> QUERY from index 'O' where Name = 'acme' select Company include Company
> QUERY from index 'O' order by Name where Name = 'a'
> QUERY from index 'O' where Name = 1.5
> QUERY from index 'O' where Size = 1
> QUERY from Orders select Company
> QUERY from Orders where Company = 'companies/1'
< {"Index":"O"}
< {"ChangeVector":"A:2-{B}","Id":"orders/1"}
< {"Pumped":[{"From":0,"Index":"O","To":2}]}
< {"Includes":{},"IndexEtag":2,"IndexName":"O","IsStale":false,"Results":[],"TotalResults":0}
< {"ChangeVector":"A:3-{B}","Id":"companies/1"}
< {"Includes":{},"IndexEtag":2,"IndexName":"O","IsStale":true,"Results":[],"TotalResults":0}
< {"Pumped":[{"From":2,"Index":"O","To":3}]}
< {"Includes":{"companies/1":{"@metadata":{"@change-vector":"A:3-{B}","@collection":"Companies","@id":"companies/1",\
"@last-modified":"1970-01-01T00:00:00.0000000Z"},"Name":"Acme"}},"IndexEtag":3,"IndexName":"O","IsStale":false,\
"Results":[{"Company":"companies/1"}],"TotalResults":1}
< {"At":29,"Error":"ClauseOrder"}
< {"At":28,"Error":"BadNumber"}
< {"Error":"NoField","Name":"Size"}
< {"Includes":{},"IndexEtag":3,"IndexName":"collection/Orders","IsStale":false,"Results":[{"Company":"companies/1"}],"TotalResults":1}
< {"Includes":{},"IndexEtag":0,"IndexName":"Auto/Orders/ByCompany","IsStale":true,"Results":[],"TotalResults":0}
"""

# Groups come and go with their documents, and a sum may be outside 64 bits.
GROUPS = """
> INDEX {"Map":"from o in docs.Orders select new { o.Company, Total = o.Cents, Low = o.Cents, High = o.Cents }","Name":"T",\
"Reduce":"from r in results group r by r.Company into g select new { Company = g.Key, Total = g.Sum(x => x.Total), \
Low = g.Min(x => x.Low), High = g.Max(x => x.High) }"}
> BULK {"Commands":[{"Document":{"Cents":4,"Company":"c",[Orders]},"Id":"orders/1","Type":"PUT"},\
{"Document":{"Cents":6,"Company":"c",[Orders]},"Id":"orders/2","Type":"PUT"},\
{"Document":{"Cents":5,"Company":"c",[Orders]},"Id":"orders/3","Type":"PUT"}]}
> PUMP 64
> QUERY from index 'T'
> DEL orders/2
> PUMP 64
> QUERY from index 't'
> BULK {"Commands":[{"Id":"orders/1","Type":"DELETE"},{"Id":"orders/3","Type":"DELETE"},\
{"Document":{"Cents":5,"Company":"z",[Orders]},"Id":"orders/4","Type":"PUT"},\
{"Document":{"Cents":-5,"Company":"z",[Orders]},"Id":"orders/5","Type":"PUT"}]}
> PUMP 64
> QUERY from index 'T'
> BULK {"Commands":[{"Id":"orders/4","Type":"DELETE"},{"Id":"orders/5","Type":"DELETE"}]}
> PUMP 64
> QUERY from index 'T'
> BULK {"Commands":[{"Document":{"Cents":9223372036854775807,"Company":"b",[Orders]},"Id":"orders/6","Type":"PUT"},\
{"Document":{"Cents":9223372036854775807,"Company":"b",[Orders]},"Id":"orders/7","Type":"PUT"}]}
> PUMP 64
> QUERY from index 'T' select Total
< {"Index":"T"}
< {"Results":[{"ChangeVector":"A:2-{B}","Id":"orders/1","Type":"PUT"},{"ChangeVector":"A:3-{B}","Id":"orders/2","Type":"PUT"},\
{"ChangeVector":"A:4-{B}","Id":"orders/3","Type":"PUT"}]}
< {"Pumped":[{"From":0,"Index":"T","To":4}]}
< {"Includes":{},"IndexEtag":4,"IndexName":"T","IsStale":false,"Results":[{"Company":"c","High":6,"Low":4,"Total":15}],"TotalResults":1}
< {"Deleted":true,"Id":"orders/2"}
< {"Pumped":[{"From":4,"Index":"T","To":5}]}
< {"Includes":{},"IndexEtag":5,"IndexName":"T","IsStale":false,"Results":[{"Company":"c","High":5,"Low":4,"Total":9}],"TotalResults":1}
< {"Results":[{"Deleted":true,"Id":"orders/1","Type":"DELETE"},{"Deleted":true,"Id":"orders/3","Type":"DELETE"},\
{"ChangeVector":"A:8-{B}","Id":"orders/4","Type":"PUT"},{"ChangeVector":"A:9-{B}","Id":"orders/5","Type":"PUT"}]}
< {"Pumped":[{"From":5,"Index":"T","To":9}]}
< {"Includes":{},"IndexEtag":9,"IndexName":"T","IsStale":false,"Results":[{"Company":"z","High":5,"Low":-5,"Total":0}],"TotalResults":1}
< {"Results":[{"Deleted":true,"Id":"orders/4","Type":"DELETE"},{"Deleted":true,"Id":"orders/5","Type":"DELETE"}]}
< {"Pumped":[{"From":9,"Index":"T","To":11}]}
< {"Includes":{},"IndexEtag":11,"IndexName":"T","IsStale":false,"Results":[],"TotalResults":0}
< {"Results":[{"ChangeVector":"A:12-{B}","Id":"orders/6","Type":"PUT"},{"ChangeVector":"A:13-{B}","Id":"orders/7","Type":"PUT"}]}
< {"Pumped":[{"From":11,"Index":"T","To":13}]}
< {"Includes":{},"IndexEtag":13,"IndexName":"T","IsStale":false,"Results":[{"Total":"18446744073709551614"}],"TotalResults":1}
"""

# Up to a cutoff an index may be fresh that is stale without it.
CUTOFFS = """
> AUTO C F
> PUT x {[C]}
> PUT y {[C]}
> PUT x {[C]}
> PUMP 1
> ASK {"CutoffEtag":3,"Query":"from index 'Auto/C/ByF' select F"}
> ASK {"CutoffEtag":4,"Query":"from index 'Auto/C/ByF' select F"}
> ASK {"CutoffEtag":0,"Query":"from index 'Auto/C/ByF' select F"}
> ASK {"Query":"from index 'Auto/C/ByF' select F"}
< {"Index":"Auto/C/ByF"}
< {"ChangeVector":"A:2-{B}","Id":"x"}
< {"ChangeVector":"A:3-{B}","Id":"y"}
< {"ChangeVector":"A:4-{B}","Id":"x"}
< {"Pumped":[{"From":0,"Index":"Auto/C/ByF","To":3}]}
< {"Includes":{},"IndexEtag":3,"IndexName":"Auto/C/ByF","IsStale":false,"Results":[{"F":null}],"TotalResults":1}
< {"Includes":{},"IndexEtag":3,"IndexName":"Auto/C/ByF","IsStale":true,"Results":[{"F":null}],"TotalResults":1}
< {"Includes":{},"IndexEtag":3,"IndexName":"Auto/C/ByF","IsStale":false,"Results":[{"F":null}],"TotalResults":1}
< {"Includes":{},"IndexEtag":3,"IndexName":"Auto/C/ByF","IsStale":true,"Results":[{"F":null}],"TotalResults":1}
"""


def test_worked_scripts():
    for worked in (ADULTS, LOADED, SQUARES, TOTALS, MEANS, OF_DEFINITIONS, GONE, APPEARS, GROUPS, CUTOFFS):
        holds(worked)


def test_examples():
    found = examples.in_files()
    assert found
    for example in found:
        assert model.replies(example.script) == example.expected, example.name


def test_names():
    """Of a name the faults come in order: what can be no name, then the map, then what may not be defined."""
    good, bad = "from u in docs.U select new { u.A }", "from u in docs.U select new { v.A }"
    unknown = {"At": 30, "Error": "UnknownName", "Part": "Map"}
    reserved = {"Error": "ReservedName"}
    cases = [
        ("n" * 215, bad, {"Error": "TooLong", "Len": 215}),
        ("n" * 214, bad, unknown),
        ("n" * 214, good, {"Error": "NameTooLong", "Len": 214}),
        ("n" * 201, good, {"Error": "NameTooLong", "Len": 201}),
        ("é" * 100 + "n", good, {"Error": "NameTooLong", "Len": 201}),
        ("n" * 200, good, {"Index": "n" * 200}),
        ("é" * 100, good, {"Index": "é" * 100}),
        ("auto/" + "n" * 200, good, reserved),
        ("AUTO/x", bad, unknown),
        ("AUTO/x", good, reserved),
        ("replacementOF/x", good, reserved),
        ("ReplacementOf", good, {"Index": "ReplacementOf"}),
        ("auto", good, {"Index": "auto"}),
    ]
    for name, text, reply in cases:
        found = replies_of(definition(name, text))
        assert found == [reply], (name, found)


def test_places_of_indexes():
    """A place that a removal leaves is free again. Another definition under a live name needs one too."""
    autos = [f"AUTO c{number} F" for number in range(model.MAX_SLOTS)]
    index = 'INDEX {"Map":"from u in docs.U select new { u.%s }","Name":"N"}'
    full, made = {"Error": "TooManyIndexes"}, {"Index": "N"}
    more = [("AUTO more F", full), ("AUTO c0 F", {"Index": "Auto/c0/ByF"}), ("AUTO c0 G", full), (index % "A", full)]
    more += [("DROP Auto/c7/ByF", {"Removed": "Auto/c7/ByF"}), (index % "A", made), (index % "B", full), (index % "A", made)]
    more += [("AUTO more F", full)]
    assert replies_of(*autos, *(line for line, _ in more))[len(autos) :] == [reply for _, reply in more]


def test_openings():
    """After a removal a definition has its own spelling; once the file is opened again, that of the row."""
    database = model.Database()
    index = 'INDEX {"Map":"from u in docs.U select new { u.A }","Name":"%s"}'
    for line in [index % "N", "DROP n", index % "n"]:
        model.answer(database, line.encode())
    assert [index.name for index in database.indexes] == ["n"]
    opened = database.opened()
    assert [(index.name, index.number, index.etag) for index in opened.indexes] == [("N", 3, 0)]
    assert model.answer(opened, b"DROP n") == {"Removed": "N"}


def test_scripts():
    """The scripts for `tools/compare.py` can be made, and those of maps reach each reply that a definition can get."""
    assert len(dict(limit_scripts.at_the_limits())) > 40
    kinds = collections.Counter()
    for name, script in case_scripts.at_the_limits():
        replies = [model.read_json(reply) for reply in model.replies(script).split(b"\n")[:-1]]
        kinds.update(map(kind_of, replies))
        if name == "what each expression gives":
            found = [reply["Ids"] for reply in replies if "Ids" in reply]
            assert found.count(["u"]) > 100
        if name == "each date":
            counts = [len(reply["Ids"]) for reply in replies if "Ids" in reply]
            assert counts == [len(worked.LEAP_DAYS) + len(worked.NO_DATES), len(worked.YEARS), 0], counts
        if name == "how many meet each condition":
            totals = [reply["TotalResults"] for reply in replies if "TotalResults" in reply]
            assert totals[: 3 * len(worked_answers.CONDITIONS) : 3] == [len(letters) for *_, letters in worked_answers.CONDITIONS]
        if name == "what each condition finds":
            letters = ["".join(result["Letter"] for result in reply["Results"]) for reply in replies if "Results" in reply]
            expected = [letters for *_, letters in worked_answers.CONDITIONS + worked_answers.SORTS]
            order = worked_answers.SORTS[0][1]
            assert letters == [*expected, *(order[start : start + 4] for start in (0, 3, 17, 20))]
        if name == "what is found of the rows of a reduce":
            teams = [[result["Team"] for result in reply["Results"]] for reply in replies if "Results" in reply]
            found = [[worked_answers.TOTALS[at][0] for at in places] for _, places in worked_answers.ON_TOTALS]
            assert teams[: len(found)] == found
    expected = "Index Removed indexes BadMember Empty TooLong Control Unexpected TooLarge UnknownName DuplicateField"
    expected += " FieldsDiffer NotReducible ClauseOrder BadNumber NoParameter NotGrouped BadPage NoField"
    for kind in [*expected.split(), "ReservedName", "NameTooLong", "NoIndex", "TooManyIndexes", "UnknownLine", "TooDeep", "NotJson"]:
        assert kinds[kind], kind


def test_what_holds_of_each_script():
    """After each line of random scripts each index agrees with the store, and one that is not stale has all of it. Some have a reduce."""
    fresh = reduced = 0
    for seed in range(48):
        database = model.Database()
        script = MAKERS[seed % len(MAKERS)](seed).script(40)
        for line in filter(None, model.lines(script)):
            before = database.store.last
            model.answer(database, line)
            assert before <= database.store.last
            for index in database.indexes:
                assert agrees(database, index)
                if not database.is_stale(index):
                    fresh += bool(index.table)
                    reduced += bool(index.table and index.definition.reduce)
                    assert index.mapped() == scratch(database, index)
    assert fresh > 1_000 and reduced > 50, (fresh, reduced)


def main():
    sys.setrecursionlimit(10_000)
    tests = [(name, test) for name, test in globals().items() if name.startswith("test_")]
    for name, test in tests:
        test()
        print(f"holds  {name}")
    return 0


if __name__ == "__main__":
    sys.exit(main())
