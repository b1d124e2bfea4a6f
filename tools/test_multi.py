#!/usr/bin/env python3
"""Tests of the model's indexes of several maps: scripts whose replies were worked out by hand.

    tools/test_multi.py

It needs no program. It ends with 0 if every test holds, and otherwise at the first assertion that does not.
"""

import json
import random
import sys

sys.dont_write_bytecode = True
from raven_tools import language, model
from raven_tools.making import worked_multi
from raven_tools.transcripts import holds, replies_of

REDUCE = "from r in results group r by r.A into g select new { A = g.Key }"


def map_of(collection: str) -> str:
    return f"from u in docs.{collection} select new {{ u.A }}"


def line(**members: object) -> str:
    return "MULTI " + json.dumps(members)


def multi(*maps: str, name: str = "N", reduce: str = REDUCE) -> str:
    return line(Maps=maps, Name=name, Reduce=reduce)


def test_worked_scripts() -> None:
    for transcript in worked_multi.WORKED.values():
        holds(transcript, model.Database())


def test_refusals() -> None:
    """The name, the maps, the reduce, and then the texts, each part's map and reduce before those of the next. None of the parts is then defined."""
    one = map_of("U")
    maps, texts = [one, one], {"Maps": [one, one], "Reduce": REDUCE}
    unknown = "from u in docs.U select new { v.A }"

    def member(name: str) -> dict:
        return {"Error": "BadMember", "Name": name}

    tried = [
        ("MULTI", {"Error": "UnknownLine"}),
        ("MASK", {"Error": "UnknownLine"}),
        ("MULTI {", {"Error": "NotJson"}),
        ("MULTI []", member("body")),
        ("MASK []", member("body")),
        ("MULTI {}", member("Name")),
        (line(Name=7, Maps=[], Reduce=REDUCE), member("Name")),
        (line(Name="n" * 213, **texts), {"Error": "TooLong", "Len": 215}),
        (line(Name="a\tb", **texts), {"At": 1, "Error": "Control"}),
        (line(Name="n" * 213, Maps=[], Reduce=None), {"Error": "TooLong", "Len": 215}),
        (line(Name="n" * 212, **texts), {"Error": "NameTooLong", "Len": 214}),
        (line(Name="N", Reduce=7), member("Maps")),
        (line(Name="N", Map=one, Reduce=REDUCE), member("Maps")),
        (line(Name="N", Maps=one, Reduce=REDUCE), member("Maps")),
        (line(Name="N", Maps=[one], Reduce=REDUCE), member("Maps")),
        (line(Name="N", Maps=[one] * 9, Reduce=REDUCE), member("Maps")),
        (line(Name="N", Maps=[one, 7], Reduce=7), member("Maps")),
        (line(Name="N", Maps=maps), member("Reduce")),
        (line(Name="N", Maps=maps, Reduce=None), member("Reduce")),
        (multi(one, unknown), {"At": 30, "Error": "UnknownName", "Part": "Map"}),
        (multi(one, "from u in docs.U select new { u.B }"), {"At": 0, "Error": "FieldsDiffer", "Part": "Reduce"}),
        (multi(one, unknown, reduce="from"), {"At": 4, "Error": "Unexpected", "Part": "Reduce"}),
        ('MASK {"Query":"from"}', {"At": 4, "Error": "Unexpected"}),
        ('MASK {"Query":"from Users group by A where B = 1"}', {"Error": "NotGrouped", "Name": "B"}),
        ('MASK {"Query":"from index \'N\' select count()","Start":-1}', {"Error": "BadPage"}),
        ('MASK {"Query":"from index \'N\' select B"}', {"Error": "NoIndex", "Name": "N"}),
    ]
    database = model.Database()
    for text, reply in tried:
        assert replies_of(text, database=database) == [reply], (text, replies_of(text, database=database), reply)
    assert database.indexes == [] and database.store.last == 0


def test_names() -> None:
    """The names of the parts are the name, a sign, and their numbers. Eight maps are read, and more parts may be defined by themselves. The etag
    is that of the part that is furthest back: 0 if a part has read no row, also if there is none for it to read."""
    database = model.Database()
    assert replies_of(multi(*[map_of("U")] * 8, name=""), database=database) == [{"Indexes": [f"/{number}" for number in range(1, 9)]}]
    rest = [f'INDEX {{"Map":"{map_of("V")}","Name":"/{number}","Reduce":"{REDUCE}"}}' for number in (9, 10)]
    replies_of(*rest, 'PUT v {"A":1,"@metadata":{"@collection":"V"}}', "PUMP 64", database=database)
    (reply,) = replies_of("MASK {\"Query\":\"from index ''\"}", database=database)
    assert reply["Results"] == [{"A": 1}] and reply["IndexEtag"] == 0 and not reply["IsStale"]
    replies_of("DROP /9", 'PUT v {"A":2,"@metadata":{"@collection":"V"}}', 'PUT u {"@metadata":{"@collection":"U"}}', "PUMP 64", database=database)
    (reply,) = replies_of("MASK {\"Query\":\"from index ''\"}", database=database)
    assert reply["Results"] == [{"A": None}] and reply["IndexEtag"] == 14 and not reply["IsStale"]


def test_one_reduce() -> None:
    """Reduces are the same by their trees. A part without one, also the first, is not of one reduce."""
    other = "from r in results group r by r.A into h select new { A = h.Key }"
    spelled = "from r in results group r by new{r.A}into g select new{g.Key.A,}"
    for first, second, at in [(REDUCE, other, 2), (REDUCE, spelled, None), (None, REDUCE, 1), (REDUCE, None, 2), (None, None, 1)]:
        database = model.Database()
        lines = [f"INDEX {json.dumps({'Map': map_of('U'), 'Name': f'N/{number}', 'Reduce': text})}" for number, text in ((1, first), (2, second))]
        reply = replies_of(*lines, 'MASK {"Query":"from index \'n\'"}', database=database)[-1]
        assert reply == {"Error": "NotOneReduce", "Number": at} if at else reply["Results"] == [], (first, second, reply)


def test_against_one_map(rounds: int = 60) -> None:
    """If the parts map parts of one collection, fresh answers are those of an index that maps all of it."""
    reduce = "from r in results group r by r.K into g select new { K = g.Key, T = g.Sum(x => x.T), L = g.Min(x => x.L) }"
    for seed in range(rounds):
        source = random.Random(seed)
        database = model.Database()
        maps = [f"from u in docs.U where u.P == {part} select new {{ u.K, u.T, u.L }}" for part in range(3)]
        replies_of(multi(*maps, reduce=reduce), database=database)
        whole = json.dumps({"Map": "from u in docs.U select new { u.K, u.T, u.L }", "Name": "All", "Reduce": reduce})
        replies_of(f"INDEX {whole}", database=database)
        for _ in range(12):
            values = {"P": source.randrange(3), "K": source.choice([None, "a", "A", 1]), "T": source.choice([5, -7, "x", None]), "L": source.choice([None, 2, "b", True])}
            body = json.dumps({**values, "@metadata": {"@collection": "U"}})
            replies_of(source.choice([f"PUT u/{source.randrange(6)} {body}", f"PUMP {source.randint(1, 4)}", f"DEL u/{source.randrange(6)}"]), database=database)
        replies_of("PUMP 64", database=database)
        text = source.choice(["", " where T > 0", " order by T as long desc, L", " where K = 'a' select T, L as M"])
        found = [replies_of(f"{word} {json.dumps({'Query': f'from index {name!r}' + text})}", database=database)[0] for word, name in (("MASK", "N"), ("ASK", "All"))]
        names = [one.pop("IndexName") for one in found]
        assert names == ["N", "All"] and found[0] == found[1] and not found[0]["IsStale"], (seed, found)


def main() -> int:
    for name, test in [(name, test) for name, test in globals().items() if name.startswith("test_")]:
        test()
        print(f"holds  {name}")
    return 0


if __name__ == "__main__":
    sys.exit(main())
