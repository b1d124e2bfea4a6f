#!/usr/bin/env python3
"""Tests of the model's optimiser: which automatic index a question uses, makes, widens and retires. The replies were worked out by hand.

    tools/test_optimiser.py

It needs no program. It ends with 0 if every test holds, and otherwise at the first assertion that does not.
"""

import sys

sys.dont_write_bytecode = True
from raven_tools import model
from raven_tools.making import worked, worked_choices
from raven_tools.making.lines import ask, definition
from raven_tools.model import keeping, opening
from raven_tools.transcripts import holds, replies_of

LAST = model.MAX_ETAG


def test_worked_scripts() -> None:
    for transcript in worked_choices.WORKED.values():
        holds(transcript, model.Database())


def names_of(*lines: str, found: model.Database | None = None) -> list[str]:
    """The names of the indexes that are used for questions of a collection or made for lines."""
    replies = replies_of(*lines, database=found or model.Database())
    return [reply["Index"] if "Index" in reply else reply["IndexName"] for reply in replies if {"Index", "IndexName"} & reply.keys()]


# Opening


def kept(etag: int, name: str, **body: object) -> keeping.KeptRow:
    return keeping.KeptRow(etag, "@index/" + name, "@indexes", model.write_json({"@metadata": {}, **body}), 0)


def test_versions() -> None:
    """Opening changes no row, and each shows what it has. What is put has the second version."""
    texts = {"Kind": "static", "Map": "from u in docs.U select new { u.A }", "Reduce": None}
    other = {**texts, "Map": "from u in docs.U select new { u.B }"}
    rows = [kept(1, "N", **texts), kept(2, "ReplacementOf/N", **other), kept(3, "M", **texts, Version=2)]
    found = opened(*rows)
    shown = [result["Definition"] for result in replies_of("INDEXES", database=found)[0]["Results"]]
    assert shown == [texts, other, {**texts, "Version": 2}]
    replies = replies_of("SWITCH N", "INDEXES", database=found)
    assert replies[0] == {"Etag": 4, "Switched": "N"}
    assert [result["Definition"] for result in replies[1]["Results"]] == [{**other, "Version": 2}, {**texts, "Version": 2}]


def auto(etag: int, name: str, *fields: str, collection: str = "C") -> keeping.KeptRow:
    """The row of an index of fields, each spelled by its joined path."""
    return kept(etag, name, Kind="auto", Collection=collection, Fields=[field.split(".") for field in fields])


def put(etag: int) -> keeping.KeptRow:
    return keeping.KeptRow(etag, "x", "C", '{"@metadata":{}}', 0)


def opened(*rows: keeping.KeptRow) -> model.Database:
    return opening.opened(keeping.Keeper(rows))


def bad(*rows: keeping.KeptRow) -> int | None:
    """The etag of the first bad row."""
    try:
        opened(*rows)
    except keeping.KeptBad as found:
        return found.etag
    return None


def test_opening() -> None:
    """Paths are in order of their joined bytes, each once; none of their parts is empty or has a mark of a joined one."""
    texts = {"Kind": "static", "Map": "from u in docs.U select new { u.A }", "Reduce": None}
    means = {"Kind": "static", "Map": worked.MEAN_MAP, "Reduce": worked.PRINTED_MEANS[0][0]}
    good = [auto(1, "Auto/x"), auto(1, "Auto/x", "A", "A.B", "B"), auto(1, "Auto/x", "A", "A-B", "A.B"), auto(1, "auto/x", "Z", "a", "é")]
    grouped = {"Kind": "auto-reduce", "Collection": "C", "Groups": [["A", "B"], ["C"]], "Sums": [["A"], ["B"]]}
    good += [kept(1, "Auto/x", **{**grouped, "Groups": groups, "Sums": sums}) for groups in ([], [["A"]]) for sums in ([], [["é"]])]
    good += [kept(1, "Auto/x", **{**grouped, "Collection": ""})]
    wrong = [auto(1, "x", "A"), auto(1, "Auto/x", "B", "A"), auto(1, "Auto/x", "A", "A"), auto(1, "Auto/x", ""), auto(1, "Auto/x", "A.")]
    wrong += [auto(1, "Auto/x", "A.B", "A-B"), auto(1, "Auto/x", "a", "Z"), auto(1, "Auto/x", "A("), auto(1, "Auto/x", "A)")]
    fields = [None, "A", {}, ["A"], [["A"], "B"], [[]], [[7]], [["A", ""]], [["A.B"]], [[["A"]]]]
    wrong += [kept(1, "Auto/x", Kind="auto", Collection="C", Fields=value) for value in fields]
    wrong += [kept(1, "Auto/x", **{**grouped, name: value}) for name in ("Groups", "Sums") for value in fields]
    wrong += [kept(1, "Auto/x", **{**grouped, name: None}) for name in ("Collection", "Kind")]
    wrong += [kept(1, "Auto/x", **{**grouped, "Fields": []}), kept(1, "Auto/x", Kind="auto", Collection="C", Groups=[], Sums=[])]
    wrong += [kept(1, "Auto/x", Kind="auto", Collection="C", Fields=[["A"]], More=None), kept(1, "x", **grouped)]
    # A row says that it is of the second version, or says nothing.
    good += [kept(1, "Auto/x", Version=2, **grouped), kept(1, "Auto/x", Kind="auto", Collection="C", Fields=[["A"]], Version=2)]
    good += [kept(1, "x", **texts, Version=2), kept(1, "x", **texts), kept(1, "x", **means, Version=2)]
    wrong += [kept(1, "Auto/x", **grouped, Version=value) for value in (1, 3, "2", None, True, [2])] + [kept(1, "x", **means)]
    wrong += [kept(1, "x", **texts, Version=value) for value in (1, 3, "2", None, False)] + [kept(1, "x", **texts, Version=2, More=1)]
    for row in good:
        assert bad(row) is None, row
    for row in wrong:
        assert bad(row) == 1, row
    index = opened(kept(3, "Auto/x", **grouped)).indexes[0]
    assert (index.number, index.name, index.etag) == (3, "Auto/x", 0)
    assert index.definition.body() == {**grouped, "Version": 2} and index.definition.fields() == ["A.B", "C", "count()", "sum(A)", "sum(B)"]


# The choice


def test_which_index_is_used() -> None:
    """A fresh one before a stale one, then that of the fewest fields, then that of the least number."""
    lines = ["AUTO C A", "QUERY from C where A = 1 and B = 1", "AUTO C A", "PUT x {[C]}", "AUTO C A", "PUMP 64 Auto/C/ByAAndB", "AUTO C A"]
    lines += ["PUT x {[C]}", "AUTO C A", "PUMP 64", "AUTO C A"]
    one, both = "Auto/C/ByA", "Auto/C/ByAAndB"
    assert names_of(*lines) == [one, both, one, one, both, one, one]
    rows = [auto(1, "Auto/1", "A", "C"), auto(2, "Auto/2", "A", "B"), auto(3, "Auto/3", "A", "B", "C"), put(4)]
    steps = [("", "Auto/1"), ("PUMP 1 Auto/3", "Auto/3"), ("PUMP 1 Auto/2", "Auto/2"), ("PUMP 1 Auto/1", "Auto/1")]
    found = opened(*rows)
    for line, used in steps:
        assert names_of(line, "AUTO C A", found=found) == [used], line
    assert names_of("AUTO C B", "QUERY from C where B = 1 order by C", found=found) == ["Auto/2", "Auto/3"]


def test_a_cutoff_does_not_count_in_the_choice() -> None:
    found = opened(auto(1, "Auto/1", "A"), auto(2, "Auto/2", "A", "B"), put(3))
    (reply,) = replies_of("PUMP 64 Auto/2", ask("from C where A = null", CutoffEtag=2), database=found)[1:]
    assert (reply["IndexName"], reply["TotalResults"], reply["IsStale"]) == ("Auto/2", 1, False)


def test_what_an_index_covers() -> None:
    """What is ordered counts as what is asked, and what is selected does not. Collections and parts are compared by their bytes."""
    made = [
        ("from C where A = 1 select B", "Auto/C/ByA"),
        ("from C where exists(A) or not A in (1, 2) select B", "Auto/C/ByA"),
        ("from C where A = 1 order by B", "Auto/C/ByAAndB"),
        ("from C order by B, A desc", "Auto/C/ByAAndB"),
        ("from C where true", "Auto/C/ByA"),
        ("from C where a = 1", "Auto/C/ByAAndBAnda"),
        ("from C where 'A'.B = 1", "Auto/C/ByAAndA.BAndBAnda"),
        ("from c where A = 1", "Auto/c/ByA/2"),
        ("from C group by A select count()", "Auto/C/ByCountReducedByA"),
        ("from C group by A where A = 1 order by count() select A", "Auto/C/ByCountReducedByA"),
        ("from C group by B, A, B", "Auto/C/ByCountReducedByAAndB"),
        ("from C group by A, B where B = 1", "Auto/C/ByCountReducedByAAndB"),
        ("from C group by A select sum(B)", "Auto/C/ByBAndCountReducedByA"),
        ("from C group by A where sum(A) = 1", "Auto/C/ByAAndBAndCountReducedByA"),
        ("from C group by A order by sum(B)", "Auto/C/ByBAndCountReducedByA"),
        ("from C group by A", "Auto/C/ByCountReducedByA"),
    ]
    found = names_of(*("QUERY " + text for text, _ in made))
    assert found == [name for _, name in made], found


def test_static_indexes_are_not_used() -> None:
    lines = [definition("S", "from c in docs.C select new { c.A }"), "QUERY from C where A = 1", "DROP S"]
    assert names_of(*lines) == ["S", "Auto/C/ByA"]


# The limits of what is made wider


def fields_of(found: model.Database) -> list[list[list[str]]]:
    return [index.definition.body()["Fields"] for index in found.indexes]


def test_sixty_four_fields() -> None:
    many = sorted(f"F{number}" for number in range(63))
    found = model.Database()
    lines = ["QUERY from C where " + " and ".join(f"{name} = 1" for name in many), "AUTO C G", "AUTO C H", "AUTO C G", "AUTO C F7"]
    lines += ["QUERY from C where G = 1 and H = 1", "AUTO D G"]
    assert names_of(*lines, found=found) == ["Auto/1", "Auto/2", "Auto/C/ByH", "Auto/2", "Auto/1", "Auto/C/ByGAndH", "Auto/D/ByG"]
    one = [[name] for name in many]
    assert fields_of(found) == [one, [*one, ["G"]], [["H"]], [["G"], ["H"]], [["G"]]]


def test_the_bytes_of_the_joined_paths() -> None:
    """65,536 bytes, in which the point between two parts counts."""
    long = "é" * 32_766
    for last, fits in (("abcd", True), ("abcde", False)):
        found = model.Database()
        names = names_of(f"AUTO C {long}", f"AUTO C {last}", found=found)
        assert names == ["Auto/1", "Auto/2" if fits else "Auto/C/By" + last]
        assert fields_of(found)[1] == ([[last], [long]] if fits else [[last]])
    for last, fits in (("a.bc", True), ("a.bcd", False)):
        found = model.Database()
        names_of(f"AUTO C {long}", f"QUERY from C where {last} = 1", found=found)
        assert fields_of(found)[1] == ([last.split("."), [long]] if fits else [last.split(".")])
    alone = "x" * 65_537
    assert names_of(f"AUTO C {alone}", f"AUTO C {alone}") == ["Auto/1", "Auto/1"]


def test_group_paths_do_not_count_as_bytes() -> None:
    group, first, second = "g" * 40_000, "x" * 15_000, "y" * 20_000
    found = model.Database()
    names = names_of(*(f"QUERY from C group by {group} select sum({path})" for path in (first, second)), found=found)
    assert names == ["Auto/1", "Auto/2"]
    assert [index.definition.body()["Sums"] for index in found.indexes] == [[[first]], [[first], [second]]]


# Names


def test_free_names() -> None:
    lines = ["AUTO Ab F", "AUTO aB F", "AUTO ab F", "DROP auto/AB/byf/2", "AUTO AB F", "AUTO aB F", "DROP Auto/Ab/ByF", "AUTO Ab F"]
    names = ["Auto/Ab/ByF", "Auto/aB/ByF/2", "Auto/ab/ByF/3", "Auto/AB/ByF/2", "Auto/aB/ByF/4", "Auto/Ab/ByF"]
    assert names_of(*lines) == names
    lines = ["QUERY from C group by A", "AUTO C CountReducedByA", "AUTO D AAndB", "DROP Auto/D/ByAAndB"]
    lines.append("QUERY from D where B = 1 and A = 1")
    assert names_of(*lines) == ["Auto/C/ByCountReducedByA", "Auto/C/ByCountReducedByA/2", "Auto/D/ByAAndB", "Auto/D/ByAAndB"]


def test_names_that_cannot_be() -> None:
    """A name has at most 200 bytes, with its number behind it, and no control characters. Else the number of the index is its name."""
    fits = "x" * 191
    lines = [f"AUTO C {fits}", f"AUTO c {fits}", f"AUTO D {fits}x", f"AUTO E {'é' * 95}", f"AUTO E2 {'é' * 95}", "AUTO a\tb F"]
    assert names_of(*lines) == ["Auto/C/By" + fits, "Auto/2", "Auto/3", f"Auto/E/By{'é' * 95}", f"Auto/E2/By{'é' * 95}", "Auto/6"]
    taken = [auto(3, "auto/6", "F", collection="D"), auto(4, "Auto/6/2", "F", collection="E"), put(5)]
    assert names_of(f"AUTO C {fits}x", found=opened(*taken)) == ["Auto/6/3"]


def test_names_of_groups() -> None:
    """The count is among the sums, by its bytes, also if a sum is of a field of that name."""
    named = [
        ("group by Company select sum(Count)", "Auto/O/ByCountAndCountReducedByCompany"),
        ("group by Company select sum(Cents)", "Auto/O/ByCentsAndCountAndCountReducedByCompany"),
        ("group by B.X, A order by sum(D.E)", "Auto/O/ByCountAndD.EReducedByAAndB.X"),
    ]
    assert names_of(*(f"QUERY from O {text}" for text, _ in named)) == [name for _, name in named]


# Columns


def test_columns_of_groups() -> None:
    """Of two columns of one name the last counts, also if nothing is selected."""
    lines = ['PUT x {"Count":"c","N":{"Count":4},"A":"x",[C]}']
    lines += ["QUERY from C group by Count", "QUERY from C group by A select sum(N.Count)"]
    asked = [
        ("group by Count", {"Count": 1}),
        ("group by Count select Count", {"Count": "c"}),
        ("group by Count select count(), Count", {"Count": "c"}),
        ("group by A", {"A": "x", "Count": 1}),
        ("group by A select A as Count, count()", {"Count": 1}),
        ("group by A select count(), A as Count", {"Count": "x"}),
        ("group by A select sum(N.Count), count() as B", {"B": 1, "N.Count": 4}),
    ]
    replies = replies_of(*lines, "PUMP 64", *(f"QUERY from C {text}" for text, _ in asked), database=model.Database())[4:]
    assert [reply["Results"] for reply in replies] == [[row] for _, row in asked], replies


# Refusals


def test_refusals_make_nothing() -> None:
    """What is refused whatever indexes there are is refused before one is looked for."""
    refused = [
        (ask("from C where A = $p"), {"Error": "NoParameter", "Name": "p"}),
        (ask("from C where startsWith(A, 1)"), {"Error": "NoParameter", "Name": "startsWith"}),
        (ask("from C where sum(A) = 1"), {"Error": "NotGrouped", "Name": "sum(A)"}),
        (ask("from C group by A select B"), {"Error": "NotGrouped", "Name": "B"}),
        (ask("from C where A = 1", Start=-1), {"Error": "BadPage"}),
        (ask("from C where A = 1", PageSize=2**31), {"Error": "BadPage"}),
    ]
    for line, reply in refused:
        assert replies_of(line, "STATS", database=model.Database()) == [reply, STATS], line


STATS = {"CountOfDocuments": 0, "CountOfIndexes": 0, "CountOfTombstones": 0, "LastDocEtag": 0}


def test_no_place_for_one_more() -> None:
    full = [f"AUTO c{number} F" for number in range(256)]
    refused, stats = {"Error": "TooManyIndexes"}, {**STATS, "CountOfIndexes": 256, "LastDocEtag": 256}
    lines = ["QUERY from Users where Name = 'a'", "STATS", "AUTO c0 G", "AUTO c7 F", "QUERY from c7 where F = $p", "STATS"]
    replies = [refused, stats, refused, {"Index": "Auto/c7/ByF"}, {"Error": "NoParameter", "Name": "p"}, stats]
    assert replies_of(*full, *lines, database=model.Database())[256:] == replies


def test_no_etag_for_one_more() -> None:
    spent = {"At": 0, "Error": "EtagsSpent", "Last": LAST}
    found = opened(auto(1, "Auto/1", "A"), put(LAST))
    replies = replies_of("QUERY from C where B = 1", "AUTO C B", "AUTO C A", "STATS", database=found)
    assert replies[:3] == [spent, spent, {"Index": "Auto/1"}] and replies[3]["CountOfIndexes"] == 1


def test_a_fault_of_the_keeper() -> None:
    keeper = keeping.Keeper(fails=[2])
    found = opening.opened(keeper)
    replies = replies_of("QUERY from C where A = 1", "STATS", "QUERY from C where A = 1", database=found)
    assert replies[:2] == [{"Error": "KeeperFault"}, STATS]
    assert replies[2]["IndexName"] == "Auto/C/ByA" and [row.id for row in keeper.rows] == ["@index/Auto/C/ByA"]


# Retirement


def tidied(*rows: keeping.KeptRow, lines: tuple[str, ...] = ()) -> list[str]:
    return replies_of(*lines, "TIDY", database=opened(*rows))[-1]["Retired"]


def test_what_is_retired() -> None:
    """An index all of whose fields another one has, which has more of them and has come at least as far."""
    a, ab, abc, bc = auto(1, "Auto/a", "A"), auto(2, "Auto/ab", "A", "B"), auto(3, "Auto/abc", "A", "B", "C"), auto(4, "Auto/bc", "B", "C")
    other = auto(5, "Auto/d", "A", collection="D")
    assert tidied(a, ab, other) == ["Auto/a"]
    assert tidied(a, ab, abc, bc, other) == ["Auto/a", "Auto/ab", "Auto/bc"]
    assert tidied(a, bc, other) == []
    assert tidied(auto(1, "Auto/1", "A"), auto(2, "Auto/2", "A")) == []
    behind = (a, ab, abc, put(4))
    assert tidied(*behind, lines=("PUMP 1 Auto/a",)) == ["Auto/ab"]
    assert tidied(*behind, lines=("PUMP 1 Auto/ab",)) == ["Auto/a"]
    assert tidied(*behind, lines=("PUMP 1 Auto/a", "PUMP 1 Auto/abc")) == ["Auto/a", "Auto/ab"]
    assert tidied(*behind, lines=("PUMP 1 Auto/a", "PUMP 1 Auto/ab")) == ["Auto/a"]


def test_what_is_retired_of_groups() -> None:
    """Sums are the fields of groups. Other groups, and an index without any, are of another kind."""
    grouped = {"Kind": "auto-reduce", "Collection": "C", "Groups": [["A"]]}
    few, more = kept(1, "Auto/1", **grouped, Sums=[]), kept(2, "Auto/2", **grouped, Sums=[["B"]])
    others = [auto(3, "Auto/3", "A", "B"), kept(4, "Auto/4", **{**grouped, "Groups": [["A"], ["B"]]}, Sums=[["B"], ["C"]])]
    assert tidied(few, more, *others) == ["Auto/1"]


def test_a_retirement_is_one_change() -> None:
    """If the keeper fails nothing goes. Switches before it stand. An index that has gone is made again under its name."""
    keeper = keeping.Keeper(fails=[8])
    found = opening.opened(keeper)
    lines = ["AUTO C A", "AUTO C B", "QUERY from C where A = 1 and D = 1"]
    lines += [definition("U", f"from u in docs.U select new {{ u.{field} }}") for field in "AB"]
    assert names_of(*lines, found=found)[:3] == ["Auto/C/ByA", "Auto/C/ByAAndB", "Auto/C/ByAAndBAndD"]
    assert replies_of("TIDY", "SWITCH U", database=found) == [{"Error": "KeeperFault"}, {"Error": "NoReplacement"}]
    assert len(found.indexes) == 4 and found.store.last == 7
    gone = ["Auto/C/ByA", "Auto/C/ByAAndB"]
    assert replies_of("TIDY", "TIDY", database=found) == [{"Retired": gone, "Switched": []}, {"Retired": [], "Switched": []}]
    assert [(row.etag, row.id, row.body is None) for row in keeper.rows[-2:]] == [
        (8, "@index/Auto/C/ByA", True),
        (9, "@index/Auto/C/ByAAndB", True),
    ]
    assert names_of("AUTO C A", "DROP Auto/C/ByAAndBAndD", "AUTO C A", found=found) == ["Auto/C/ByAAndBAndD", "Auto/C/ByA"]


def test_a_retirement_up_to_the_last_etag() -> None:
    found = opened(auto(1, "Auto/1", "A"), auto(2, "Auto/2", "B"), auto(3, "Auto/3", "A", "B"), put(LAST - 1))
    replies = replies_of("TIDY", "STATS", "DROP Auto/1", "TIDY", database=found)
    spent = {"At": 1, "Error": "EtagsSpent", "Last": LAST}
    assert replies[0] == spent and replies[1]["CountOfIndexes"] == 3 and replies[1]["LastDocEtag"] == LAST - 1
    assert replies[2:] == [{"Removed": "Auto/1"}, {**spent, "At": 0}]


def test_what_is_held_of_a_retired_index_is_gone() -> None:
    lines = ["AUTO C A", "PUT x {[C]}", "READ 0 64 Auto/C/ByA", "QUERY from C where A = 1 and B = 1", "TIDY", "PUBLISH 0"]
    replies = replies_of(*lines, database=model.Database())
    assert replies[4:] == [{"Retired": ["Auto/C/ByA"], "Switched": []}, {"Error": "Gone", "Number": 1}]


def main() -> int:
    for name, test in [(name, test) for name, test in globals().items() if name.startswith("test_")]:
        test()
        print(f"holds  {name}")
    return 0


if __name__ == "__main__":
    sys.exit(main())
