#!/usr/bin/env python3
"""Tests of the model's replacements and of its batches that workers hold: scripts whose replies were worked out by hand.

    tools/test_replacements.py

It needs no program. It ends with 0 if every test holds, and otherwise at the first assertion that does not.
"""

import sys

sys.dont_write_bytecode = True
from raven_tools import model
from raven_tools.making import worked_slots
from raven_tools.making.lines import definition
from raven_tools.model import keeping, opening
from raven_tools.transcripts import holds, replies_of

LAST = model.MAX_ETAG


def database(**more: object) -> model.Database:
    return model.Database(**more)


def map_of(field: str, collection: str = "U") -> str:
    return f"from u in docs.{collection} select new {{ u.{field} }}"


def beside(name: str) -> dict:
    return {"Index": "ReplacementOf/" + name}


def test_worked_scripts() -> None:
    for transcript in worked_slots.WORKED.values():
        holds(transcript, database())


def test_lines_that_are_unknown() -> None:
    """Numbers are tested before names."""
    unknown = {"Error": "UnknownLine"}
    wrong = ["READ", "READ 0", "READ 0 64", "READ 0 64 ", "READ 16 64 U", "READ 0 0 U", "READ 0 65537 U", "READ 0  U", "READ 16 64 a\tb"]
    wrong += ["READ x 64 U", "READ 0 00000000000000064 U", "PUBLISH", "PUBLISH ", "PUBLISH 16", "PUBLISH 0 ", "PUBLISH -1", "PUBLISH 1 x"]
    wrong += ["SWITCH", "SWITCH ", "switch U", "TIDY ", "TIDY x", "CLEAN ", "CLEAN x"]
    good = ["SWITCH U", "SWITCH " + "n" * 215, "READ 0 64 U", "READ 0 64 a\tb", "PUBLISH 00", "TIDY"]
    assert replies_of(*wrong, database=database()) == [unknown] * len(wrong)
    no_index = {"Error": "NoIndex", "Name": "U"}
    replies = [no_index, {"Error": "TooLong", "Len": 215}, no_index, {"At": 1, "Error": "Control"}, {"Error": "NothingHeld"}]
    assert replies_of(*good, database=database()) == [*replies, {"Retired": [], "Switched": []}]


def test_refusals_of_definitions_in_order() -> None:
    """A reserved name, one that is too long, no place for one more. What takes the place of another needs no place."""
    first, second, third = map_of("A"), map_of("B"), map_of("C")
    full = [definition(f"N{number}", first) for number in range(255)] + [definition("N0", second)]
    no_place, reserved = {"Error": "TooManyIndexes"}, {"Error": "ReservedName"}
    tried = [
        (definition("auto/" + "n" * 200, first), reserved),
        (definition("ReplacementOf/N0", first), reserved),
        (definition("n" * 201, first), {"Error": "NameTooLong", "Len": 201}),
        (definition("More", first), no_place),
        (definition("N1", second), no_place),
        (definition("n0", second), beside("N0")),
        (definition("N0", third), beside("N0")),
        (definition("N0", third), beside("N0")),
        (definition("N1", first), {"Index": "N1"}),
        ("STATS", {"CountOfDocuments": 0, "CountOfIndexes": 256, "CountOfTombstones": 0, "LastDocEtag": 257}),
        (definition("n0", first), {"Index": "N0"}),
        ("STATS", {"CountOfDocuments": 0, "CountOfIndexes": 255, "CountOfTombstones": 0, "LastDocEtag": 258}),
        (definition("N1", second), beside("N1")),
        (definition("N0", second), no_place),
        ("DROP N1", {"Removed": "N1"}),
        ("STATS", {"CountOfDocuments": 0, "CountOfIndexes": 254, "CountOfTombstones": 0, "LastDocEtag": 261}),
    ]
    replies = replies_of(*full, *(line for line, _ in tried), database=database())
    assert replies[255] == beside("N0")
    assert replies[256:] == [reply for _, reply in tried]


def test_refusals_of_switches_in_order() -> None:
    """No index, nothing beside it, no place for a note, what is not fresh."""
    lines = ["SWITCH U", definition("U", map_of("A")), "SWITCH U", "PUT u {[U]}", definition("U", map_of("B")), "SWITCH U", "PUMP 64"]
    lines += ["SWITCH U", "TIDY", "QUERY from index 'U' where A = null select A"]
    lines += [definition("V", map_of("A")), definition("V", map_of("B")), "PUMP 64", "SWITCH V"]
    no_index, none, full = {"Error": "NoIndex", "Name": "U"}, {"Error": "NoReplacement"}, {"Error": "NotesFull"}
    stale = {"Error": "NotFresh", "IndexEtag": 0, "Newest": 2}
    fields = {"Error": "NoField", "Name": "A"}
    none_left = {"Retired": [], "Switched": []}
    answer = {"Includes": {}, "IndexEtag": 3, "IndexName": "U", "IsStale": False, "Results": [{"A": None}], "TotalResults": 1}
    ways = [(0, [no_index, none, full, full, none_left, answer, full])]
    ways.append((1, [no_index, none, stale, {"Etag": 4, "Switched": "U"}, none_left, fields, full]))
    ways.append((2, [no_index, none, stale, {"Etag": 4, "Switched": "U"}, none_left, fields, {"Etag": 8, "Switched": "V"}]))
    for notes, expected in ways:
        asked = [(line, reply) for line, reply in zip(lines, replies_of(*lines, database=database(limits=model.Limits(notes=notes))))]
        found = [reply for line, reply in asked if line.startswith(("SWITCH", "TIDY", "QUERY"))]
        assert found == expected, (notes, found)


def test_rows_and_notes() -> None:
    """A switch puts one row and deletes one. A removal deletes that of the index before that of what is beside it."""
    found = database()
    lines = [definition("Foo", map_of("A")), "DROP Foo", definition("FOO", map_of("A")), definition("foo", map_of("B"))]
    replies_of(*lines, database=found)
    assert [index.name for index in found.indexes] == ["FOO", "ReplacementOf/FOO"]
    assert replies_of("SWITCH foo", database=found) == [{"Etag": 5, "Switched": "FOO"}]
    assert found.notes == [model.Note(5, "FOO", 3, 4, 0, 0)]
    rows = [found.store.row(name) for name in ("@index/foo", "@index/replacementof/foo")]
    assert [(row.etag, row.spelling, row.is_document()) for row in rows] == [
        (5, "@index/Foo", True),
        (6, "@index/ReplacementOf/FOO", False),
    ]
    assert rows[0].body == {"@metadata": {}, "Kind": "static", "Map": map_of("B"), "Reduce": None, "Version": 2}
    assert [(index.name, index.number) for index in found.indexes] == [("FOO", 4)]
    assert [(index.name, index.number) for index in found.opened().indexes] == [("Foo", 5)]
    replies_of(definition("FOO", map_of("C")), "DROP foo", database=found)
    etags = [(row.etag, row.is_document()) for row in map(found.store.row, ("@index/foo", "@index/replacementof/foo"))]
    assert etags == [(8, False), (9, False)] and found.indexes == []


def test_the_definition_that_serves_ends_what_is_beside_it() -> None:
    found = database()
    replies_of(definition("U", map_of("A")), definition("U", map_of("B")), "READ 0 64 ReplacementOf/U", "PUT u {[U]}", database=found)
    lines = ["READ 0 64 ReplacementOf/U", definition("u", map_of("A")), "PUBLISH 0", "SWITCH U", "STALE ReplacementOf/U"]
    assert replies_of(*lines, database=found) == [
        {"From": 0, "To": 3},
        {"Index": "U"},
        {"Error": "Gone", "Number": 2},
        {"Error": "NoReplacement"},
        {"Error": "NoIndex", "Name": "ReplacementOf/U"},
    ]


def test_names_of_variables_count() -> None:
    """Definitions are the same by their trees, which have the names of variables, and not by their texts."""
    lines = [definition("U", "from u in docs.U select new { u.A }"), definition("U", "from  u in docs.U select new { A = (u.A), }")]
    lines += [definition("U", "from v in docs.U select new { v.A }")]
    assert replies_of(*lines, database=database()) == [{"Index": "U"}, {"Index": "U"}, beside("U")]


# Opening


def kept(etag: int, name: str, body: dict | None) -> keeping.KeptRow:
    return keeping.KeptRow(etag, "@index/" + name, "@indexes", body and model.write_json({"@metadata": {}, **body}), 0)


STATIC = {"Kind": "static", "Map": map_of("A"), "Reduce": None}
OTHER = {"Kind": "static", "Map": map_of("B"), "Reduce": None}
AUTO = {"Kind": "auto", "Collection": "C", "Fields": [["F"]]}
BAD = {"Kind": "static", "Map": "from", "Reduce": None}


def opened(rows: list[keeping.KeptRow], **more: object) -> list[tuple[int, str]] | int:
    """The numbers and names of the indexes, or the etag of the first bad row."""
    try:
        found = opening.opened(keeping.Keeper(rows), **more)
    except keeping.KeptBad as bad:
        return bad.etag
    assert all(index.etag == 0 and not index.table for index in found.indexes) and not found.notes and not found.held
    return [(index.number, index.name) for index in found.indexes]


def test_opening_with_rows_of_replacements() -> None:
    """Either row may come first. What is beside no index is bad, and so is an automatic one, or one beside itself."""
    long = "n" * 200
    cases = [
        ([(1, "U", STATIC), (2, "ReplacementOf/U", OTHER)], [(1, "U"), (2, "ReplacementOf/U")]),
        ([(1, "ReplacementOf/U", OTHER), (2, "U", STATIC)], [(1, "ReplacementOf/U"), (2, "U")]),
        ([(1, "ReplacementOf/u", STATIC), (2, "U", STATIC)], [(1, "ReplacementOf/u"), (2, "U")]),
        ([(4, long, STATIC), (5, "ReplacementOf/" + long, OTHER)], [(4, long), (5, "ReplacementOf/" + long)]),
        ([(4, long + "n", STATIC), (5, "ReplacementOf/" + long + "n", OTHER)], 4),
        ([(5, "ReplacementOf/U", STATIC)], 5),
        ([(5, "ReplacementOf/U", STATIC), (6, "U", None)], 5),
        ([(3, "V", STATIC), (5, "ReplacementOf/U", STATIC)], 5),
        ([(1, "Auto/C/ByF", AUTO), (2, "ReplacementOf/Auto/C/ByF", AUTO)], 2),
        ([(1, "Auto/C/ByF", AUTO), (2, "ReplacementOf/Auto/C/ByF", STATIC)], 2),
        ([(1, "U", STATIC), (2, "ReplacementOf/U", AUTO)], 2),
        ([(1, "U", STATIC), (2, "ReplacementOf/U", OTHER), (3, "ReplacementOf/ReplacementOf/U", OTHER)], 3),
        ([(1, "U", STATIC), (2, "ReplacementOf/U", BAD)], 2),
        ([(1, "U", STATIC), (2, "ReplacementOf/", OTHER)], 2),
        ([(1, "ReplacementOf/U", STATIC), (2, "U", BAD)], 2),
        ([(1, "ReplacementOf/U", STATIC), (2, "V", BAD)], 1),
        ([(1, "V", BAD), (2, "ReplacementOf/U", STATIC)], 1),
        ([(1, "U", STATIC), (2, "ReplacementOf/U", None)], [(1, "U")]),
    ]
    for rows, expected in cases:
        assert opened([kept(*row) for row in rows]) == expected, rows
    pair = [kept(1, "U", STATIC), kept(2, "ReplacementOf/U", OTHER)]
    assert opened(pair, limits=model.Limits(slots=1)) == 2
    folded = opened([kept(1, "u", STATIC), kept(2, "REPLACEMENTOF/U", OTHER)])
    assert [(number, model.folded(name)) for number, name in folded] == [(1, "u"), (2, "replacementof/u")]


def test_what_was_built_beside_goes_on_after_an_opening() -> None:
    keeper = keeping.Keeper([kept(1, "ReplacementOf/U", OTHER), kept(2, "U", STATIC)])
    found = opening.opened(keeper)
    lines = ["PUT u {[U]}", "SWITCH U", "PUMP 1", "SWITCH U"]
    assert replies_of(*lines, database=found)[1:] == [
        {"Error": "NotFresh", "IndexEtag": 0, "Newest": 3},
        {"Pumped": [{"From": 0, "Index": "ReplacementOf/U", "To": 3}, {"From": 0, "Index": "U", "To": 3}]},
        {"Etag": 4, "Switched": "U"},
    ]
    assert [(row.etag, row.id, row.body is None) for row in keeper.rows] == [
        (3, "u", False),
        (4, "@index/U", False),
        (5, "@index/ReplacementOf/U", True),
    ]
    assert opened(keeper.rows) == [(4, "U")]


# Tidying


def waiting(names: list[str]) -> list[str]:
    """Defines indexes, and then something beside each. There are no documents, so all of it is fresh."""
    return [definition(name, map_of(field)) for field in "AB" for name in names]


def test_tidying_in_order_of_folded_names_up_to_a_fault() -> None:
    """What was switched before the keeper fails stands, and the rest goes on with the next line. The first call is that of the opening."""
    keeper = keeping.Keeper(fails=[9])
    found = opening.opened(keeper)
    replies_of(*waiting(["b", "A", "C"]), database=found)
    assert replies_of("TIDY", "SWITCH A", database=found) == [{"Error": "KeeperFault"}, {"Error": "NoReplacement"}]
    assert [index.name for index in found.indexes] == ["b", "C", "ReplacementOf/b", "A", "ReplacementOf/C"]
    assert [row.etag for row in keeper.rows] == [1, 3, 4, 6, 7, 8] and found.store.last == 8
    assert replies_of("TIDY", "TIDY", database=found) == [{"Retired": [], "Switched": ["b", "C"]}, {"Retired": [], "Switched": []}]
    assert [note.name for note in found.notes] == ["A", "b", "C"]


def test_a_failed_switch_leaves_the_old_definition() -> None:
    keeper = keeping.Keeper(fails=[5])
    found = opening.opened(keeper)
    lines = [*waiting(["U"]), "PUT u {[U]}", "PUMP 64", "TIDY", "QUERY from index 'U' where B = 1", "SWITCH U"]
    replies = replies_of(*lines, database=found)[4:]
    assert replies == [{"Error": "KeeperFault"}, {"Error": "NoField", "Name": "B"}, {"Etag": 4, "Switched": "U"}]


def test_tidying_up_to_the_last_etag() -> None:
    """The second switch has an etag for its put and none for its deletion."""
    keeper = keeping.Keeper([keeping.KeptRow(LAST - 7, "x", "@empty", '{"@metadata":{}}', 0)])
    found = opening.opened(keeper)
    replies_of(*waiting(["b", "A"]), database=found)
    spent = {"At": 1, "Error": "EtagsSpent", "Last": LAST}
    lines = ["TIDY", "SWITCH A", "SWITCH b", "PUT y {}", "SWITCH b", "DROP b"]
    replies = replies_of(*lines, database=found)
    assert replies[:3] == [spent, {"Error": "NoReplacement"}, spent]
    assert replies[4:] == [{**spent, "At": 0}, {**spent, "At": 0}]
    assert [index.name for index in found.indexes] == ["b", "ReplacementOf/b", "A"] and len(found.notes) == 1


def main() -> int:
    for name, test in [(name, test) for name, test in globals().items() if name.startswith("test_")]:
        test()
        print(f"holds  {name}")
    return 0


if __name__ == "__main__":
    sys.exit(main())
