"""What has to hold of a database after each line of any script: of what it is then, of how it came from what it was, and of the reply.

It is said of stores and tables anew, and not by how the model makes them.
"""

from raven_tools import language, model
from raven_tools.model import multi
from raven_tools.model.asking import Ask, found_in_rows, in_json, of_index, read_query, reply_of, values_in
from raven_tools.model.definitions import Definition, Document, Entry, scalar_at
from raven_tools.model.indexes import REPLACEMENT, is_replacement
from raven_tools.model.json import read_json
from raven_tools.model.lines import ask_of, parts_of
from raven_tools.queries import answers, binding
from raven_tools.queries.trees import COUNT, Path, Query, in_order, joined, sum_name
from raven_tools.scalars import is_number, place_of

Table = dict[str, model.Row]


# Tables


def in_scope(database: model.Database, definition: Definition) -> Table:
    scope = definition.scope()
    return {key: row for key, row in database.store.rows.items() if row.collection in scope}


def is_recorded(database: model.Database, definition: Definition, table: Table, etag: int) -> bool:
    """Whether the table has exactly what the store has up to the etag, as far as that is still there."""
    rows = in_scope(database, definition)
    for key, row in rows.items():
        if row.etag <= etag and table.get(key) is not (row if row.is_document() else None):
            return False
    return all(key in rows and 1 <= row.etag <= min(etag, rows[key].etag) for key, row in table.items())


def agrees(database: model.Database, index: model.Index) -> bool:
    return index.etag <= database.store.last and is_recorded(database, index.definition, index.table, index.etag)


def is_fresh(database: model.Database, index: model.Index) -> bool:
    return all(row.etag <= index.etag for row in in_scope(database, index.definition).values())


def whole(database: model.Database, index: model.Index) -> model.Index:
    """The index with all documents that it reads."""
    twin = model.Index(index.number, index.name, index.definition)
    twin.etag = index.etag
    twin.table = {key: row for key, row in in_scope(database, index.definition).items() if row.is_document()}
    return twin


def scratch(database: model.Database, index: model.Index) -> tuple[dict[str, Entry], int]:
    """What the index would find in all documents of the store."""
    return whole(database, index).mapped()


# A database by itself


def check_names(database: model.Database) -> None:
    """Names are distinct. A replacement is by text and has its index beside it; an index is automatic exactly if its name says so."""
    names = [model.folded(index.name) for index in database.indexes]
    assert len(set(names)) == len(names), names
    for index, name in zip(database.indexes, names):
        is_static = isinstance(index.definition, model.Static)
        own = name.removeprefix("replacementof/")
        assert name == own or is_static and own in names, name
        assert not own.startswith("replacementof/") and own.startswith("auto/") != is_static, name


def check_numbers(database: model.Database) -> None:
    """Numbers rise, and there are not more indexes and notes than there may be. What was switched in had come as far as it had to."""
    numbers = [0, *(index.number for index in database.indexes)]
    assert all(left < right for left, right in zip(numbers, numbers[1:])) and numbers[-1] <= database.store.last, numbers
    assert len(database.indexes) <= database.limits.slots and len(database.notes) <= database.limits.notes
    etags = [note.etag for note in database.notes]
    assert etags == sorted(set(etags)) and all(note.newest <= note.index_etag for note in database.notes), database.notes


def check_rows(database: model.Database) -> None:
    """Each live row of a definition is that of one index."""
    rows = database.store.rows
    live = {key for key, row in rows.items() if row.collection == "@indexes" and row.is_document()}
    assert live == {"@index/" + model.folded(index.name) for index in database.indexes}, live
    for index in database.indexes:
        body = rows["@index/" + model.folded(index.name)].body
        assert body == {"@metadata": {}, **index.definition.body()}, index.name


def check_held(database: model.Database) -> None:
    """What a worker holds may be put in at any time, unless tombstones past it were cleaned since it was read."""
    for batch in database.held.values():
        index = database.numbered(batch.number)
        assert batch.cleaned <= database.store.cleaned
        if index and not batch.cleaned < database.store.cleaned > batch.etag:
            assert batch.etag <= database.store.last
            assert is_recorded(database, index.definition, batch.table, batch.etag), index.name


def check_cleaned(store: model.Store) -> None:
    """What is cleaned is below the last etag, and no tombstone is left up to there."""
    assert store.last == max([row.etag for row in store.rows.values()], default=0)
    assert store.cleaned == 0 or store.cleaned < store.last, store.cleaned
    assert all(row.is_document() or row.etag > store.cleaned for row in store.rows.values()), store.cleaned


def check_alone(database: model.Database) -> None:
    check_names(database)
    check_numbers(database)
    check_rows(database)
    check_held(database)
    check_cleaned(database.store)


# A line


def check_tables(before: model.Database, after: model.Database) -> None:
    """Each index agrees with the store, and a fresh one has what it would find anew. What did not change was looked at before."""
    is_store_same = before.store.rows == after.store.rows and before.store.cleaned == after.store.cleaned
    for index in after.indexes:
        was = before.numbered(index.number)
        if is_store_same and was and was.table == index.table and was.etag == index.etag:
            continue
        assert agrees(after, index), index.name
        assert not is_fresh(after, index) or index.mapped() == scratch(after, index), index.name


def check_store(before: model.Store, after: model.Store) -> None:
    """Rows are only written again, under new etags, and keep their collections and spellings. Only tombstones that are cleaned go."""
    assert before.last <= after.last and before.cleaned <= after.cleaned
    assert all(row.etag > before.last or before.rows.get(key) is row for key, row in after.rows.items())
    for key, row in before.rows.items():
        now = after.rows.get(key)
        if now is None:
            assert not row.is_document() and before.cleaned < row.etag <= after.cleaned, key
        else:
            assert (now.collection, now.spelling) == (row.collection, row.spelling) and now.etag >= row.etag, key


def check_clean(before: model.Database, after: model.Database, reply: dict) -> None:
    """Exactly the tombstones went that no index has to read any more, but for the row with the greatest etag."""
    bounds = [index.etag for index in before.indexes if index.etag > 0]
    upto = min([*bounds, before.store.last, max(before.store.last - 1, 0)])
    old = {key for key, row in before.store.rows.items() if not row.is_document() and row.etag <= upto}
    assert reply == {"Cleaned": len(old), "Upto": upto}, reply
    assert set(before.store.rows) - set(after.store.rows) == old and before.store.last == after.store.last, old
    assert after.store.cleaned == (upto if old else before.store.cleaned), upto


def check_definitions(before: model.Database, after: model.Database) -> None:
    """A number keeps its definition and does not fall back. A name is served as before, by a new index, or by one that a note names."""
    added = after.notes[len(before.notes) :]
    assert after.notes[: len(before.notes)] == before.notes
    noted = {(model.folded(note.name), note.new) for note in added}
    for index in after.indexes:
        was, served = before.numbered(index.number), before.serving(index.name)
        assert was or index.number > before.store.last, index.name
        assert not was or was.definition is index.definition and was.etag <= index.etag, index.name
        is_noted = (model.folded(index.name), index.number) in noted
        assert not was or was is served or is_noted, index.name
        if served and not is_replacement(index.name) and served.definition is not index.definition:
            assert is_noted, index.name
    for note in added:
        check_switch(before, after, note)


def check_switch(before: model.Database, after: model.Database, note: model.Note) -> None:
    """What took a name was built beside it, and had everything that it reads of the store as it was."""
    old, new = before.numbered(note.old), before.numbered(note.new)
    assert old and new and old is before.serving(note.name), note
    assert model.folded(new.name) == "replacementof/" + model.folded(note.name), note
    assert after.numbered(note.old) is None and new.etag == note.index_etag and before.store.last < note.etag <= after.store.last, note
    read = in_scope(after, new.definition).values()
    assert all(row.etag <= new.etag or row.etag >= note.etag for row in read), note
    assert is_recorded(before, new.definition, new.table, new.etag), note


def state(database: model.Database) -> tuple:
    """What a refused line leaves as it was."""
    indexes = [(index.number, index.name, index.etag) for index in database.indexes]
    return database.store.last, database.store.cleaned, database.store.rows, database.notes, indexes


# Automatic indexes

Kind = tuple[str, tuple[Path, ...] | None]  # the collection, and the groups if there are any


def kept_by(definition: Definition) -> tuple[Kind, set[Path]] | None:
    """Of an automatic index its kind, and its fields or sums."""
    if isinstance(definition, model.Auto):
        return (definition.collection, None), set(definition.paths)
    if isinstance(definition, model.AutoReduce):
        return (definition.collection, definition.groups), set(definition.sums)
    return None


def asked_by(line: bytes, reply: dict) -> tuple[Kind, set[Path]] | None:
    """What an `AUTO`, or a query of some documents of a collection, asks of an index, if it is answered by one."""
    if line.startswith(b"AUTO ") and "Index" in reply:
        _, collection, field = line.decode().split(" ")
        return (collection, None), {(field,)}
    if "IndexName" not in reply or not binding.is_dynamic(ask_in(line).query):
        return None
    query = ask_in(line).query
    named = list(binding.named(query))
    if query.groups:
        return (query.origin[1], in_order(query.groups)), {field[1] for _, field in named if field[0] == "sum"}
    return (query.origin[1], None), {field[1] for clause, field in named if clause != "select"}


def is_before(database: model.Database, left: model.Index, right: model.Index) -> bool:
    """Fresh before stale, then fewer fields before more, then the earlier one."""
    if is_fresh(database, left) != is_fresh(database, right):
        return is_fresh(database, left)
    widths = [len(kept_by(index.definition)[1]) for index in (left, right)]
    return widths[0] < widths[1] or widths[0] == widths[1] and left.number < right.number


def check_made(before: model.Database, after: model.Database, kind: Kind, fields: set[Path]) -> None:
    """The last index is new. It has what is asked, and what all of its kind have, unless that is too much."""
    new = after.indexes[-1]
    alike = [kept[1] for kept in (kept_by(index.definition) for index in before.indexes) if kept and kept[0] == kind]
    every = fields.union(*alike)
    is_too_wide = len(every) > 64 or sum(len(".".join(path).encode()) for path in every) > 65_536
    assert kept_by(new.definition) == (kind, fields if is_too_wide else every), new.name
    assert new.number == before.store.last + 1 and not before.serving(new.name) and len(new.name.encode()) <= 200, new.name


def check_choice(before: model.Database, after: model.Database, line: bytes, reply: dict) -> None:
    """What answers is the first of the indexes that can, and only if none can it is a new one."""
    asked = asked_by(line, reply)
    if asked is None:
        return
    name = reply.get("Index", reply.get("IndexName"))
    kept = [(index, kept_by(index.definition)) for index in before.indexes]
    able = [index for index, has in kept if has and has[0] == asked[0] and has[1] >= asked[1]]
    if not able:
        assert after.indexes[-1].name == name and len(after.indexes) == len(before.indexes) + 1, name
        return check_made(before, after, *asked)
    used = before.serving(name)
    assert used in able and all(other is used or is_before(before, used, other) for other in able), name
    assert before.store.last == after.store.last, name


def check_retired(before: model.Database, after: model.Database, reply: dict) -> None:
    """Of each retired index another one has all that it has, and more, and has come as far; of each that stays none does."""
    kept = {index: kept_by(index.definition) for index in before.indexes if kept_by(index.definition)}

    def outdoes(other: model.Index, index: model.Index) -> bool:
        return kept[other][0] == kept[index][0] and kept[other][1] > kept[index][1] and other.etag >= index.etag

    retired = [index for index in kept if any(outdoes(other, index) for other in kept)]
    assert reply["Retired"] == [index.name for index in retired], reply
    assert all(any(outdoes(other, index) for other in kept if other not in retired) for index in retired), reply
    assert not any(after.numbered(index.number) for index in retired), reply


def check_several(before: model.Database, after: model.Database, line: bytes, reply: dict) -> None:
    """Each index that the reply names has the definition of its part. If a part was refused, what is new is of the parts before it."""
    new = [index.name for index in after.indexes if index.number > before.store.last]
    if "Error" in reply and not new:
        return
    parts = parts_of(read_json(line.removeprefix(b"MULTI ")))
    own = [model.folded(name) for name, _ in parts]
    places = [own.index(model.folded(name.removeprefix(REPLACEMENT))) for name in new]
    assert places == sorted(places), new
    assert "Error" not in reply or own[-1] not in map(own.__getitem__, places), reply
    for (_, definition), name in zip(parts, reply.get("Indexes", ())):
        assert after.serving(name).definition.is_same(definition), name


def check_line(before: model.Database, after: model.Database, line: bytes, reply: dict) -> None:
    is_several = line.startswith(b"MULTI ")
    check_alone(after)
    if is_several:
        check_several(before, after, line, reply)
    check_choice(before, after, line, reply)
    if "Retired" in reply:
        check_retired(before, after, reply)
    if line == b"CLEAN" and "Error" not in reply:
        check_clean(before, after, reply)
    else:
        assert before.store.cleaned == after.store.cleaned, line
    check_tables(before, after)
    check_store(before.store, after.store)
    check_definitions(before, after)
    assert "Error" not in reply or line == b"TIDY" or is_several or state(before) == state(after), reply
    assert before.held == after.held or line.startswith((b"READ ", b"PUBLISH ")), line


# Answers


def ask_in(line: bytes) -> Ask:
    """What a line asks that was answered."""
    word, _, rest = line.decode().partition(" ")
    return Ask(read_query(rest)) if word == "QUERY" else ask_of(read_json(rest.encode()))


def row_of(query: Query, group: list[Document]) -> Entry:
    """The row of a group of documents, with its count and the sums that are asked for."""
    row: Entry = {joined(path): scalar_at(group[0], path) for path in query.groups}
    row[COUNT] = len(group)
    for path in {field[1] for _, field in binding.named(query) if field[0] == "sum"}:
        row[sum_name(path)] = sum(filter(is_number, (scalar_at(body, path) for body in group)))
    return row


def rows_of(query: Query, bodies: list[Document]) -> list[Entry]:
    groups: dict[tuple, list[Document]] = {}
    for body in bodies:
        key = tuple(place_of(scalar_at(body, path)) for path in in_order(query.groups))
        groups.setdefault(key, []).append(body)
    return [row_of(query, groups[key]) for key in sorted(groups)]


def directly(database: model.Database, ask: Ask) -> tuple[int, list[Document]]:
    """How many documents or groups of them a query finds, and what it shows, without any index."""
    query, base = ask.query, database.store.base
    rows = [row for _, row in sorted(database.store.rows.items()) if row.is_document() and row.collection == query.origin[1]]
    if query.groups:
        groups = rows_of(query, [row.body for row in rows])
        found = answers.found(query, groups, values_in, ask.parameters)
        on_page = answers.page(found, ask.start, ask.size)
        shown = [answers.selected(query, values_in(row)) for row in on_page]
        return len(found), [{name: in_json(value) for name, value in row.items()} for row in shown]
    found = answers.found(query, rows, lambda row: lambda path: scalar_at(row.body, path), ask.parameters)
    on_page = answers.page(found, ask.start, ask.size)
    if not query.columns:
        return len(found), [row.shown(base) for row in on_page]
    return len(found), [answers.selected(query, lambda path: answers.at_path(row.body, path)) for row in on_page]


def check_of_several(database: model.Database, ask: Ask, reply: dict) -> bool:
    """The flag, the etag and the rows of several maps. The rows of the parts' rows are those of their entries, and, if no part is stale, those
    of all documents."""
    parts = multi.parts_of(database, ask.query.origin[1])
    reduce = parts[0].definition.reduce
    unseen = [row.etag for part in parts for row in in_scope(database, part.definition).values() if row.etag > part.etag]
    assert reply["IsStale"] is any(ask.cutoff is None or etag <= ask.cutoff for etag in unseen), reply
    entries = [list(part.mapped()[0].values()) for part in parts]
    rows = language.rows_of(reduce, [row for some in entries for row in language.rows_of(reduce, some)])
    assert rows == language.rows_of(reduce, [entry for some in entries for entry in some]), rows
    if not unseen:
        assert rows == language.rows_of(reduce, [entry for part in parts for entry in scratch(database, part)[0].values()]), rows
    expected = reply_of(database, found_in_rows(ask, rows), ask.query.origin[1], min(part.etag for part in parts), reply["IsStale"])
    assert model.write_json(reply) == model.write_json(expected), reply
    return not unseen


def check_answer(database: model.Database, line: bytes, reply: dict) -> bool:
    """Whether the reply is one of an index, or of several maps, that is fresh without a cutoff. Then it is what all documents give."""
    if line.startswith(b"MASK ") and "IndexName" in reply:
        return check_of_several(database, ask_in(line), reply)
    if reply.get("IsStale") is not False or "IndexName" not in reply:
        return False
    ask = ask_in(line)
    index = database.serving(reply["IndexName"])
    if ask.cutoff is not None or index is None:
        return False
    assert is_fresh(database, index), line
    expected = of_index(database, ask, whole(database, index))
    assert model.write_json(reply) == model.write_json(expected), line
    if binding.is_dynamic(ask.query):
        total, results = directly(database, ask)
        assert model.write_json([reply["TotalResults"], reply["Results"]]) == model.write_json([total, results]), line
    return True
