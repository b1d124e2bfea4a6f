"""What a file keeps, seen by the library of SQLite; and which files are left as they were."""

import collections.abc
import contextlib
import pathlib
import resource
import shutil
import signal
import sqlite3
import subprocess
import tempfile

from raven_tools import model
from raven_tools.checks.killable import PATIENCE, Run
from raven_tools.making.lines import bulk, delete, get, put, put_command
from raven_tools.model import keeping, messages, opening
from raven_tools.places import DATA
from raven_tools.programs import number_of, run

COLUMNS = "key, etag, id, collection, body, changed"
# One that has the name of ours, but not its columns.
OTHER_COLUMNS = "CREATE TABLE kept (key TEXT PRIMARY KEY, etag INTEGER) STRICT"
OTHER_TABLE = "CREATE TABLE other (a INTEGER) STRICT"
# The table of the files that older programs made, letter by letter.
OLD_TABLE = (
    "CREATE TABLE kept (key TEXT NOT NULL PRIMARY KEY, etag INTEGER NOT NULL UNIQUE, id TEXT NOT NULL,"
    " collection TEXT NOT NULL, body TEXT, changed INTEGER NOT NULL) STRICT"
)
# One that differs from it in a letter.
NEARLY_OLD = OLD_TABLE.replace("etag INTEGER NOT NULL UNIQUE", "etag INTEGER NOT NULL unique")
# The bytes of a page of a new file.
SMALL = 512
# More rows than are loaded at once.
MANY = keeping.PAGE + 476
# The greatest size of a file for a run that is to find its disk full, in bytes.
FULL = 524_288


def script_of(lines: collections.abc.Iterable[str]) -> bytes:
    return "".join(line + "\n" for line in lines).encode()


def is_so(holds: bool, name: str, found: object) -> bool:
    if not holds:
        print(f"{name}: {found!r}")
    return holds


def says(ended: subprocess.CompletedProcess[bytes], said: str, name: str) -> bool:
    """Whether a run has ended so, with nothing else on standard error."""
    found = ended.returncode, ended.stderr.decode(errors="replace")
    return is_so(found == (number_of(said), said), name, found)


def is_done(ended: subprocess.CompletedProcess[bytes], name: str) -> bool:
    return says(ended, messages.message_of("Done"), name)


def answers(program: str, file: pathlib.Path, lines: list[str], database: model.Database, name: str) -> bool:
    """Whether the program over the file gives the replies of the model."""
    expected = model.replies(script_of(lines), database)
    ended = run(program, script_of(lines), "--data", file)
    return is_done(ended, name) and is_so(model.at_no_moment(ended.stdout) == expected, name, ended.stdout[:500])


def make(file: pathlib.Path, sql: str) -> None:
    with contextlib.closing(sqlite3.connect(file)) as connection:
        connection.execute(sql)
        connection.commit()


def rows_in(file: pathlib.Path) -> list[tuple]:
    """The rows in order of etag, each with whether it has a moment in place of the moment."""
    with contextlib.closing(sqlite3.connect(file)) as connection:
        found = connection.execute(f"SELECT {COLUMNS} FROM kept ORDER BY etag").fetchall()
    return [(*row[:-1], row[-1] > 0) for row in found]


def wanted_rows(database: model.Database) -> list[tuple]:
    kept = [keeping.kept(row) for row in database.store.rows.values()]
    return [(model.folded(row.id), row.etag, row.id, row.collection, row.body, True) for row in kept]


def rows(program: str, folder: pathlib.Path) -> bool:
    """A row for each id: what was written last, under the spelling of the first write, and a tombstone for a deletion."""
    file, database = folder / "rows", model.Database()
    user = '{"Name":"Zoé","@metadata":{"@collection":"Users"}}'
    lines = [put("Users/1", user), put("é", "{}"), put("c", "{}"), delete("C"), put("users/1", user), bulk(put_command("b"), put_command("É"))]
    written = answers(program, file, lines, database, "rows in a file")
    return written and is_so(rows_in(file) == wanted_rows(database), "the table", rows_in(file))


def many(program: str, folder: pathlib.Path) -> bool:
    """More rows than are loaded at once open again."""
    file, database = folder / "many", model.Database()
    puts = [put_command(f"d/{number}", f'{{"Number":{number}}}') for number in range(MANY)]
    filled = answers(program, file, [bulk(*puts[first : first + 500]) for first in range(0, MANY, 500)], database, "many rows")
    asked = ["STATS", *(get(f"d/{number}") for number in range(MANY))]
    return filled and answers(program, file, asked, database.opened(), "many rows opened again")


def facts(file: pathlib.Path) -> tuple[str, int, str]:
    """The text of the table, the bytes of a page, and what SQLite finds wrong in the file, or "ok"."""
    with contextlib.closing(sqlite3.connect(file)) as connection:
        (text,) = connection.execute("SELECT sql FROM sqlite_schema WHERE sql IS NOT NULL").fetchone()
        (page,) = connection.execute("PRAGMA page_size").fetchone()
        (check,) = connection.execute("PRAGMA integrity_check").fetchone()
    return text, page, check


def small(program: str, folder: pathlib.Path) -> bool:
    """A new file has small pages, and so has one that was empty; SQLite finds nothing wrong in them, whatever was replaced."""
    right = True
    lines = [put(f"d/{number % 70}", f'{{"Number":{number},"Text":"{"x" * (number % 90 * 20)}"}}') for number in range(300)]
    for name in ("new", "empty"):
        file = folder / name
        if name == "empty":
            file.write_bytes(b"")
        database = model.Database()
        written = answers(program, file, lines, database, f"a {name} file") and answers(program, file, [get("D/7")], database.opened(), f"a {name} file again")
        _, page, check = facts(file)
        right &= written and is_so((page, check) == (SMALL, "ok"), f"the pages of a {name} file", (page, check))
        right &= is_so(rows_in(file) == wanted_rows(database), f"the rows of a {name} file", rows_in(file)[:3])
    return right


def make_old(file: pathlib.Path, database: model.Database, mode: str) -> None:
    """A file of an older program that stores this database."""
    with contextlib.closing(sqlite3.connect(file)) as connection:
        connection.execute("PRAGMA page_size = 4096")
        connection.execute(f"PRAGMA journal_mode = {mode}")
        connection.execute(OLD_TABLE)
        for row in map(keeping.kept, database.store.rows.values()):
            values = (model.folded(row.id), row.etag, row.id, row.collection, row.body, 63_000_000_000_000_000)
            connection.execute(f"INSERT INTO kept ({COLUMNS}) VALUES (?, ?, ?, ?, ?, ?)", values)
        connection.commit()


def old(program: str, folder: pathlib.Path) -> bool:
    """A file of an older program opens with what it stores, is written, opens again, and keeps its table."""
    right = True
    before = [put("Users/1", '{"Name":"Zoé"}'), *(put(f"d/{number}", "{}") for number in range(40)), delete("D/3"), put("users/1", "{}")]
    more = [get("users/1"), get("d/3"), put("D/4", '{"Name":"Ada"}'), delete("d/5"), bulk(put_command("new"), put_command("d/3")), "STATS"]
    for mode in ("DELETE", "WAL"):
        file, database = folder / f"old-{mode}", model.Database()
        model.replies(script_of(before), database)
        make_old(file, database, mode)
        database = database.opened()
        right &= answers(program, file, more, database, "a file of an older program")
        right &= answers(program, file, [get("d/4"), get("new"), "STATS"], database.opened(), "the same once more")
        right &= is_so(rows_in(file) == wanted_rows(database), "its rows", rows_in(file)[:3])
        right &= is_so(facts(file) == (OLD_TABLE, 4096, "ok"), "its table", facts(file))
    return right


def kept_in(file: pathlib.Path) -> keeping.Keeper:
    """A keeper of the rows of a file, at no moment."""
    with contextlib.closing(sqlite3.connect(file)) as connection:
        found = connection.execute("SELECT etag, id, collection, body FROM kept ORDER BY etag").fetchall()
    return keeping.Keeper(keeping.KeptRow(*row, 0) for row in found)


def body_in(file: pathlib.Path, name: str) -> str:
    """The body of the row of a definition."""
    with contextlib.closing(sqlite3.connect(file)) as connection:
        (body,) = connection.execute("SELECT body FROM kept WHERE id = ?", ["@index/" + name]).fetchone()
    return body


def write_body(file: pathlib.Path, name: str, body: str) -> int:
    """Puts a body into the row of a definition. Returns the etag of the row."""
    with contextlib.closing(sqlite3.connect(file)) as connection:
        connection.execute("UPDATE kept SET body = ? WHERE id = ?", [body, "@index/" + name])
        connection.commit()
        (etag,) = connection.execute("SELECT etag FROM kept WHERE id = ?", ["@index/" + name]).fetchone()
    return etag


FIRST = DATA / "first-version.db"
"""A file that a program made before definitions had versions: four definitions, of each kind, and some orders."""

ASKED = ["PUMP 1024", "INDEXES", "QUERY from index 'Totals' order by Total as long desc", "QUERY from Orders where Cents > 100", "STATS"]


def with_version(body: str, version: str) -> str:
    """A body of the first version with this version."""
    return f'{body[:-1]},"Version":{version}}}'


def divided(body: str) -> str:
    """The body of the index of totals, with a mean in place of its greatest order."""
    return body.replace("High = g.Max(x => x.High)", "High = g.Sum(x => x.Total) / g.Sum(x => x.Count)")


def versions(program: str, folder: pathlib.Path) -> bool:
    """A file of the first version opens as it is, and as one of the second version; opening changes no row of it."""
    right, first = True, folder / "first"
    shutil.copy(FIRST, first)
    names = [index.name for index in opening.opened(kept_in(first)).indexes]
    before = [body_in(first, name) for name in names]
    right &= is_so(len(names) == 4 and "Version" not in "".join(before), "bodies of the first version", before)
    for version in ("", "2"):
        file = folder / f"version-{version}"
        shutil.copy(FIRST, file)
        after = [with_version(body, version) for body in before] if version else before
        for name, body in zip(names, after, strict=True):
            write_body(file, name, body)
        right &= answers(program, file, ASKED, opening.opened(kept_in(file)), f"a file of version {version or 1}")
        right &= is_so([body_in(file, name) for name in names] == after, "its definitions after that", names)
    return right


def no_versions(program: str, folder: pathlib.Path) -> bool:
    """A quotient in a row of the first version is refused, and so is any version but the second; in the second a quotient is read."""
    first = folder / "first"
    shutil.copy(FIRST, first)
    body = body_in(first, "Totals")
    assert divided(body) != body
    bad = {version: with_version(body, version) for version in ("1", "3", "true", '"2"', "null")}
    right = True
    for version, text in {"without a version": divided(body), **bad}.items():
        file = folder / "bad"
        shutil.copy(FIRST, file)
        etag = write_body(file, "Totals", text)
        ended = run(program, b"STATS\n", "--data", file)
        right &= says(ended, messages.message_of(f"KeptBad {etag}", str(file)), version) and is_so(body_in(file, "Totals") == text, "the row after that", version)
    file = folder / "good"
    shutil.copy(FIRST, file)
    write_body(file, "Totals", with_version(divided(body), "2"))
    return right and answers(program, file, ASKED, opening.opened(kept_in(file)), "a quotient of the second version")


def is_left(program: str, file: pathlib.Path, cause: str) -> bool:
    """Whether a file is refused for this cause, and left byte for byte as it was."""
    before = file.read_bytes()
    refused = says(run(program, script_of([put("a")]), "--data", file), messages.unopened(str(file), cause), file.name)
    return refused and is_so(file.read_bytes() == before, f"{file.name} was changed", len(before))


def others(program: str, folder: pathlib.Path) -> bool:
    """A file of another kind is left as it was."""
    text, table, columns, nearly, ours = (folder / name for name in ("text", "table", "columns", "nearly", "ours"))
    text.write_bytes(b"This is no database, but a text that goes on for a while.")
    make(table, OTHER_TABLE)
    make(columns, OTHER_COLUMNS)
    make(nearly, NEARLY_OLD)
    made = answers(program, ours, [put("a")], model.Database(), "a file with another table")
    make(ours, OTHER_TABLE)
    return made and is_left(program, text, "NotADatabase") and all([is_left(program, file, "Foreign") for file in (table, columns, nearly, ours)])


def alone(program: str, folder: pathlib.Path) -> bool:
    """A file that is open is refused to another program, which changes nothing."""
    file = folder / "alone"
    first = Run(program, file, [put(f"d/{number}").encode() for number in range(50_000)])
    runs = first.read_until(1, PATIENCE)
    refused = says(run(program, script_of([put("other")]), "--data", file), messages.unopened(str(file), "InUse"), "a file that is open")
    still = is_so(first.kill(), "the first program ended too soon", first.message)
    return runs and refused and still and is_so("other" not in [row[0] for row in rows_in(file)], "a row of the second program", file)


def fill_up() -> None:
    """Files of the process may have so many bytes; a write past them fails, as on a full disk."""
    signal.signal(signal.SIGXFSZ, signal.SIG_IGN)
    resource.setrlimit(resource.RLIMIT_FSIZE, (FULL, FULL))


def whole(program: str, folder: pathlib.Path) -> bool:
    """A transaction that the disk does not hold leaves nothing, and the database goes on without it."""
    file = folder / "whole"
    text = "x" * 1_000
    much = bulk(*(put_command(f"d/{number}", f'{{"Text":"{text}"}}') for number in range(1_000)))
    script = script_of([put("a"), much, get("d/0")])
    command = [program, "run", "--data", str(file)]
    ended = subprocess.run(command, input=script, capture_output=True, timeout=PATIENCE, preexec_fn=fill_up)
    replies = ended.stdout.split(b"\n")[1:3]
    refused = is_so(replies == [b'{"Error":"KeeperFault"}', b'{"Error":"NoDocument","Id":"d/0"}'], "a full disk", replies)
    opened = run(program, b"STATS\n", "--data", file)
    return refused and is_done(opened, "a file after a full disk") and is_so([row[0] for row in rows_in(file)] == ["a"], "rows", rows_in(file))


def files(program: str) -> int:
    """How many of these checks find something wrong."""
    wrong = 0
    for check in (rows, many, small, old, versions, no_versions, others, alone, whole):
        with tempfile.TemporaryDirectory() as folder:
            wrong += not check(program, pathlib.Path(folder))
    return wrong
