#!/usr/bin/env python3
"""Does with the C library of SQLite, through python3, what the lines of a script ask.

    bench/beside_sqlite.py DATABASE COUNT < SCRIPT

DATABASE is a file, or `:memory:`. All lines of the script, each a PUT, a BULK of PUTs or a GET, are read and made into rows
first. Then the first COUNT of them are executed: each PUT or BULK as one transaction, with `synchronous=FULL` and a write-ahead
log. So the difference of two runs of one script with other COUNTs is what SQLite takes, and what python3 takes to call it.
The table and the statement are those of the program's own files. It prints how many rows there are in the end.
"""

import collections.abc
import json
import sqlite3
import sys

TABLE = """CREATE TABLE IF NOT EXISTS kept (key TEXT NOT NULL PRIMARY KEY, etag INTEGER NOT NULL UNIQUE, id TEXT NOT NULL,
    collection TEXT NOT NULL, body TEXT, changed INTEGER NOT NULL) STRICT"""
PUT = """INSERT INTO kept (key, etag, id, collection, body, changed) VALUES (?1, ?2, ?3, ?4, ?5, ?6)
    ON CONFLICT (key) DO UPDATE SET etag = excluded.etag, id = excluded.id, collection = excluded.collection,
    body = excluded.body, changed = excluded.changed"""
GET = "SELECT etag, id, collection, body, changed FROM kept WHERE key = ?1"
CHANGED = 1_500_000_000_000_000
Row = tuple[str, int, str, str, str, int]
Action = collections.abc.Callable[[sqlite3.Connection], object]


def row_of(etag: int, name: str, document: dict) -> Row:
    metadata = document.get("@metadata", {})
    collection = metadata.pop("@collection", "@empty")
    body = json.dumps(document, sort_keys=True, separators=(",", ":"), ensure_ascii=False)
    return name.lower(), etag, name, collection, body, CHANGED


def put(row: Row) -> Action:
    return lambda database: database.execute(PUT, row)


def bulk(rows: list[Row]) -> Action:
    def action(database: sqlite3.Connection) -> None:
        database.execute("BEGIN")
        database.executemany(PUT, rows)
        database.execute("COMMIT")

    return action


def get(name: str) -> Action:
    return lambda database: database.execute(GET, (name.lower(),)).fetchone()


def actions_of(lines: list[str], newest: int) -> list[Action]:
    """What each line asks; the writes take the etags past the newest one."""
    actions = []
    for line in lines:
        word, rest = line.split(" ", 1)
        if word == "GET":
            actions.append(get(rest))
        elif word == "PUT":
            newest += 1
            name, body = rest.split(" ", 1)
            actions.append(put(row_of(newest, name, json.loads(body))))
        else:
            commands = json.loads(rest)["Commands"]
            rows = [row_of(newest + at, item["Id"], item["Document"]) for at, item in enumerate(commands, 1)]
            newest += len(rows)
            actions.append(bulk(rows))
    return actions


def main() -> None:
    name, count = sys.argv[1:]
    database = sqlite3.connect(name, isolation_level=None)
    database.execute("PRAGMA journal_mode=WAL")
    database.execute("PRAGMA synchronous=FULL")
    database.execute(TABLE)
    (newest,) = database.execute("SELECT ifnull(max(etag), 0) FROM kept").fetchone()
    for action in actions_of(sys.stdin.read().splitlines(), newest)[: int(count)]:
        action(database)
    print(*database.execute("SELECT count(*) FROM kept").fetchone())


if __name__ == "__main__":
    main()
