#!/usr/bin/env python3
"""Tests of tools/shell.py over the model: what it writes for lines that are piped, and with which status it ends.

    tools/test_shell.py

The indexes of the model move only when a test says so. What has to be written was worked out by hand, but for moments and durations. It
ends with 0 if every test holds, and otherwise at the first assertion that does not.
"""

import re
import socket
import subprocess
import sys
import threading
import time

sys.dont_write_bytecode = True
from raven_tools import shell
from raven_tools.held import Held
from raven_tools.model.lines import ALONE, COMMANDS
from raven_tools.places import TOP
from raven_tools.servers import MODEL, Server

BLOCK = re.compile(r"^```(?:raven|text)\n(.*?)^```$", re.MULTILINE | re.DOTALL)
MOMENT = re.compile(r"[0-9-]{10}T[0-9:]{8}\.[0-9]{7}Z")
LINES = r"""PUT users/1 {"Name":"Ada","Age":36,"@metadata":{"@collection":"Users"}}
PUT a b?#&+%é {"N":1}
BULK {"Commands":[{"Type":"PUT","Id":"a b?#&+%é","Document":{"N":9007199254740993,"Text":"one\u001b[31m red","@metadata":{"@collection":"Users"}}}]}

GET a b?#&+%é
PUTIF users/1 A:1-AAAAAAAAAAAAAAAAAAAAAA {"Name":"Bo","Friend":"users/2","Tags":[1],"@metadata":{"@collection":"Users"}}
QUERY from Users include Friend
QUERY from Users where Age = 1
INDEXES
STALE Auto/Users/ByAge
STATS
INDEX {"Name":"A","Map":"from u in docs.Users select new { u.Age }"}
DROP A
DELIF A:9 users/1
DEL users/1
QUERY from Users were Age = 3
INDEX {"Name":"A","Map":"from u in docs.Users select new { v.Name }"}
PUT a {"N":1.5}
PUMP 64
GET
quit
STATS
"""
WRITTEN = """{"ChangeVector":"A:1-AAAAAAAAAAAAAAAAAAAAAA","Id":"users/1"}
line 2:
400 NotJson
if the JSON of the line is malformed
{"Results":[{"ChangeVector":"A:2-AAAAAAAAAAAAAAAAAAAAAA","Id":"a b?#&+%é","Type":"PUT"}]}
{
  "@metadata": {
    "@change-vector": "A:2-AAAAAAAAAAAAAAAAAAAAAA",
    "@collection": "Users",
    "@id": "a b?#&+%é",
    "@last-modified": "1970-01-01T00:00:00.0000000Z"
  },
  "N": 9007199254740993,
  "Text": "one\\u001b[31m red"
}
{"ChangeVector":"A:3-AAAAAAAAAAAAAAAAAAAAAA","Id":"users/1"}
id                        N  Text          Friend   Name  Tags
---------  ----------------  ------------  -------  ----  ----
a b?#&+%é  9007199254740993  one [31m red
users/1                                    users/2  Bo    [1]
FRESH  2 of 2, collection/Users at etag 3, 0 ms
STALE  0 of 0, Auto/Users/ByAge at etag 0, 0 ms
Name              Kind  Entries  Errors  Etag  Behind  State
----------------  ----  -------  ------  ----  ------  -----
Auto/Users/ByAge  auto        0       0     0       3  STALE
STALE  at etag 0, the newest that it reads is 3
CountOfDocuments  CountOfIndexes  CountOfTombstones  LastDocEtag
----------------  --------------  -----------------  -----------
               2               1                  0            4
{"Index":"A"}
done
line 14:
409 Conflict, At 0, Expected "A:9", Found "A:3-AAAAAAAAAAAAAAAAAAAAAA"
if a change vector is expected, and another one, or none, is found. Read the document again
done
line 16:
from Users were Age = 3
           ^
400 Unexpected, At 11
if the text of a query is refused, for the byte at this place; query-language.md has the causes
line 17:
from u in docs.Users select new { v.Name }
                                  ^
400 UnknownName, At 34, Part "Map"
if the text of a map or of a reduce is refused, for the byte at this place; index-language.md has the causes
line 18:
400 NumberNotWhole
if a number in the JSON of the line is not whole, such as `12.5` or `1.0`, or has more than 64 bits. Keep cents, or a text
line 19:
PUMP has no route: indexes catch up, switch and are cleaned by themselves, and a query makes those that it needs
line 20:
UnknownLine: no line with a route; `help` lists them, and docs/script.md says what each is
"""


def piped(port: int, lines: str | bytes, *options: str) -> tuple[int, str, str]:
    """The status, and what is written to standard output and to standard error."""
    command = [sys.executable, str(TOP / "tools/shell.py"), "--server", f"http://127.0.0.1:{port}", *options]
    data = lines if isinstance(lines, bytes) else lines.encode()
    ended = subprocess.run(command, input=data, capture_output=True, timeout=120, env={"PYTHONUTF8": "1"})
    written = re.sub(r"[0-9]+ ms$", "0 ms", MOMENT.sub("1970-01-01T00:00:00.0000000Z", ended.stdout.decode()), flags=re.MULTILINE)
    return ended.returncode, written, ended.stderr.decode()


def test_worked_out() -> None:
    status, written, message = piped(Held().port, LINES)
    differs = next((pair for pair in zip(written.split("\n"), WRITTEN.split("\n")) if pair[0] != pair[1]), None)
    assert written == WRITTEN, differs
    assert (status, message) == (1, "")


def test_page() -> None:
    """What the page shows, over a model whose indexes catch up by themselves."""
    lines, written = BLOCK.findall((TOP / "docs/studio.md").read_text())
    with Server(MODEL) as server:
        assert piped(server.port, lines, "--fresh", "60") == (1, written, ""), written


def test_each_line_is_known() -> None:
    """Each line of a script has a route or is said to have none."""
    known = set(shell.REQUESTS) | set(shell.ALONE)
    others = shell.BY_ITSELF | shell.OF_SCRIPTS
    assert known | others == set(COMMANDS) | set(ALONE), known
    assert not known & others
    assert set(re.findall(r"\b[A-Z]{2,}\b", shell.HELP)) == known


def test_until_fresh() -> None:
    """A query is asked again while it is stale, and no longer than it is said."""
    held = Held()
    assert piped(held.port, 'PUT a/1 {"N":1,"@metadata":{"@collection":"A"}}\n')[0] == 0
    status, written, _ = piped(held.port, "QUERY from A where N = 1\n", "--fresh", "0.2")
    assert (status, written[:5]) == (0, "STALE"), written
    threading.Thread(target=lambda: (time.sleep(1), held.catch_up()), daemon=True).start()
    status, written, _ = piped(held.port, "QUERY from A where N = 1\n", "--fresh", "60")
    assert status == 0 and written.split("\n")[2:4] == ["a/1  1", "FRESH  1 of 1, Auto/A/ByN at etag 2, 0 ms"], written


def test_ends() -> None:
    held = Held()
    assert piped(held.port, "") == (0, "", "")
    assert piped(held.port, "\r\nSTATS\r\nDEL none")[0] == 0
    assert piped(held.port, "help\n")[1] == shell.HELP + "\n"
    # What cannot be sent as it is, is not sent as something else.
    status, written, _ = piped(held.port, b'PUT a {"N":"\xff"}\nQUERY from A where N = \'\xff\'\nPUTIF a x\ry {}\nDEL \xff\nSTATS\n')
    assert status == 1 and written.count("this cannot be asked over HTTP") == 4, written
    assert written.split("\n")[-2].split() == ["0", "0", "0", "0"], written
    status, written, message = piped(held.port, "STATS\nGET a\n", "--db", "other")
    assert status == 1 and "404 NoDatabase" in written, (written, message)
    assert piped(held.port, "", "--server", "ftp://there")[0] == 2
    with socket.create_server(("127.0.0.1", 0)) as free:
        port = free.getsockname()[1]
    status, written, message = piped(port, "STATS\nSTATS\n")
    assert (status, written) == (3, "") and message.startswith(f"no server at 127.0.0.1:{port}: "), message


if __name__ == "__main__":
    sys.setrecursionlimit(10_000)
    test_each_line_is_known()
    test_worked_out()
    test_page()
    test_until_fresh()
    test_ends()
    print("the shell holds")
