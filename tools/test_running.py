#!/usr/bin/env python3
"""Tests of the model of whole runs by itself: cases of which all that is printed was worked out by hand.

    tools/test_running.py

It needs no program. It ends with 0 if every test holds, and otherwise at the first assertion that does not.
"""

import itertools
import json
import random
import re
import subprocess
import sys

sys.dont_write_bytecode = True
from raven_tools import case_file
from raven_tools.checks import memory
from raven_tools.model import http_session, keeping, measuring, messages, running, serving, usage
from raven_tools.places import TOP

KEEPER = """\
== A commit fails
keeps 3
rows
> PUT a {}
> PUT b {}
> GET b
> PUT b {}
again
writes 2
rows
> DEL A
| STATS
""", """\
== A commit fails
status Done
> {"ChangeVector":"A:1-AAAAAAAAAAAAAAAAAAAAAA","Id":"a"}
> {"Error":"KeeperFault"}
> {"Error":"NoDocument","Id":"b"}
> {"ChangeVector":"A:2-AAAAAAAAAAAAAAAAAAAAAA","Id":"b"}
row 1 0 "a" "@empty" {"@metadata":{}}
row 2 0 "b" "@empty" {"@metadata":{}}
again
status WriteFault
> {"Deleted":true,"Id":"a"}
row 2 0 "b" "@empty" {"@metadata":{}}
row 3 0 "a" "@empty" deleted

"""

CLOCK = """\
== The clock ticks
arguments run --id ⟨22*b⟩
clock 1234567890123456 +1000000
> PUT a {"⟨c3a9⟩":1}
>2 PUT ⟨n⟩
> BULK {"Commands":[{"Document":{},"Id":"b","Type":"PUT"}]}
> GET a
> GET b
""", """\
== The clock ticks
status Done
> {"ChangeVector":"A:1-bbbbbbbbbbbbbbbbbbbbbb","Id":"a"}
> {"Error":"UnknownLine"}
> {"Error":"UnknownLine"}
> {"Results":[{"ChangeVector":"A:2-bbbbbbbbbbbbbbbbbbbbbb","Id":"b","Type":"PUT"}]}
> {"@metadata":{"@change-vector":"A:1-bbbbbbbbbbbbbbbbbbbbbb","@collection":"@empty","@id":"a",\
"@last-modified":"2009-02-13T23:31:30.1234560Z"},"é":1}
> {"@metadata":{"@change-vector":"A:2-bbbbbbbbbbbbbbbbbbbbbb","@collection":"@empty","@id":"b",\
"@last-modified":"2009-02-13T23:31:33.1234560Z"}}

"""

STATUSES = """\
== Wrong arguments come first
arguments run x
reads 1
keeps 1
> STATS
again
arguments
again
reads 2
> STATS
again
> STATS
== A bad row
row 0 0
id a
row 1 0
id a
rows
> STATS
== The second of two rows of one id
row 4 0
id a
row 9 0
id A
again
> STATS
== A definition
row 3 5
id @index/auto/x
collection @indexes
body {"@metadata":{},"Collection":"C","Fields":[["F"]],"Kind":"auto"}
> STALE AUTO/X
== A definition of the first version has no quotient
row 3 5
id @index/M
collection @indexes
body {"@metadata":{},"Kind":"static","Map":"from o in docs.Orders select new { o.Company, Total = o.Cents, Count = 1, Mean = 0 }",\
"Reduce":"from r in results group r by r.Company into g select new { Company = g.Key, Total = g.Sum(x => x.Total), \
Count = g.Sum(x => x.Count), Mean = g.Sum(x => x.Total) / g.Sum(x => x.Count) }"}
> STATS
""", """\
== Wrong arguments come first
status Usage
again
status Usage
again
status ReadFault
again
status KeptFault

== A bad row
status KeptBad 0
row 0 0 "a" "@empty" deleted
row 1 0 "a" "@empty" deleted

== The second of two rows of one id
status KeptBad 9
again
status KeptBad 9

== A definition
status Done
> {"IndexEtag":0,"IsStale":false,"Newest":0}

== A definition of the first version has no quotient
status KeptBad 3

"""


# The first two orders of seed 1 are companies/22, 1996-03-16, 94887 cents and companies/13, 1997-09-19, 55684 cents.
MEASURE = """\
== Two orders are measured, and then the store is not empty
arguments measure --docs 2 --seed 1 --batch 64
clock 5
rows
again
arguments measure
== One order is measured
arguments measure --docs 1
== The first commit of a measurement fails
arguments measure --docs 2
keeps 2
rows
== The second commit of a measurement fails
arguments measure --docs 2
keeps 3
rows
== The summary cannot be written
arguments measure --docs 1
writes 1
again
> STATS
== A measurement opens what is kept
arguments measure
row 0 0
id a
== Arguments of a measurement that are not valid
arguments measure --docs
again
arguments measure --docs 0
again
arguments measure --docs 200001
again
arguments measure --batch 65537
again
arguments measure --seed 2147483647
again
arguments measure --seed 00000000001
again
arguments measure --seed +1
again
arguments measure --docs 1 --docs 1
again
arguments measure --data x
again
arguments measure --docs 0000000001 --batch 0000000001 --seed 0000000001
""", """\
== Two orders are measured, and then the store is not empty
status Done
> {"Batches":1,"Docs":2,"Groups":2,"IsStale":false,"Total":150571}
row 1 5 "@index/Orders/ByCompanyMonth" "@indexes" {"@metadata":{},"Kind":"static","Map":"from o in docs.Orders select new { \
o.Company, o.OrderedAt.Year, o.OrderedAt.Month, Total = o.Cents, Count = 1 }","Reduce":"from r in results group r by new { \
r.Company, r.Year, r.Month } into g select new { g.Key.Company, g.Key.Year, g.Key.Month, Total = g.Sum(x => x.Total), \
Count = g.Sum(x => x.Count) }","Version":2}
row 2 5 "orders/1" "Orders" {"@metadata":{},"Cents":94887,"Company":"companies/22","OrderedAt":"1996-03-16T00:00:00.0000000"}
row 3 5 "orders/2" "Orders" {"@metadata":{},"Cents":55684,"Company":"companies/13","OrderedAt":"1997-09-19T00:00:00.0000000"}
again
status NotEmpty 3

== One order is measured
status Done
> {"Batches":1,"Docs":1,"Groups":1,"IsStale":false,"Total":94887}

== The first commit of a measurement fails
status KeptFault

== The second commit of a measurement fails
status KeptFault
row 1 0 "@index/Orders/ByCompanyMonth" "@indexes" {"@metadata":{},"Kind":"static","Map":"from o in docs.Orders select new { \
o.Company, o.OrderedAt.Year, o.OrderedAt.Month, Total = o.Cents, Count = 1 }","Reduce":"from r in results group r by new { \
r.Company, r.Year, r.Month } into g select new { g.Key.Company, g.Key.Year, g.Key.Month, Total = g.Sum(x => x.Total), \
Count = g.Sum(x => x.Count) }","Version":2}

== The summary cannot be written
status WriteFault
again
status Done
> {"CountOfDocuments":1,"CountOfIndexes":1,"CountOfTombstones":0,"LastDocEtag":2}

== A measurement opens what is kept
status KeptBad 0

== Arguments of a measurement that are not valid
status Usage
again
status Usage
again
status Usage
again
status Usage
again
status Usage
again
status Usage
again
status Usage
again
status Usage
again
status Usage
again
status Done
> {"Batches":1,"Docs":1,"Groups":1,"IsStale":false,"Total":94887}

"""


def test_worked_cases():
    for written, printed in (KEEPER, CLOCK, STATUSES, MEASURE):
        found = "".join(map(case_file.printed, case_file.read(written)))
        assert found == printed, found


def test_draws():
    """The first draws of seed 1."""
    drawn = itertools.islice(measuring.draws(1), 6)
    assert list(drawn) == [48271, 182605794, 1291394886, 1914720637, 2078669041, 407355683]


def test_measure():
    """What is measured is what the draws come to, whatever a batch takes. There are 20 batches on the way; then 2,000 rows less 20 of
    them are left, which are 1,980 of one row, or 12 of 64 rows, or none."""
    for batch, batches in ((1, 2_000), (64, 32), (1_024, 20)):
        status, written = measuring.measure(("--seed", "7", "--batch", str(batch)), keeping.Keeper())
        sums = measuring.summed(measuring.Options(seed=7))
        assert (status, json.loads(written)) == ("Done", {"Batches": batches, "IsStale": False, **sums}), written


def test_servers():
    """The options of a server. Without a door it opens its database and ends."""
    good = [(), ("--port", "0"), ("--port", "65535", "--workers", "64", "--pumps", "0000000016"), ("--connections", "1000000", "--db", "x-1")]
    bad = [("x",), ("--port",), ("--port", "65536"), ("--port", "-1"), ("--workers", "0"), ("--workers", "65"), ("--pumps", "0")]
    bad += [("--pumps", "17"), ("--connections", "0"), ("--connections", "1000001"), ("--port", "0", "--port", "0"), ("--pump", "1")]
    bad += [("--db", "a b"), ("--id", "short"), ("--data", ""), ("--port", "00000000001"), ("--port", "1.0"), ("--port", "٠")]
    for arguments in good:
        assert running.run(running.Outside(("serve", *arguments)), keeping.Keeper()) == ("Done", b""), arguments
        assert running.run(running.Outside(("serve", *arguments)), keeping.Keeper(fails=[1])) == ("KeptFault", b""), arguments
    for arguments in bad:
        assert running.run(running.Outside(("serve", *arguments)), keeping.Keeper()) == ("Usage", b""), arguments


def test_messages():
    """What standard error has. The status of a session is found by its bytes."""
    for arguments, script, status, message in [
        (("run",), b"", "Done", "raven: Done\n"),
        ((), b"", "Usage", "raven: Usage\n"),
        (("http", "--pump", "x"), b"", "Usage", "raven: Usage\n"),
        (("http",), b"", "Done", "raven: Done\n"),
        (("http",), b"G", "HttpRefused Truncated", "raven: HttpRefused\nraven: the bytes are no further request: Truncated\n"),
        (("http",), b" ", "HttpRefused BadHead", "raven: HttpRefused\nraven: the bytes are no further request: BadHead\n"),
    ]:
        found, _ = running.run(running.Outside(arguments, script=script), keeping.Keeper())
        assert (found, messages.message_of(found)) == (status, message), (arguments, found)
    assert messages.message_of("KeptBad 7", "x") == 'raven: KeptBad\nraven: the stored row with etag 7 in "x" is not valid\n'
    assert messages.quoted('a "b"\\\t\x7fé') == '"a \\"b\\"\\\\\\t\\u{7f}é"'


MALFORMED = [
    (),
    ("help",),
    ("serve", "--bogus", "1"),
    ("serve", "--port=1"),
    ("serve", "--port"),
    ("run", "--data", ""),
    ("serve", "--workers", "65"),
    ("run", "--id", "short"),
    ("http", "--db", "a/b"),
    ("run", "--data", "x", "--data", "x"),
    ("run", b"\xff"),
]


def test_usage():
    """What is wrong is said of just those arguments that are not valid, whatever they are made of."""
    words = ["run", "serve", "http", "measure", "--data", "--id", "--db", "--port", "--workers", "--pump", "--pumps", "--docs"]
    words += ["--connections", "--seed", "--batch", "0", "1", "65", "65536", "x", "", "-x", "A" * 22, "a b", "--port=1", "12345678901"]
    valid = {"run": running.options, "http": http_session.options_of, "serve": serving.options_of, "measure": lambda words: measuring.options(words[1:])}
    chance = random.Random(5)
    for _ in range(20_000):
        arguments = tuple(chance.choice(words[:4] if not at else words[4:]) for at in range(chance.choice((1, 2, 3, 3, 3, 4, 5, 5, 7))))
        assert (usage.mistake(arguments) is None) == (valid[arguments[0]](arguments) is not None), (arguments, usage.mistake(arguments))
    assert usage.mistake(("run", "a b")) == '"a b": run has no such option'


def test_page():
    """What docs/messages.md shows is what is said, and each sentence stands there."""
    page = (TOP / "docs/messages.md").read_text()
    shown = set(re.findall(r"`(raven: [^`]*)`", page))
    details = {"KeptBad": "KeptBad 7", "DoorFault": "DoorFault 8080", "HttpRefused": "HttpRefused BadHead"}
    ends = [messages.message_of(details.get(name, name), "people.db").split("\n")[1] for name in messages.SENTENCES]
    port, in_use = messages.message_of("DoorFault 8080").split("\n")[1].rsplit(": ", 1)
    first = messages.unopened("people.db", "").split("\n")[1]
    lines = [messages.listening(8080, file).strip("\n") for file in (None, "people.db")]
    for line in {*ends, *lines, f"{port}: ", first} - {f"{port}: {in_use}"}:
        assert line in shown, line
    rows = set(re.findall(r"^\| `([^`]*)`", page, re.MULTILINE))
    mistakes = {f"raven: {usage.mistake(arguments)}" for arguments in MALFORMED}
    assert {row for row in rows if row.startswith("raven: ")} == mistakes, mistakes
    rows -= mistakes
    assert {*messages.CAUSES.values(), in_use} <= rows, {*messages.CAUSES.values(), in_use} - rows
    assert rows <= {*messages.CAUSES.values(), in_use, "--data FILE", "no permission"}, rows

def test_mistakes():
    """A line that is not valid is reported by its number."""
    lines = ["arguments", "x", ">x", ">0 x", "> ⟨x⟩", "> ⟨n⟩", "> ⟨", "reads", "reads x", "clock +1", "clock 1 2", "row 1", "id a",
             "rows x", "again 1", "|", "|x", "keeps 1\nagain\nkeeps 2", "again\nrow 1 1", "row 2 0\nrow 2 0", "<x", "<0 x", "<2", "< ⟨n⟩",
             "gives", "gives 0", "gives 1 2"]
    for line in lines[1:]:
        try:
            case_file.read(f"== A\n{line}\n")
        except case_file.Mistake as mistake:
            assert f"line {2 + line.count(chr(10))}:" in str(mistake), (line, mistake)
        else:
            raise AssertionError(line)


def test_printing():
    """Each line with its end, and what follows the last one. A response begins a line, whatever is before it."""
    for written, printed in [
        (b"", ""),
        (b"a\n\nb", "> a\n> \n| b\n"),
        (b"a\r\n\r\n", "< a\n<\n"),
        (b"HTTP/1.1 204 No Content\r\n\r\n{}HTTP/1.1 200 OK\r\n\r\n{}", "< HTTP/1.1 204 No Content\n<\n| {}\n< HTTP/1.1 200 OK\n<\n| {}\n"),
        ('{"A":"HTTP/1.1 é"}\n'.encode(), '> {"A":"HTTP/1.1 é"}\n'),
        (b'{"A":"HTTP/1.1 "}HTTP/1.1 200 OK\r\n', '| {"A":"HTTP/1.1 "}\n< HTTP/1.1 200 OK\n'),
    ]:
        assert case_file.printed_output(written) == printed, written


def test_single_bytes():
    """If a call gives one byte, it is known what a failing call leaves unread."""
    for number, status in [(1, "ReadFault"), (7, "ReadFault"), (8, "Done")]:
        [case] = case_file.read(f"== A\ngives 1\nreads {number}\n> STATS\n")
        assert running.run(case.runs[0].outside, keeping.Keeper())[0] == status, number


def test_what_is_left_open():
    """The model does not answer what the rules leave open."""
    for written in ("== A\nreads 3\n> STATS\n", "== A\nclock 0 +1\n>\n"):
        try:
            case_file.printed(*case_file.read(written))
        except running.LeftOpen:
            continue
        raise AssertionError(written)
    assert case_file.printed(*case_file.read("== A\nreads 3\n| x\n")).startswith("== A\nstatus Done\n")


# A script of which two lines write, with its replies and its rows.
[SCRIPT] = case_file.read("== A\nrows\n> PUT a {}\n> STATS\n> PUT b {}\n")
REPLIES = [
    '> {"ChangeVector":"A:1-AAAAAAAAAAAAAAAAAAAAAA","Id":"a"}\n',
    '> {"CountOfDocuments":1,"CountOfIndexes":0,"CountOfTombstones":0,"LastDocEtag":1}\n',
    '> {"ChangeVector":"A:2-AAAAAAAAAAAAAAAAAAAAAA","Id":"b"}\n',
]
ROWS = ['row 1 0 "a" "@empty" {"@metadata":{}}\n', 'row 2 0 "b" "@empty" {"@metadata":{}}\n']


def test_prefixes():
    """If memory runs out, no reply is there without the changes of its line, and no change behind the line whose reply is missing."""
    may_be = {(0, 0), (0, 1), (1, 1), (2, 1), (2, 2), (3, 2)}
    found = memory.prefixes_of(SCRIPT, memory.stops_of(SCRIPT))
    for replies, rows in itertools.product(range(4), range(3)):
        printed = "== A\nstatus NoMemory\n" + "".join(REPLIES[:replies] + ROWS[:rows]) + "\n"
        assert (printed.encode() in found) == ((replies, rows) in may_be), printed
    assert len(found) == len(may_be)


def test_ends_without_memory():
    """A run ends with a prefix, or with everything, or the program of cases itself lacks memory. A crash is none of these."""
    whole, prefix = case_file.printed(SCRIPT).encode(), b"== A\nstatus NoMemory\n\n"
    for status, printed, end in [
        (0, prefix, memory.NO_MEMORY),
        (0, whole, memory.NOT_NEEDED),
        (0, whole.replace(b"Done", b"NoMemory"), None),
        (0, b"", None),
        (1, b"", memory.OUTSIDE),
        (1, whole[:30], memory.OUTSIDE),
        (1, b"mistake in line 1\n", None),
        (-11, b"", None),
    ]:
        assert memory.end_of(subprocess.CompletedProcess([], status, printed, b""), {prefix}, whole) == end, (status, printed)


def main():
    for name, test in [(name, test) for name, test in globals().items() if name.startswith("test_")]:
        test()
        print(f"holds  {name}")
    return 0


if __name__ == "__main__":
    sys.exit(main())
