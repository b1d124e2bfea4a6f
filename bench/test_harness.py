#!/usr/bin/env python3
"""Tests of the harness of the measurements by itself. It needs no program, and takes a few seconds.

    bench/test_harness.py

It ends with 0 if every test holds, and otherwise at the first assertion that does not.
"""

import itertools
import pathlib
import subprocess
import sys
import tempfile

sys.dont_write_bytecode = True
import draws
import harness
import report
from figures import LINES, documents, queries, reduces, stores, threads, totals
from raven_tools import model
from raven_tools.places import TOP
from report import Aim, Figure, Line

BENCH = harness.Bench(str(TOP / "bench/stand_in.py"), pathlib.Path("/nowhere"))
PAGE = f"# Page\n\n{report.BEGIN}\n{report.END}\n\nbehind\n"


def test_differences():
    """The middle of three runs of each kind, of so many operations that the difference is long enough."""
    noise = iter([0.0, 9.0, 0.0] * 9)
    counts = []

    def more(count):
        counts.append(count)
        return 1.0 + count * 0.001 + (next(noise) if counts.count(count) > 1 else 0.0)

    each = BENCH.each(more, lambda _: 1.0, 10, 10_000)
    assert abs(each - 0.001) < 1e-9, each
    assert counts[0] == 10 and counts[-1] * 0.001 >= BENCH.least, counts
    counts.clear()
    BENCH.each(more, lambda _: 1.0, 10, 15)
    assert max(counts) == 15, counts


def test_texts():
    for number, text in ((0.05678, "0.0568"), (0.999, "0.999"), (1, "1.00"), (136.2, "136"), (146_827, "146,827")):
        assert report.rounded(number) == text, (number, report.rounded(number))
    assert report.rounded(-1) == report.TOO_SMALL
    assert report.duration(0.0000366) == "36.6 µs" and report.duration(1.5) == "1.50 s" and report.duration(5e-9) == "5.00 ns"
    assert report.ratio_of("1,234 (36.6 µs)") == 1_234 and report.ratio_of(report.TOO_SMALL) is None
    assert report.rounded(report.ratio(1, 0)) == report.TOO_SMALL


def test_aims():
    for aim, cell, verdict in (
        (Aim("at least", 0.8), "0.8 (b)", "met"),
        (Aim("at least", 0.8), "0.79 (b)", "missed"),
        (Aim("at most", 2), "2.5 (b)", "missed"),
        (Aim("at most", 2), "1,000 (b)", "missed"),
        (None, "2 (b)", ""),
        (Aim("at most", 2), report.EMPTY, ""),
    ):
        assert report.verdict(aim, cell) == verdict, (aim, cell)


def test_page():
    """What one run writes into the page the next one reads, and a run of some groups leaves the others."""
    one, two = Line("one", "a", Aim("at most", 2)), Line("two", "b")
    page = PAGE
    for group, run, figures in (
        ("first", "old", [Figure(one, 3.0, "x")]),
        ("second", "old: load 1.5", [Figure(two, 1.0, "y")]),
        ("first", "new", [Figure(one, 1.5, "z")]),
        ("second", "newer", []),
    ):
        part = report.read(report.split(page)[1])
        part.add(group, run, figures)
        page = report.replaced(page, part.text({"first": [one], "second": [two], "third": []}))
    assert page.startswith("# Page\n") and page.endswith("\nbehind\n"), page
    assert f"- `first`: new.\n- `second`: old: load 1.5.\n- `third`: {report.EMPTY}.\n" in page, page
    assert "| one | a | 1.50 (z) | at most 2 | met |\n" in page, page
    assert "| two | b | 1.00 (y) |  |  |\n" in page, page


def test_lines():
    """Each line of the table can be told from the others."""
    lines = [line for group in LINES.values() for line in group]
    assert len({(line.what, line.beside) for line in lines}) == len(lines)


def test_documents():
    for size in (60, 1_024, 16_384):
        for number, turn in ((0, 0), (7, 1), (63_999, 12_345)):
            assert len(model.write_json(documents.stored(number, size, turn))) == size
    assert stores.written_by([*documents.filling(30), *documents.put_lines(2, 30), *documents.get_lines(2, 30)]) == 32


def test_runs():
    """The model stands for the program; SQLite writes and reads the same lines."""
    lines = stores.checked_lines(8)
    BENCH.check(lines)
    written = stores.written_by(lines)
    assert BENCH.run(lines, harness.stats(8, 0, written)).cpu > 0
    try:
        BENCH.run([*lines, "NOTHING", "STATS"], harness.stats(8, 0, written))
        raise AssertionError("a refusal counts as a reply")
    except harness.Wrong:
        pass
    stores.sqlite(harness.script_of(lines[:-1]), len(lines) - 1, 8)


def test_moments():
    """Replies are counted as they come. A refusal is found, and so is another end."""
    lines = [*documents.filling(8), "STATS", "STATS"]
    script, command, last = harness.script_of(lines), [BENCH.program, "run"], harness.stats(8, 0, 8)
    found = harness.moments(command, script, [1, 2, 3], last)
    assert len(found) == 3 and 0 < found[0] and found == sorted(found), found
    for wrong, places, end in ((b"NOTHING\n", [1], last), (b"", [4], last), (b"", [1], "{}")):
        try:
            harness.moments(command, wrong + script, places, end)
            raise AssertionError((wrong, places, end))
        except harness.Wrong:
            pass


def test_queries():
    """Each query of the measurement finds as many as it says, and the script has room for those of a large index."""
    users = queries.Users(100)
    lines, places = users.lines(dict.fromkeys(queries.KINDS, 2), 1)
    replies = [model.read_json(reply) for reply in model.replies(harness.script_of(lines)).split(b"\n")[:-1]]
    results = [(len(replies[place]["Results"]), replies[place]["TotalResults"]) for place in places[:-1]]
    assert results[:3] == [(1, 1), (100, 100), (10, 10)], results
    assert all(shown == 20 and 40 <= total <= 60 for shown, total in results[3:7]), results
    # Of 100 users three tenths have one of three values, and n1 and a digit begin one name.
    assert results[7:] == [(20, 30), (1, 1), (20, 90), (20, 100)], results
    users.first = ["x" * (harness.ROOM - 200_000)]
    counts = users.shared(dict.fromkeys(queries.KINDS, 10**6))
    assert 150_000 < len(harness.script_of(users.lines(counts, queries.ROUNDS)[0][1:])) < 200_000, counts


def test_clock():
    """The time of another process is what it spends, also once it has ended and nobody has waited for it."""
    with subprocess.Popen([sys.executable, "-c", "print(sum(range(10**6)))"], stdout=subprocess.PIPE) as busy:
        busy.stdout.read()
        assert 0.001 < harness.of_processor(busy.pid) < 10
    with subprocess.Popen(["sleep", "0.3"], stdout=subprocess.PIPE) as idle:
        idle.stdout.read()
        assert harness.of_processor(idle.pid) < 0.1


def test_draws():
    """The first draws and orders of seed 1, as the rules of the command have them. The model comes to the same rows."""
    assert list(itertools.islice(draws.draws(1), 4)) == [48_271, 182_605_794, 1_291_394_886, 1_914_720_637]
    first, second = draws.orders(1, 2)
    assert first == draws.Order(1, "companies/22", 94_887, 1996, 3, 16), first
    assert second == draws.Order(2, "companies/13", 55_684, 1997, 9, 19), second
    assert draws.summary(1, 2) == '{"Batches":1,"Docs":2,"Groups":2,"IsStale":false,"Total":150571}'
    count = 250
    *_, reply = model.replies(harness.script_of(draws.lines(7, count))).splitlines()
    rows = model.read_json(reply)["Results"]
    found = {(row["Company"], row["Year"], row["Month"]): (row["Total"], row["Count"]) for row in rows}
    assert found == draws.totals(7, count) and len(rows) < count * 0.9, len(rows)


def test_totals():
    """A statement for each line of a script that writes, and a summary that is not the one of the draws is found."""
    assert len(totals.statements(40)) == 44 and totals.statements(10)[-1] == "execute del('orders/5');"
    assert totals.by_program(BENCH, 40) > 0
    try:
        totals.by_program(harness.Bench("/bin/echo", pathlib.Path("/nowhere")), 40)
        raise AssertionError("any line counts as a summary")
    except harness.Wrong:
        pass


def test_reduces():
    """Each round has as many documents as it says between its places, and a script that is too long is cut."""
    group = reduces.Group(30, 5)
    first = [*group.filling, *group.pumps]
    lines, places = group.rounds(first, asked=True)
    assert len(places) == 4 * reduces.ROUNDS and places == sorted(places)
    for a, b, c, d in zip(*[iter(places)] * 4):
        assert all(line.startswith("PUT ") for line in lines[a:b]) and b - a == group.touches
        assert lines[b:c] == [reduces.PUMP] and lines[c + 1 : d : 2] == [reduces.PUMP] * group.touches and d - c == 2 * group.touches
    replies = [model.read_json(reply) for reply in model.replies(harness.script_of(lines)).splitlines()]
    rows = [row for reply in replies for row in reply.get("Results", []) if "Total" in row]
    assert len(rows) == reduces.ROUNDS and all(row["Low"] < row["High"] for row in rows), rows
    long = ["x" * 5_000_000] * 7
    assert [len(some) for some in reduces.parts(long)] == [3, 3, 1]


def test_file():
    """A group that is filled by several runs of one file."""
    with tempfile.TemporaryDirectory() as folder:
        bench = harness.Bench(BENCH.program, pathlib.Path(folder))
        group, room = reduces.Group(documents.AT_ONCE + 1, 2), harness.ROOM
        try:
            harness.ROOM = len(harness.script_of(group.filling[:2]))
            assert len(list(reduces.parts(group.filling))) == 2
            group.each_in_file(bench)
        finally:
            harness.ROOM = room


def test_threads():
    """What is timed is one batch of all documents, by an index that is new."""
    for text, _, _ in threads.KINDS:
        lines, places = threads.Batches(text, 12, rounds=2).lines()
        replies = [model.read_json(reply) for reply in model.replies(harness.script_of(lines)).splitlines()]
        assert [after - before for before, after in zip(places[::2], places[1::2])] == [1, 1], places
        assert [replies[place]["Pumped"][0]["From"] for place in places[::2]] == [0, 0], replies
        assert replies[-1]["CountOfIndexes"] == 2 and replies[-1]["CountOfDocuments"] == 12, replies
    last = threads.Batches(threads.MAP, max(count for *_, counts in threads.KINDS for count in counts))
    assert len(harness.script_of(last.lines()[0])) < model.MAX_SCRIPT


TESTS = (
    test_differences,
    test_texts,
    test_aims,
    test_page,
    test_lines,
    test_documents,
    test_runs,
    test_moments,
    test_clock,
    test_queries,
    test_draws,
    test_totals,
    test_reduces,
    test_file,
    test_threads,
)


def main() -> None:
    for test in TESTS:
        test()
    print("the harness holds")


if __name__ == "__main__":
    main()
