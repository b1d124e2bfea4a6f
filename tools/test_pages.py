#!/usr/bin/env python3
"""Tests of the tool that makes pages, by itself: what it reads of a source, of crates.txt and of a run of the gate.

    tools/test_pages.py

It ends with 0 if every test holds, and otherwise at the first assertion that does not.
"""

import pathlib
import sys
import tempfile
import xml.etree.ElementTree

sys.dont_write_bytecode = True
import gate_cost
from raven_tools import crates_file, tool_list
from raven_tools.pages import gate, house, laws, marks, sources

SOURCE = """//! A store. It is small.

/// What is stored.
/// It is shared.
pub struct Store<K> {
    rows: K,
}

impl<K> Store<K> {
    /// Its rows. They rise.
    pub fn rows(&self) -> u64
        ensures all { result ≡ self.now.rows }
        ensures { 0 ≤ result }
    {
        self.rows
    }

    fn hidden(&self) {}

    /// Waits.
    pub fn pause(&self) {}
}

impl<K> Clone for Store<K> {
    /// A copy.
    pub fn clone(&self) -> Store<K>
        ensures { result ≡ self.now }
    {
        self.rows
    }
}

/// Rows rise. They
/// never fall.
pub fn rows_rise()
    ensures { (s : Store) → Rises s }
{}

/// The most that fit.
pub fn most() -> u64
    ensures { result ≡ 7 }
{
    7
}
"""
CRATES = """# Subject: Low: base
# Subject: High: top top lost

# Floor 1: what all use.
base: serde
# Floor 2: the rest.
top: base
alone:
"""


def file_with(folder: str, name: str, text: str) -> pathlib.Path:
    file = pathlib.Path(folder) / name
    file.write_text(text)
    return file


def test_sources() -> None:
    """Methods belong to their type, those of a trait of another do not count, and a law is a function without a body."""
    with tempfile.TemporaryDirectory() as folder:
        items = list(sources.items_of(file_with(folder, "store.rt", SOURCE)))
    assert [(item.owner, item.name) for item in items] == [(None, "Store"), ("Store", "rows"), ("Store", "pause"), (None, "rows_rise"), (None, "most")]
    assert [item.clauses for item in items] == [(), ("all", "-"), (), ("-",), ("-",)]
    assert laws.laws_of(items) == ["- `rows_rise`: Rows rise. They never fall."]


def test_crates() -> None:
    with tempfile.TemporaryDirectory() as folder:
        file = file_with(folder, "crates.txt", CRATES)
        rows, titles = crates_file.rows_of(file)
        subjects = crates_file.subjects_of(file)
    assert [(row.name, row.deps, row.under) for row in rows] == [("base", ["serde"], 1), ("top", ["base"], 2), ("alone", [], 2)]
    assert titles == {1: "what all use", 2: "the rest"} and crates_file.floors_of(rows) == ({"base": 1, "top": 2, "alone": 1}, [])
    faults = list(crates_file.subject_faults(rows, subjects))
    assert faults == ["alone has no subject", "lost has a subject, and is no crate", "top has 2 subjects"], faults


def test_house() -> None:
    """Each crate has a box with its name in it, higher ones stand above, and the chain goes from the lowest to the highest."""
    with tempfile.TemporaryDirectory() as folder:
        file = file_with(folder, "crates.txt", CRATES.replace("top top lost", "top alone"))
        drawn = house.House(crates_file.rows_of(file)[0], crates_file.subjects_of(file))
    assert drawn.chain == ["base", "top"] and drawn.cells == {(1, 0): ["base"], (1, 1): ["alone"], (2, 1): ["top"]}, drawn.cells
    (x, low), (right, high), (beside, same) = (drawn.corners[name] for name in ("base", "top", "alone"))
    assert x < right == beside and high < low == same
    parts = list(xml.etree.ElementTree.fromstring(drawn.drawn()))
    assert sorted(part.text or "" for part in parts if part.get("class") == "name") == ["alone", "base", "top"]
    assert [part.get("class") for part in parts].count("chain") == 1


def cost(crate: str, kind: str, seconds: float) -> gate_cost.Cost:
    found = gate_cost.Cost(crate, kind)
    found.cpu = seconds
    return found


def test_gate() -> None:
    """What the tool of costs writes is read, a later file counts, and the page says the same when it is read again."""
    first = [cost("low", "proof", 30.0), cost("low", "edits", 10.4), cost("high", "programs", 120.0)]
    later = [cost("low", "proof", 45.0), cost("new", "tests", 5.0)]
    log = "rt: low is kept: an earlier run\nrt: old is kept: an earlier run\n2 passed, 1 failed\n3 passed, 0 failed\n"
    with tempfile.TemporaryDirectory() as folder:
        costs = [file_with(folder, str(n), gate_cost.table_of(some, 120) + "\n") for n, some in enumerate((first, later))]
        run = gate.measured(costs, file_with(folder, "log", log))
    assert run.seconds == {"high": [0, 0, 0, 120], "low": [45, 0, 10, 0], "new": [0, 5, 0, 0]}, run.seconds
    assert (run.kept, run.result) == ("`old`", "3 passed, 0 failed") and ", 4.0 minutes on " in run.when, run
    page = gate.with_run(f"above\n{marks.begin('gate')}\n{marks.end('gate')}\nbelow\n", run)
    assert page.startswith("above\n") and page.endswith("\nbelow\n") and "| `high` |  |  |  | 120 | 120 |\n| `low` |" in page, page
    assert "| all, in minutes | 0.8 | 0.1 | 0.2 | 2.0 | 3.0 |" in page, page
    assert gate.read(marks.cut(page, "gate")[1]) == run and gate.page(page) == page
    assert gate.page(page.replace("| 0.8 |", "| 0.9 |")) == page, "a sum that is changed by hand is put right"


def test_tools() -> None:
    """Each tool has a place in the list of tools/raven, and says what it is for; each name of the list is a tool."""
    found = tool_list.tools()
    assert tool_list.OTHERS not in tool_list.listed(), tool_list.listed()
    assert all(name in found for names in tool_list.GROUPS.values() for name in names.split())
    assert all(tool_list.said_of(file).endswith(".") for file in found.values())
    assert tool_list.said_of(found["release"]).startswith("Packs a release")


TESTS = (test_sources, test_crates, test_house, test_gate, test_tools)


def main() -> None:
    for test in TESTS:
        test()
    print("the pages' tool holds")


if __name__ == "__main__":
    main()
