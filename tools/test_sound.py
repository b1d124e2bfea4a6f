#!/usr/bin/env python3
"""Runs the model on random scripts, and looks after each line whether what has to hold holds.

    tools/test_sound.py [--rounds N] [--lines N] [--seed N]

It needs no program, and compares nothing: a script whose replies are wrong may pass, if what they leave behind is sound. Some scripts
have a keeper that fails now and then, and some a database with few places. It ends with 0 if everything held, and otherwise at the
first assertion that did not, with the round and the line. At the end it says how often the scripts reached what they are made for.
"""

import argparse
import collections
import random
import sys

sys.dont_write_bytecode = True
from raven_tools import model
from raven_tools.checks import sound
from raven_tools.making import MAKERS, choice_scripts, multi_scripts, slot_scripts
from raven_tools.model import keeping, opening

FEW = model.Limits(slots=6, notes=1)
# The makers of most scripts.
OWN = [slot_scripts.SlotMaker, slot_scripts.SlotMaker, choice_scripts.ChoiceMaker, multi_scripts.MultiMaker]
# What many scripts have to reach.
REACHED = """
switched by a line, switched by tidying, retired, published, Gone, Passed, NotFresh, NoReplacement, NothingHeld, NotesFull, TooManyIndexes,
KeeperFault, made by a query, a fresh answer of a query that chose, a fresh answer of groups, a replacement, kept by tidying,
a replacement in place of another, a replacement that ended, removed together, published after a switch, tidied up to a fault,
tombstones cleaned, nothing cleaned, Cleaned, published after a cleaning, several maps, several maps up to a refusal, a part replaced by several maps,
NotOneReduce, a fresh answer of several maps, a stale answer of several maps
"""


def reached(before: model.Database, after: model.Database, line: bytes, reply: dict, is_fresh: bool) -> list[str]:
    """What the line did, by names."""
    word = line.split(b" ")[0].decode(errors="replace")
    is_made = "IndexName" in reply and len(after.indexes) > len(before.indexes)
    ask = sound.ask_in(line) if is_fresh else None
    is_chosen = ask is not None and ask.query.origin[0] == "collection" and reply["Results"]
    waits = any(after.replacement_of(index) for index in after.indexes)
    added = len(after.indexes) - len(before.indexes)
    is_noted = len(after.notes) > len(before.notes)
    switched = {note.new for note in before.notes}
    gone = [batch for worker, batch in before.held.items() if word == "PUBLISH" and worker not in after.held]
    published = [batch.number for batch in gone if "To" in reply]
    is_of_several = word == "MASK" and reply.get("Results")
    tests = {
        "switched by a line": "Switched" in reply and word == "SWITCH",
        "switched by tidying": word == "TIDY" and reply.get("Switched"),
        "kept by tidying": word == "TIDY" and waits,
        "retired": word == "TIDY" and reply.get("Retired"),
        "published": word == "PUBLISH" and "To" in reply,
        "a replacement": reply.get("Index", "").startswith("ReplacementOf/") and word == "INDEX",
        "a replacement in place of another": word == "INDEX" and added == 0 and before.store.last < after.store.last,
        "a replacement that ended": word == "INDEX" and added < 0,
        "removed together": word == "DROP" and added == -2,
        "published after a switch": switched.intersection(published),
        "tidied up to a fault": word == "TIDY" and is_noted and "Error" in reply,
        "made by a query": is_made,
        "tombstones cleaned": reply.get("Cleaned"),
        "nothing cleaned": reply.get("Cleaned") == 0,
        "published after a cleaning": published and any(batch.cleaned < before.store.cleaned for batch in gone),
        "a fresh answer of a query that chose": is_chosen and not ask.query.groups,
        "a fresh answer of groups": is_chosen and ask.query.groups,
        "several maps": reply.get("Indexes"),
        "several maps up to a refusal": word == "MULTI" and "Error" in reply and before.store.last < after.store.last,
        "a part replaced by several maps": any(name.startswith("ReplacementOf/") for name in reply.get("Indexes", ())),
        "a fresh answer of several maps": is_of_several and is_fresh,
        "a stale answer of several maps": is_of_several and reply["IsStale"],
        reply.get("Error", ""): True,
    }
    return [name for name, is_so in tests.items() if is_so and name]


class Round:
    """One script over a database of its own."""

    def __init__(self, seed: int, number: int, lines: int):
        self.chance = random.Random(seed * 1_000_003 + number)
        maker = self.chance.choice(OWN if number % 8 else MAKERS)(seed * 1_000_003 + number)
        self.lines = [line for line in model.lines(maker.script(lines)) if line]
        fails = [self.chance.randrange(2, 60) for _ in range(self.chance.choice([0, 0, 1, 5, 20]))]
        self.keeper = keeping.Keeper(fails=fails)
        limits = FEW if number % 4 == 1 else model.Limits()
        self.database = opening.opened(self.keeper, limits=limits)

    def run(self, counts: collections.Counter[str]) -> None:
        for line in self.lines:
            before = self.database.copied()
            reply = model.answer(self.database, line)
            try:
                sound.check_line(before, self.database, line, reply)
                is_fresh = sound.check_answer(self.database, line, reply)
                self.check_kept()
            except AssertionError:
                print(f"after the line {line.decode(errors='replace')[:2000]}\nwith the reply {model.write_json(reply)[:2000]}")
                raise
            counts.update(reached(before, self.database, line, reply, is_fresh))
        self.check_opened()

    def check_kept(self) -> None:
        """The keeper has the rows of the store."""
        kept = [(row.etag, row.id) for row in self.keeper.rows]
        assert kept == [(row.etag, row.spelling) for row in self.database.store.rows.values()]

    def check_opened(self) -> None:
        """What is opened again has the same definitions under the numbers of their rows, and comes up to the same."""
        rows, limits = self.keeper.rows, self.database.limits
        again = opening.opened(keeping.Keeper(rows), limits=limits)
        expected = self.database.opened()
        for left, right in zip(again.indexes, expected.indexes, strict=True):
            assert (left.number, left.name, left.definition.body()) == (right.number, right.name, right.definition.body())
        model.answer(again, b"PUMP 65536")
        sound.check_alone(again)
        for index in again.indexes:
            assert sound.is_fresh(again, index) and sound.agrees(again, index) and index.mapped() == sound.scratch(again, index)


def main() -> int:
    sys.setrecursionlimit(10_000)
    given = argparse.ArgumentParser(description="Runs the model on random scripts.")
    given.add_argument("--rounds", type=int, default=2_000)
    given.add_argument("--lines", type=int, default=30)
    given.add_argument("--seed", type=int, default=1)
    options = given.parse_args()
    counts: collections.Counter[str] = collections.Counter()
    for number in range(options.rounds):
        try:
            Round(options.seed, number, options.lines).run(counts)
        except AssertionError:
            print(f"seed {options.seed}, round {number}")
            raise
    names = [name.strip() for name in REACHED.split(",")]
    print("reached: " + ", ".join(f"{name} {counts[name]}" for name in names))
    assert options.rounds < 500 or all(counts[name] for name in names)
    print(f"what has to hold holds in {options.rounds} random scripts of {options.lines} lines with seed {options.seed}")
    return 0


if __name__ == "__main__":
    sys.exit(main())
