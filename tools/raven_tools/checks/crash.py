"""Kills the program at random moments, and compares what is left with what it has acknowledged."""

import argparse
import os
import pathlib
import random
import re
import shutil
import subprocess
import tempfile
import time

from raven_tools import model, programs
from raven_tools.checks.killable import PATIENCE, Run
from raven_tools.making.crash_scripts import CrashMaker, questions
from raven_tools.places import PROGRAM

KEEPER_FAULT = b'{"Error":"KeeperFault"}'
VECTOR = re.compile(rb'"@change-vector":"A:([0-9]+)-')


class Crash(Exception):
    """What was found after a crash is not what may be there."""

    def __init__(self, kind: str, why: str):
        super().__init__(why)
        self.kind = kind


def reply_to(database: model.Database, line: bytes) -> bytes:
    return model.write_json(model.answer(database, line)).encode()


class Trial:
    """Round after round over one file. After a fault it begins anew with another file."""

    def __init__(self, program: str, folder: str, seed: int):
        self.program = program
        self.folder = pathlib.Path(folder)
        self.seed = seed
        self.counts = {"kills": 0, "writes acknowledged": 0, "keeper faults": 0, "losses": 0, "inventions": 0, "halves": 0}
        self.files = 0
        # How long an opening and a line take about, by which moments of kills are drawn.
        self.opening = 0.02
        self.line = 0.001
        self.begin()

    def begin(self):
        """A new file, of which nothing is known but that it is empty."""
        self.files += 1
        self.file = self.folder / f"crash-{self.files}.data"
        self.database = model.Database()
        self.history: dict[tuple[str, int], bytes] = {}  # what each id showed, by the etag
        self.moments: dict[tuple[bytes, bytes], bytes] = {}  # of each document, by its GET line and etag

    # the writes

    def flight(self, number: int) -> tuple[model.Database, model.Database]:
        """Gives the program a script and kills it on the way. The state after the lines answered, and that after one more."""
        chance = random.Random(self.seed * 2_000_003 + number)
        script = CrashMaker(self.seed * 1_000_003 + number, self.database).script()
        run = Run(self.program, self.file, script)
        kind = chance.randrange(12)
        if kind == 0:
            run.end()
            self.learn(run, len(script))
        else:
            if kind == 1:
                run.read_until(len(script) + 1, chance.uniform(0, self.opening))
            elif kind <= 5:
                run.read_until(len(script) + 1, self.opening + self.line * len(script) * chance.uniform(-0.1, 1.1))
            elif run.read_until(chance.randint(1, len(script)), PATIENCE):
                time.sleep(self.line * chance.choice([0, 0, 0.3, 1]) * chance.random())
            self.counts["kills"] += run.kill()
        return self.answered(run, script)

    def learn(self, run: Run, count: int) -> None:
        """How long a line takes, out of a run that went to its end."""
        if count > 4:
            self.line += (max(0, time.monotonic() - run.began - self.opening) / count - self.line) / 4

    def answered(self, run: Run, script: list[bytes]) -> tuple[model.Database, model.Database]:
        replies, part = run.replies()
        if len(replies) > len(script):
            raise Crash("inventions", f"{len(replies)} replies to {len(script)} lines")
        now = self.database.opened()
        for line, reply in zip(script, replies):
            now = self.after(now, line, reply)
        if run.status() == 0 and len(replies) < len(script):
            raise Crash("losses", f"it ended with {len(replies)} replies to {len(script)} lines")
        if run.status() not in (0, -9):
            raise Crash("losses", f"status {run.status()}, {run.message!r}")
        if len(replies) == len(script):
            return now, now
        flying = now.copied()
        expected = reply_to(flying, script[len(replies)])
        if not (expected.startswith(self.shortened(part)) or KEEPER_FAULT.startswith(part)):
            raise Crash("inventions", f"a reply began with {part[:200]!r} in place of {expected[:200]!r}")
        self.remember(flying)
        return now, flying

    @staticmethod
    def shortened(part: bytes) -> bytes:
        """The prefix of a reply up to its moment, which the model cannot know."""
        return part.split(b'"@last-modified":', 1)[0]

    def after(self, database: model.Database, line: bytes, reply: bytes) -> model.Database:
        following = database.copied()
        expected = reply_to(following, line)
        is_changed = (following.store.last, following.store.cleaned) != (database.store.last, database.store.cleaned)
        if model.at_no_moment(reply) == expected:
            self.remember(following)
            self.counts["writes acknowledged"] += is_changed
            return following
        if reply == KEEPER_FAULT and is_changed:
            self.counts["keeper faults"] += 1
            return database
        raise Crash("inventions", f"{line[:80]!r} was answered {reply[:200]!r} in place of {expected[:200]!r}")

    def remember(self, database: model.Database) -> None:
        for key, row in database.store.rows.items():
            if row.is_document():
                self.history[key, row.etag] = model.write_json(row.shown()).encode()

    # the look afterwards

    def look(self, number: int, states: list[model.Database]) -> None:
        """Opens the file again, and finds which state is there. It also takes the document that is written then."""
        chance = random.Random(self.seed * 3_000_017 + number)
        while chance.random() < 0.15:
            # Killed while it opens, or after: this gives nothing that may change what is there.
            run = Run(self.program, self.file, [b"STATS"])
            run.read_until(1, chance.uniform(0, self.opening * 1.2))
            self.counts["kills"] += run.kill()
        asked = questions(number)
        run = Run(self.program, self.file, asked)
        run.read_until(1, PATIENCE)
        self.opening += (time.monotonic() - run.began - self.opening) / 4
        run.end()
        found, _ = run.replies()
        if run.status() != 0:
            raise Crash("losses", f"the file was opened with status {run.status()}, {run.message!r}")
        plain = [model.at_no_moment(reply) for reply in found]
        wanted = []
        for state in states:
            database = state.opened()
            wanted.append([reply_to(database, line) for line in asked])
            if plain == wanted[-1]:
                self.keep(asked, found)
                self.counts["writes acknowledged"] += database.store.last != state.store.last
                self.remember(database)
                self.database = database
                return
        self.judge(asked, plain, wanted, states)

    def keep(self, asked: list[bytes], found: list[bytes]) -> None:
        """No document that nobody wrote since shows another moment than before."""
        for line, reply in zip(asked, found):
            vector, moment = VECTOR.search(reply), model.MOMENTS.search(reply)
            if vector and moment and line.startswith(b"GET "):
                key = line, vector.group(1)
                if self.moments.setdefault(key, moment.group(1)) != moment.group(1):
                    raise Crash("losses", f"{line!r} shows the moment {moment.group(1)!r} in place of {self.moments[key]!r}")

    def judge(self, asked: list[bytes], found: list[bytes], wanted: list[list[bytes]], states: list[model.Database]) -> None:
        """Says what is wrong with what was found."""
        if len(found) != len(asked):
            raise Crash("losses", f"{len(found)} replies to {len(asked)} questions")
        gets = [at for at, line in enumerate(asked) if line.startswith(b"GET ")]
        for at in gets:
            if not any(found[at] == replies[at] for replies in wanted):
                self.judge_document(asked[at], found[at], wanted[0][at], states[0].store.last)
        other = [[at for at in gets if found[at] != replies[at]] for replies in wanted]
        if len(wanted) == 2 and all(other):
            shown = [f"{asked[places[0]]!r} shows {found[places[0]][:200]!r}" for places in other]
            raise Crash("halves", ", but ".join(shown))
        at = next(at for at, _ in enumerate(asked) if all(found[at] != replies[at] for replies in wanted))
        why = f"{asked[at][:80]!r} gives {found[at][:200]!r} in place of {wanted[0][at][:200]!r}"
        raise Crash("losses" if self.is_less(found[0], wanted[0][0]) else "inventions", why)

    def judge_document(self, line: bytes, found: bytes, wanted: bytes, last: int) -> None:
        """A document that neither state has: it is lost if nothing or an older one is in its place."""
        vector = VECTOR.search(found)
        etag = int(vector.group(1)) if vector else 0
        is_old = not vector or (etag <= last and self.history.get((model.folded(line[4:].decode()), etag)) == found)
        why = f"{line!r} shows {found[:200]!r} in place of {wanted[:200]!r}"
        raise Crash("losses" if is_old else "inventions", why)

    @staticmethod
    def is_less(found: bytes, wanted: bytes) -> bool:
        """Whether the counts show an etag that is less."""
        etags = [re.search(rb'"LastDocEtag":([0-9]+)', reply) for reply in (found, wanted)]
        return all(etags) and int(etags[0].group(1)) < int(etags[1].group(1))

    def round(self, number: int) -> bool:
        """One flight, a crash and a look; returns whether all was right."""
        try:
            before, after = self.flight(number)
            self.look(number, [before] if before is after else [before, after])
            return True
        except Crash as crash:
            self.counts[crash.kind] += 1
            print(f"round {number}, seed {self.seed}: {crash.kind}: {crash}\n  the file is kept: {self.file}", flush=True)
        except subprocess.TimeoutExpired:
            self.counts["losses"] += 1
            print(f"round {number}, seed {self.seed}: no end after {PATIENCE} seconds\n  the file is kept: {self.file}", flush=True)
        self.begin()
        return False


def main() -> int:
    options = argparse.ArgumentParser(description="Kills the program at random moments, and looks if what it acknowledged is there.")
    options.add_argument("--program", default=str(PROGRAM))
    options.add_argument("--rounds", type=int, default=200)
    options.add_argument("--seed", type=int, default=1)
    options.add_argument("--folder", help="the folder in which a folder for the files is made; it goes away if all was right")
    options = options.parse_args()
    program = os.path.abspath(options.program)
    if not programs.is_built(program):
        print(f"skipped: no program at {program}")
        return 0
    if not programs.takes_data(program):
        print("skipped: this program takes no --data")
        return 0
    if options.folder:
        os.makedirs(options.folder, exist_ok=True)
    folder = tempfile.mkdtemp(prefix="crash-", dir=options.folder)
    trial = Trial(program, folder, options.seed)
    right = sum([trial.round(number) for number in range(options.rounds)])
    print(", ".join([f"rounds {options.rounds}", *(f"{name} {count}" for name, count in trial.counts.items())]))
    if right == options.rounds:
        shutil.rmtree(folder)
    return 0 if right == options.rounds else 1
