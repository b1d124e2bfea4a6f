"""Random cases of runs: scripts and sessions over HTTP over a keeper that fails now and then, each cut into runs over what the keeper is
left with."""

import itertools
import random
import re

from raven_tools import programs
from raven_tools.making import choice_scripts, http_rounds, kept_rows, lines, map_scripts, multi_scripts, query_scripts, slot_scripts
from raven_tools.making.chance import Chance

LINES = 40
# The bytes that a session may not have.
LONG = 50_000
MAKERS = [slot_scripts.SlotMaker] * 3 + [map_scripts.LagMaker, query_scripts.QueryMaker] + [choice_scripts.ChoiceMaker] * 3
MAKERS += [multi_scripts.MultiMaker] * 2
NAMES = ["U", "V", "w", "É", "_"]
# Bytes that a line of a case may have as they are.
PLAIN = frozenset(range(0x20, 0x7F))


def marked(line: bytes) -> str:
    """The line as a case writes it: what is no plain character is a mark of its bytes, and so is a blank at an end."""
    parts, strange = [], b""
    for at, byte in enumerate(line):
        if byte in PLAIN and not (byte == 0x20 and at in (0, len(line) - 1)):
            parts.append((f"⟨{strange.hex()}⟩" if strange else "") + chr(byte))
            strange = b""
        else:
            strange += bytes([byte])
    return "".join(parts) + (f"⟨{strange.hex()}⟩" if strange else "")


def pieces(data: bytes) -> list[str]:
    """Bytes as the lines of a case."""
    found = []
    for line in re.findall(rb"[^\n]*\n|[^\n]+", data):
        mark, text = ("<", line[:-2]) if line.endswith(b"\r\n") else (">", line[:-1]) if line.endswith(b"\n") else ("|", line)
        found.append(f"{mark} {marked(text)}" if text else mark)
    return found


class CaseMaker(Chance):
    """Makes one case out of a seed."""

    def __init__(self, seed: int):
        super().__init__(random.Random(seed))
        self.seed = seed

    def fails(self, most: int) -> list[int]:
        """The calls of the keeper that fail, often several one after another."""
        found = {self.random.randrange(2, most) for _ in range(self.one_of([0, 1, 3, 8]))}
        return sorted(found | {number + 1 for number in found if self.chance(50)})

    def any_lines(self) -> list[bytes]:
        return self.one_of(MAKERS)(self.seed).script(LINES).split(b"\n")

    def tidied(self) -> list[bytes]:
        """Definitions beside others, most of them fresh, and tidyings up to the end, with a write here and there."""
        names = self.random.sample(NAMES, self.random.randint(2, 5))
        made = [lines.definition(name, *self.one_of(slot_scripts.TEXTS)) for name in names]
        self.random.shuffle(names)
        made += ['PUT users/1 {"Age":7,"Name":"Ada","@metadata":{"@collection":"Users"}}'] * self.chance(70)
        made += [lines.definition(name, *self.one_of(slot_scripts.TEXTS)) for name in names]
        made += ["PUMP 64"] * self.chance(80)
        for _ in range(4):
            made += [self.one_of(['PUT orders/1 {"@metadata":{"@collection":"Orders"}}', "INDEXES", f"SWITCH {names[0]}", "STATS"]), "TIDY"]
        return [line.encode() for line in [*made, "INDEXES"]]

    def script(self, written: list[bytes], stops: float) -> list[str]:
        """The lines of the case, with one more opening here and there."""
        found: list[str] = []
        for line in written:
            text = marked(line)
            found.append(f"> {text}" if text else ">")
            if self.chance(stops):
                found += ["rows", "again"]
        return [*found, "rows"]

    def written(self, name: str, fails: list[int], first: list[str], script: list[bytes]) -> str:
        """The case of these calls that fail, lines before the script, and lines of the script."""
        keeps = [f"keeps {' '.join(map(str, fails))}"] if fails else []
        return "\n".join([f"== {name}", *keeps, *first, *self.script(script, 3), ""]) + "\n"

    def over_kept(self, name: str) -> str:
        """A script over rows of documents and of automatic indexes, of which one is bad now and then."""
        rows = kept_rows.KeptMaker(self.random).rows()
        script = choice_scripts.over(self.seed, rows).script(LINES // 2).split(b"\n")
        return self.written(name, self.fails(70) if self.chance(30) else [], kept_rows.printed(rows), script)

    def case(self, name: str) -> str:
        if self.chance(25):
            return self.over_kept(name)
        is_tidied = self.chance(40)
        return self.written(name, self.fails(24 if is_tidied else 70), [], self.tidied() if is_tidied else self.any_lines())


class SessionCaseMaker(CaseMaker):
    """Makes one case of sessions out of a seed."""

    def faults(self, data: bytes) -> list[str]:
        """Whether single bytes are given, and which calls of the input and of the output fail. Of an input that gives more at once it is
        left open what a failing call leaves unread."""
        found = []
        if len(data) < 3_000 and self.chance(50):
            found.append("gives 1")
            found += [f"reads {self.random.randrange(1, len(data) + 3)}"] * self.chance(30)
        return found + [f"writes {self.random.randrange(1, 30)}"] * self.chance(20)

    def given(self, number: int) -> programs.Given:
        """One session that is not long, since all of it stands in the text of the case."""
        seeds = itertools.count(self.seed * 1_009 + number * 100)
        rounds = (http_rounds.RoundMaker(seed).round("", LINES) for seed in seeds)
        return next(given for given in rounds if len(given.data) < LONG)

    def run(self, number: int) -> list[str]:
        given = self.given(number)
        return [f"arguments {' '.join(given.arguments)}", *self.faults(given.data), "rows", *pieces(given.data)]

    def case(self, name: str) -> str:
        fails = self.fails(60)
        runs = [self.run(number) for number in range(self.one_of([1, 2, 3]))]
        joined = runs[0] + [line for run in runs[1:] for line in ["again", *run]]
        keeps = [f"keeps {' '.join(map(str, fails))}"] if fails else []
        return "\n".join([f"== {name}", *keeps, *joined, ""]) + "\n"


def cases(seed: int, rounds: int, maker: type[CaseMaker] = CaseMaker) -> str:
    """So many cases. Each has its seed in its name."""
    seeds = [seed * 1_000_003 + round_ for round_ in range(rounds)]
    return "".join(maker(each).case(f"seed {each}") for each in seeds)
