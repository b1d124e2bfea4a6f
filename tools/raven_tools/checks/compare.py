"""Compares the built program with the model: on random scripts and sessions over HTTP, on those at each limit, and on worked ones."""

import argparse
import collections
import collections.abc
import datetime
import pathlib
import shutil
import sys
import tempfile

from raven_tools import model, programs
from raven_tools.checks.outside import outside
from raven_tools.making import MAKERS, case_scripts, http_rounds, limit_scripts, worked_choices, worked_multi, worked_slots
from raven_tools.model import keeping, messages, running
from raven_tools.places import PROGRAM
from raven_tools.programs import Given
from raven_tools.responses import responses_of

# `rt try` gives no answer past this.
MAX_TRIED = 1_048_576
Runs = collections.abc.Iterable[Given]
# How often something was reached.
Kinds = collections.Counter[str]


def moment_now(seconds: float) -> str:
    """The moment so many seconds from now, as a document shows it."""
    now = datetime.datetime.now(datetime.timezone.utc) + datetime.timedelta(seconds=seconds)
    return now.strftime("%Y-%m-%dT%H:%M:%S.%f0Z")


def wrong_moment(written: bytes, began: str, ended: str) -> bytes | None:
    """A moment that is neither that of 1970 nor one of the run, if there is one. Texts of moments are in the order of these."""
    for moment in model.MOMENTS.findall(written):
        if moment.decode() != model.MOMENT and not began <= moment.decode() <= ended:
            return moment
    return None


def expected_of(given: Given) -> tuple[str, bytes]:
    """The status and what is written."""
    return running.run(running.Outside(given.arguments, script=given.data), keeping.Keeper())


def differs(program: str, given: Given, kinds: Kinds) -> bool:
    """Whether the two differ on what is given. If so it prints where, and keeps the bytes."""
    status, expected = expected_of(given)
    if given.arguments[0] == "http":
        kinds.update([status, *(str(response.status) for response in responses_of(expected))])
    began = moment_now(-2)
    ended = programs.call(program, given.arguments, given.data)
    wrong = wrong_moment(ended.stdout, began, moment_now(2))
    found, message = model.at_no_moment(ended.stdout), ended.stderr.decode(errors="replace")
    wanted, said = programs.NUMBERS[status.split(" ")[0]], messages.message_of(status)
    if (ended.returncode, message, found) == (wanted, said, expected) and not wrong:
        return False
    kept = tempfile.NamedTemporaryFile(prefix="differs-", suffix="." + given.arguments[0], delete=False)
    with kept:
        kept.write(given.data)
    print(f"{given.name}: they differ on {' '.join(given.arguments)} < {kept.name}")
    if ended.returncode != wanted:
        print(f"status: model {wanted}, program {ended.returncode}")
    if message != said:
        print(f"standard error: model {said!r}, program {message[-300:]!r}")
    if wrong:
        print(f"a moment that is not one of the run: {wrong.decode()}")
    if expected != found:
        print(programs.first_difference(expected, found))
    return True


def differing_if_tried(given: Runs) -> int:
    """How many scripts differ if `rt try` runs them all; it prints where, and keeps the scripts if any differs."""
    folder = pathlib.Path(tempfile.mkdtemp(prefix="differs-"))
    scripts, expected, left_out = {}, {}, 0
    for run in given:
        replies = expected_of(run)[1]
        if len(replies) > MAX_TRIED:
            left_out += 1
            continue
        case = f"{len(scripts):04}"
        scripts[case], expected[case] = run.data, (run.name, replies)
    began = moment_now(-2)
    written, messages = programs.tried(scripts, folder)
    ended = moment_now(2)
    found = 0
    for case, (name, replies) in expected.items():
        its = written.get(case, b"no answer")
        if model.at_no_moment(its) != replies or wrong_moment(its, began, ended):
            found += 1
            print(f"{name}: they differ on {folder / case}")
            print(programs.first_difference(replies, model.at_no_moment(its)))
    if found:
        print(messages[-2000:])
    else:
        shutil.rmtree(folder)
    if left_out:
        print(f"{left_out} scripts have too many replies for `rt try` and were left out")
    return found


def options() -> argparse.Namespace:
    given = argparse.ArgumentParser(description="Compares the built program with the model.")
    given.add_argument("--program", default=str(PROGRAM))
    given.add_argument("--try", dest="is_tried", action="store_true")
    given.add_argument("--rounds", type=int, default=200)
    given.add_argument("--lines", type=int, default=60)
    given.add_argument("--seed", type=int, default=1)
    given.add_argument("--random", action="store_true")
    given.add_argument("--outside", action="store_true")
    given.add_argument("--http", action="store_true")
    return given.parse_args()


def seeds_of(given: argparse.Namespace) -> list[tuple[str, int]]:
    """The seed of each round, with its name."""
    return [(f"seed {given.seed}, round {round_}", given.seed * 1_000_003 + round_) for round_ in range(given.rounds)]


def worked_scripts() -> Runs:
    worked = (worked_slots.scripts(), worked_choices.scripts(), worked_multi.scripts())
    for scripts in (limit_scripts.at_the_limits(), case_scripts.at_the_limits(), *worked):
        for name, script in scripts:
            yield Given(name, script)


def random_scripts(given: argparse.Namespace, kinds: Kinds) -> Runs:
    """How often they reach each kind of reply is counted."""
    for round_, (name, seed) in enumerate(seeds_of(given)):
        maker = MAKERS[round_ % len(MAKERS)](seed)
        yield Given(name, maker.script(given.lines))
        kinds.update(maker.kinds)


def random_sessions(given: argparse.Namespace) -> Runs:
    for name, seed in seeds_of(given):
        yield http_rounds.RoundMaker(seed).round(name, given.lines)


def runs_of(given: argparse.Namespace, kinds: Kinds) -> Runs:
    """With `--random` the random ones alone, and with `--http` sessions alone. `rt try` runs scripts alone."""
    if not given.http:
        yield from [] if given.random else worked_scripts()
        yield from random_scripts(given, kinds)
    if given.http or not given.random and not given.is_tried:
        yield from [] if given.random else http_rounds.worked()
        yield from random_sessions(given)


def main() -> int:
    sys.setrecursionlimit(10_000)
    given = options()
    if given.is_tried and given.http:
        print("`rt try` runs scripts alone")
        return 2
    if not given.is_tried and not programs.is_built(given.program):
        print(f"no program at {given.program}")
        return 1
    if given.outside:
        found = outside(given.program, given.seed, given.lines)
        print(f"statuses, options and files: {found} are wrong")
        return 1 if found else 0

    kinds: Kinds = collections.Counter()
    runs = runs_of(given, kinds)
    if given.is_tried:
        found = differing_if_tried(runs)
    else:
        found = 0 if given.random or given.http else outside(given.program, given.seed, given.lines)
        found += sum(differs(given.program, run, kinds) for run in runs)
    print("reached: " + ", ".join(f"{kind} {count}" for kind, count in kinds.most_common()))
    what = "sessions" if given.http else "scripts" if given.random or given.is_tried else "scripts and as many sessions"
    before = "" if given.random else "the worked ones and "
    print(f"{before}{given.rounds} random {what} of {given.lines} lines with seed {given.seed}: {found} differ")
    return 1 if found else 0
