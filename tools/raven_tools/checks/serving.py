"""Starts the command `serve` and looks at what its clients see: many at once, slow ones, its ends, and a kill."""

import argparse
import os
import pathlib
import sys
import tempfile
import threading
import time

from raven_tools import programs
from raven_tools.places import PROGRAM
from raven_tools.serving import ends, judging, kills, load, slow
from raven_tools.servers import MODEL, Client, Server, Wrong, takes_serve

# How many of the findings of a check are printed.
MOST_SAID = 20


class Checks:
    """Runs checks, and prints what each found."""

    def __init__(self, command: tuple[str, ...], folder: pathlib.Path):
        self.command, self.folder = command, folder
        self.failed = 0
        self.lock = threading.Lock()

    def run(self, name: str, check, *given: object) -> None:
        """A check gives what is wrong, or that and a remark."""
        began = time.monotonic()
        try:
            found = check(*given)
        except Wrong as fault:
            found = [str(fault)]
        wrong, remark = found if isinstance(found, tuple) else (found, "")
        with self.lock:
            self.failed += bool(wrong)
            print(f"{'differs' if wrong else 'holds  '}  {name}, {time.monotonic() - began:.1f} s{remark}")
            for said in wrong[:MOST_SAID]:
                print(f"  {said}")
            if len(wrong) > MOST_SAID:
                print(f"  and {len(wrong) - MOST_SAID} more")
            sys.stdout.flush()

    # the checks

    def loaded(self, clients: int, requests: int, seconds: float, seed: int, *options: str):
        """Many clients at once over one server."""
        with Server(self.command, "--workers", "8", *options) as server:
            log, definer, listed = load.run(server.port, clients, requests, seconds, seed)
            with Client(server.port) as client:
                wrong, judge = judging.judged(log, definer, listed, client)
            if not server.runs():
                wrong.append(f"the server ended: {server.end()}")
        if not judge.fresh or not judge.stale:
            wrong.append(f"{judge.fresh} answers were fresh and {judge.stale} stale, so one kind was not judged")
        if not judge.cleaned:
            wrong.append("no tombstone was cleaned")
        remark = f": {log.requests} requests of {clients} clients, {len(log.history.writes)} writes, the longest {log.longest:.2f} s, "
        answers = f"{judge.fresh} fresh and {judge.stale} stale answers, {judge.unsure} of unknown etags"
        return wrong, remark + f"{answers}, {judge.cleaned} deleted ids were cleaned"

    def killed(self, rounds: int, seed: int):
        wrong, writes, times = kills.kills(self.command, self.folder, rounds, seed)
        if not wrong and not writes:
            wrong.append("no write was acknowledged before a kill")
        return wrong, f": {times} kills, {writes} writes acknowledged"


def all_checks(checks: Checks, rounds: int, seed: int, is_model: bool) -> None:
    """The slow clients take their time beside the others."""
    beside = threading.Thread(target=checks.run, args=("slow and stuck clients", slow.slow, checks.command))
    beside.start()
    checks.run("ends, ports and names", ends.ends, checks.command)
    checks.run("large bodies", slow.large, checks.command)
    checks.run("connections that are kept", slow.idle, checks.command)
    for round_ in range(rounds):
        number = seed * 1_000 + round_
        clients, requests = (10, 30) if is_model else (30 + number * 17 % 71, 60)
        checks.run(f"clients at once, in memory, seed {number}", checks.loaded, clients, requests, 8, number)
    if not is_model:
        checks.run("files", ends.files, checks.command, checks.folder)
        for round_ in range(rounds):
            number = seed * 1_000 + round_
            data = ("--data", str(checks.folder / f"load-{number}.db"))
            checks.run(f"clients at once, in a file, seed {number}", checks.loaded, 40, 40, 8, number, *data)
        checks.run("kills", checks.killed, 3 + rounds * 3, seed)
    beside.join()


def main() -> int:
    sys.setrecursionlimit(10_000)
    given = argparse.ArgumentParser(description="Checks the command serve.")
    given.add_argument("--program", default=str(PROGRAM))
    given.add_argument("--model", action="store_true", help="the model in Python, which stores nothing, and with fewer clients")
    given.add_argument("--rounds", type=int, default=1)
    given.add_argument("--seed", type=int, default=1)
    given = given.parse_args()
    program = os.path.abspath(given.program)
    if not given.model and not programs.is_built(program):
        print(f"no program: {program}")
        return 2
    if not given.model and not takes_serve(program):
        print("skipped: this program has no command serve")
        return 0
    with tempfile.TemporaryDirectory(prefix="serve-") as folder:
        checks = Checks(MODEL if given.model else (program,), pathlib.Path(folder))
        all_checks(checks, given.rounds, given.seed, given.model)
    print(f"{checks.failed} checks of the command serve differ")
    return 1 if checks.failed else 0
