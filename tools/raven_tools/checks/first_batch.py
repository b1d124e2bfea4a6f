"""How long a new index waits for its first batch beside a client that deletes."""

import argparse

from raven_tools import programs
from raven_tools.checks import ageing
from raven_tools.places import PROGRAM
from raven_tools.servers import MODEL, Wrong, takes_serve


def main() -> int:
    given = argparse.ArgumentParser(description="How long a new index waits for its first batch beside a client that deletes.")
    given.add_argument("--program", default=str(PROGRAM))
    given.add_argument("--model", action="store_true", help="the model in Python")
    given.add_argument("--documents", type=int, default=100_000)
    given.add_argument("--pumps", type=int, default=2)
    given.add_argument("--writes", type=int, default=1, help="how many documents a transaction deletes and writes")
    given.add_argument("--times", type=int, default=1)
    given.add_argument("--seed", type=int, default=1)
    given = given.parse_args()
    if not given.model and not (programs.is_built(given.program) and takes_serve(given.program)):
        print("skipped: the program is not built, or takes no serve")
        return 0
    command = MODEL if given.model else (given.program,)
    try:
        for number in range(given.times):
            ageing.first_batch(command, given.documents, given.pumps, given.writes, given.seed + number)
    except Wrong as wrong:
        print(wrong)
        return 1
    return 0
