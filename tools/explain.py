#!/usr/bin/env python3
"""Prints each refused line of a script with its number, its reply, the place that the reply names in a text, and when such a refusal comes.

    tools/explain.py SCRIPT REPLIES

REPLIES is what `raven run` has written for SCRIPT, or the beginning of it. When a refusal comes is what the table of docs/script.md says.
"""

import pathlib
import sys

sys.dont_write_bytecode = True
from raven_tools import explaining


def main() -> int:
    if len(sys.argv) != 3:
        print(__doc__)
        return 2
    script, replies = (pathlib.Path(name).read_bytes() for name in sys.argv[1:])
    for line in explaining.explain(script, replies):
        print(line)
    return 0


if __name__ == "__main__":
    sys.exit(main())
