#!/usr/bin/env python3
"""Refuses each allocation of some runs in turn, and looks if what was written and stored is a prefix of the whole run.

    tools/memory.py [--program PATH] [--case WORD] [--every N]

The built program `raven_cases` runs each case of tools/data/memory-cases.txt once for each allocation that it makes, of which that one
is refused. If its status is then NoMemory, the replies have to be a prefix of all replies, each whole, and the rows that the keeper
holds those of a prefix of the changes: of no change behind the line whose reply is missing, and of each change before it. What
the whole run is, is the model's word. If memory ran out in the program of cases itself, it ends with an error, and prints no case, or
the beginning of one. If what was refused was not needed, all is printed as ever.

With --case only the cases with this word in their name are run, with --every only each N-th allocation is refused. The status is 1 if one run
ends in another way, or if no run of a case ended with NoMemory. If the program is not built, or there is no C compiler (`CC`, or `cc`) for
the library that refuses, it says `skipped` and ends with 0.
"""

import sys

sys.dont_write_bytecode = True
from raven_tools.checks import memory

sys.exit(memory.main())
