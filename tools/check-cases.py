#!/usr/bin/env python3
"""Compares what is expected of the cases with the model: both have to be the same, byte for byte.

    tools/check-cases.py [FOLDER]              reads stdin and stdout of crates/raven_cases, or of this folder
    tools/check-cases.py --write [FOLDER]      writes stdout, as the model computes it from the rules
    tools/check-cases.py --random N [--http] [--seed N] [--program PATH]
    tools/check-cases.py --worked FILE [--program PATH]

Each script of examples/ and of pages of docs/ has to be a case of raven_cases too. A case on which the two differ is printed with
its first line that differs; the status is then 1.

With --random the built program `raven_cases` runs so many random cases, whose keepers fail now and then and are opened again and
again, and what it prints is compared with the model. So a fault of the keeper in the middle of a tidying is compared too, which no
file shows at a wish. With --http the cases are sessions, whose input and output fail too. The cases stay in a folder if one differs. If
the program is not built, it says `skipped` and ends with 0.

With --worked it reads a file that has what is printed beside each case, such as tools/data/session-cases.txt, and compares it with
the model, and with the program `raven_cases` if one is named.
"""

import sys

sys.dont_write_bytecode = True
from raven_tools.checks import cases

sys.exit(cases.main())
