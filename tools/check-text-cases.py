#!/usr/bin/env python3
"""Compares the table of `crates/text_cases` with `raven_tools/language` and `raven_tools/queries`, a second reading of the rules.

    tools/check-text-cases.py            what is stored as the program's output is what the rules give
    tools/check-text-cases.py --write    stores what the rules give

The tables of `raven_tools/making/worked.py` and `worked_queries.py`, whose values were worked out by hand, have to be in the table and to agree with it.
"""

import sys

sys.dont_write_bytecode = True
from raven_tools.checks import text_cases

sys.exit(text_cases.main())
