#!/usr/bin/env python3
"""Runs each script of examples/, and each one that pages of docs/ show, and compares what is written with what is beside it, byte
for byte. The moments that documents show are the program's own, and are taken as that of 1970, which is expected.

    tools/check-examples.py                   the built program of crates/raven, or `rt try` if it is not built yet
    tools/check-examples.py --program PATH    this program
    tools/check-examples.py --model           the model in Python

The status is 1 if one differs, and 2 if there is no program.
"""

import sys

sys.dont_write_bytecode = True
from raven_tools.checks import examples

sys.exit(examples.main())
