#!/usr/bin/env python3
"""Runs each command that docs/http.md and docs/tour.md show, most of them lines of curl, and compares what is written with what is beside it,
byte for byte but for line ends and moments. Those of a page run one after another over one database, which `raven serve` serves on a free port,
and whose indexes have caught up before each. `http.client` asks too: over one connection, in chunks, and with large bodies.

    tools/curl.py                   the built program of crates/raven
    tools/curl.py --program PATH    this program
    tools/curl.py --model           the model in Python

The status is 1 if one differs, and 2 if there is no program. Without curl it is 1 too, unless the variable RAVEN_WITHOUT_CURL is 1.
"""

import sys

sys.dont_write_bytecode = True
from raven_tools.checks import curl

sys.exit(curl.main())
