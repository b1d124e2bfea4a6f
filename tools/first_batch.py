#!/usr/bin/env python3
"""Measures how long a new index waits for its first batch, beside a client that deletes as much as it writes and pumps that clean.

    tools/first_batch.py [--program PATH | --model] [--documents N] [--pumps N] [--writes N] [--times N] [--seed S]

A batch that a cleaning overtakes is made anew, and only the first batch of an index can be overtaken. So this prints the seconds to the
first batch of an index over so many documents, 100,000 by default, and to all that was there when it was defined; and how many
documents were deleted meanwhile. How many batches were refused is not seen from outside. The status is 1 if the index gets no batch within
five minutes, or tombstones are left at the end.

The program is that of crates/raven if none is named; it says `skipped` if it is not built. With `--model` the model serves.
"""

import sys

sys.dont_write_bytecode = True
from raven_tools.checks import first_batch

sys.exit(first_batch.main())
