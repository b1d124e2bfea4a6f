#!/usr/bin/env python3
"""Compares the built program with the model, on random scripts and on random sessions over HTTP: what both write has to be the same,
byte for byte, and so have the statuses.

    tools/compare.py [--program PATH | --try] [--rounds N] [--lines N] [--seed N] [--random] [--http | --outside]

Before the random rounds it tries the statuses, the options, files that are opened again and again, and scripts and sessions that
are at each limit or that were worked out by hand. With --random it makes the random scripts alone, with --http the worked and the
random sessions alone, with both the random sessions, and with --outside it tries the statuses, the options and the files alone.
What the two differ on is kept in a file, whose name is printed beside the first line that differs; the status is then 1. At the
end it says how often the random scripts reached each kind of reply, and the sessions each end and each status of a response.

A random session asks what the lines of a random script ask, in any spelling of HTTP; now and then it closes, pieces of it are
lost, come twice or are replaced, or an end follows that is refused or cut short. The batches have the default size, none or a small one.

The moments that documents show are the program's own: each has to be that of 1970 or one of the run, and is then taken as
that of 1970, which the model writes.

With --try no built program is needed: `rt try` builds it once, proves nothing, and runs all scripts. The statuses and the
options, the sessions, and what needs a file, are then left out.
"""

import sys

sys.dont_write_bytecode = True
from raven_tools.checks import compare

sys.exit(compare.main())
