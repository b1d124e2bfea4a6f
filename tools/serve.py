#!/usr/bin/env python3
"""Starts `raven serve` on free ports, in memory and over files, and looks at what its clients see.

    tools/serve.py [--program PATH | --model] [--rounds N] [--seed N]

- Up to 100 clients write, delete, read and query at once, over connections that stay open for some requests; indexes are defined,
  replaced and removed meanwhile. Each client reads its own writes. Then all is compared with the writes that were acknowledged, in order
  of their etags: each document that was read, each answer that was said to be fresh, each flag that said so or not, and what is there at
  the end. Nothing is lost, changed or invented, and each etag has its write.
- Indexes catch up without a request that asks for it; queries that wait end fresh, or stale after their looks.
- Clients that send nothing, a byte now and then, half a body, that take nothing or leave in the middle of a response go beside good ones.
- A body above the limit is refused so that a client sees it that still sends.
- After `--connections` connections the program ends; a port that is taken, and a file that is open, are reported.
- The server is killed by SIGKILL while clients write to a file, which is then opened again: each acknowledged write is there.

The program is that of crates/raven if none is named. With `--model` the model in Python serves, in memory alone. The seed makes the
requests, but what comes between them depends on timing. It takes some 40 seconds with one round. The status is 1 if something was wrong.
"""

import sys

sys.dont_write_bytecode = True
from raven_tools.checks import serving

sys.exit(serving.main())
