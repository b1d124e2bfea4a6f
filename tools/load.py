#!/usr/bin/env python3
"""Ages one file: round after round the program opens it, writes and reads much, and ends; each reply is compared with the model.

    tools/load.py [--program PATH] [--rounds N] [--lines N] [--ids N] [--seed S]
    tools/load.py [--program PATH | --model] --age ROUNDS [--lines N] [--ids N] [--seed S]

The program is that of crates/raven if none is named. Each round is one call of `raven run --data FILE` with a script
of so many lines over so many ids: puts, puts and deletions with a vector, transactions, reads, and with them an index that
begins anew at each opening, is pumped and is asked. It prints a row a round: the rows that are stored, the seconds to open the
file (of a script without a line), lines per second, and the size of the file with its log. It ends with 1 if a reply is wrong.

With `--age` it ages a file of `raven serve --data FILE` instead: each round writes so many documents under new ids in transactions, and
deletes as many of those that are there, so that so many ids are live after each round. The pumps clean meanwhile. Once the indexes have
caught up and no tombstone is left it prints a row: the tombstones when the writes had ended and then, writes per second, and the size of
the file with its log beside that of the bodies that are live. It ends with 1 if tombstones or other documents are left. With
`--model` the model in Python serves, which stores nothing.

If the program is not built or takes no `--data`, it says `skipped` and ends with 0.
"""

import sys

sys.dont_write_bytecode = True
from raven_tools.checks import load

sys.exit(load.main())
