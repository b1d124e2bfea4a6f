#!/usr/bin/env python3
"""Kills the program at random moments, and looks if what it has acknowledged is still there.

    tools/crash.py [--program PATH] [--rounds N] [--seed N] [--folder FOLDER]

Each round gives `run --data FILE` a script of writes out of the seed, of documents and of indexes by field and by text, one
line or many, and reads the replies; somewhere on the way, or while the file is opened, the program is killed by SIGKILL.
Then the same file is opened again, and every document, the counts and the indexes are asked for, and one more document is
written. What is found has to be what the model has after the lines that were answered, or after one line more, which was in
flight; that line is there whole or not at all.

It prints the rounds, the kills, the writes acknowledged, and how often something was

- lost: an acknowledged write is not there, or what nobody wrote since shows another moment;
- invented: something is there that no line wrote, or a reply is not the right one;
- halved: a part of a line is there.

It ends with 1 if one of these is not 0, and keeps the file; the seed and the number of the round name the script.
If the program is not built, or takes no `--data`, it says `skipped` and ends with 0.

The killed process loses what it has not handed to the system. What the system has not yet put on the disk is not lost by
this, so a loss of power is not tried here.
"""

import sys

sys.dont_write_bytecode = True
from raven_tools.checks import crash

sys.exit(crash.main())
