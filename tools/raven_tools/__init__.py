"""What the tools of this repository share.

- `model` answers scripts and sessions over HTTP as the program has to, and models whole runs of it;
- `language` is the language of index definitions, and `queries` that of queries, which `model` uses;
- `making` makes scripts and sessions: random ones, ones at each limit, and cases that were worked out by hand;
- `checks` has one module for each tool that compares something;
- `pages` makes the pages of docs/ that follow from the sources.

`model`, `language` and `queries` are written from the rules of docs/ and not from the program. The executables are in the folder above.
Each sets `sys.dont_write_bytecode` before it imports from here, so no run leaves bytecode in the checkout.
"""
