"""Where things are in the repository."""

import pathlib

TOP = pathlib.Path(__file__).resolve().parents[2]
CRATES = TOP / "crates"
PROGRAM = CRATES / "raven/out/raven"
DATA = TOP / "tools/data"
