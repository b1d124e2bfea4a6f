"""The table of docs/performance.md: its figures stay as bench/run.py wrote them, its lines and aims are those of bench/figures."""

import sys

from raven_tools.places import TOP

sys.path.append(str(TOP / "bench"))
import harness as _  # puts the folder of this package on the path, which `figures` needs
import report
from figures import LINES


def page(text: str) -> str:
    _, part, _ = report.split(text)
    return report.replaced(text, report.read(part).text(LINES))
