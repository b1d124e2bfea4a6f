"""The memory of a document, relative to its JSON text as it is stored, without what the server adds."""

import collections.abc

import harness
from figures import documents
from figures.stores import InFile
from harness import Bench, script_of, stats
from report import Aim, Figure, Line

KINDS = ((60, "60 bytes", 30_000), (1_024, "1 KiB", 10_000), (16_384, "16 KiB", 900))
# What 400 bytes are of 60.
SMALL_AIM = 6.67
AIMS = {("memory", 60): SMALL_AIM, ("memory", 1_024): 3, ("file", 1_024): 2.5}


def line_of(place: str, size: int, text: str) -> Line:
    bound = AIMS.get((place, size))
    kept = "in memory" if place == "memory" else "opened from a file"
    return Line(f"Memory of a document of {text}, {kept}", "its JSON text", Aim("at most", bound) if bound else None)


LINES = tuple(line_of(place, size, text) for place in ("memory", "file") for size, text, _ in KINDS)


def in_memory(bench: Bench, size: int, count: int) -> float:
    """The peak of a run that fills a store, less that of a run that gets as many bytes and keeps nothing."""
    first = documents.filling(count, size)
    filled = bench.run([*first, "STATS"], stats(count, 0, count))
    nothing = harness.run([bench.program, "run"], b"x" * len(script_of(first)))
    return (filled.peak - nothing.peak) * 1024 / count


def measure(bench: Bench) -> collections.abc.Iterator[Figure]:
    if not harness.reports_peaks():
        raise harness.Missing(f"{harness.GNU_TIME}, which reports the peak of memory")
    for size, text, count in KINDS:
        bench.check([*documents.filling(12, size), *documents.get_lines(3, 12)])
        each = in_memory(bench, size, bench.size(count))
        yield Figure(line_of("memory", size, text), each / size, f"{each:,.0f} bytes")
    for size, text, count in KINDS:
        each = InFile(bench, count, size).bytes_each()
        yield Figure(line_of("file", size, text), each / size, f"{each:,.0f} bytes")
