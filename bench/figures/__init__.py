"""What is measured, by the name that `--only` takes. Each module has its lines of the table, and measures them."""

from figures import batches, file, finds, idle, indexes, instructions, memory, million, puts, queries, reduces, several, threads, totals

GROUPS = {
    "puts": puts,
    "file": file,
    "memory": memory,
    "batches": batches,
    "idle": idle,
    "finds": finds,
    "queries": queries,
    "indexes": indexes,
    "totals": totals,
    "reduces": reduces,
    "several": several,
    "million": million,
    "threads": threads,
    "instructions": instructions,
}
# What takes so long that it is measured only if it is asked for.
LONG = {"million"}
LINES = {name: group.LINES for name, group in GROUPS.items()}
