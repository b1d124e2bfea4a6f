#!/usr/bin/env python3
"""Runs a command and prints what its provers cost: CPU seconds and memory for each crate, by what they were spent on.

    tools/gate_cost.py rt ci                  the command's own output, and then the table on standard error
    tools/gate_cost.py -o cost.txt rt ci      the table in a file too

CPU seconds hardly depend on what else the machine does; wall seconds do. Only processes below the command count, each as it was
last seen, about once a second. The status is that of the command.
"""

import argparse
import collections
import os
import pathlib
import re
import subprocess
import sys
import time
import typing

TICKS = os.sysconf("SC_CLK_TCK")
KINDS = ["proof", "tests", "edits", "programs", "other"]


class Process(typing.NamedTuple):
    parent: int
    cpu: float  # seconds
    memory: int  # bytes
    start: str  # with the process id, distinguishes it from a later process of this id


class Cost:
    """What one process of a prover has cost so far."""

    def __init__(self, crate, kind):
        self.crate = crate
        self.kind = kind
        self.cpu = 0.0
        self.memory = 0


def processes():
    found = {}
    for pid in filter(str.isdigit, os.listdir("/proc")):
        try:
            parts = pathlib.Path(f"/proc/{pid}/stat").read_text().rsplit(")", 1)[1].split()
        except OSError:
            continue
        cpu = (int(parts[11]) + int(parts[12])) / TICKS
        found[int(pid)] = Process(int(parts[1]), cpu, int(parts[21]) * os.sysconf("SC_PAGE_SIZE"), parts[19])
    return found


def below(root, table):
    """The process ids of a process and of all below it that are running."""
    children = collections.defaultdict(list)
    for pid, process in table.items():
        children[process.parent].append(pid)
    waiting, found = [root], []
    while waiting:
        pid = waiting.pop()
        found += [pid] if pid in table else []
        waiting += children[pid]
    return found


def kind_of(words, folder):
    if "rt-edit" in folder or any("rt-edit" in word for word in words):
        return "edits"
    if "--test" in words:
        return "tests"
    if "--crate-checked" in words or "src/main.rt" in words:
        return "programs"
    return "proof" if words[1] in ("build", "check") else "other"


def cost_of(pid):
    """An empty cost of the crate that a prover works on, or None if the process is no prover."""
    try:
        words = pathlib.Path(f"/proc/{pid}/cmdline").read_bytes().decode(errors="replace").split("\0")
        folder = os.readlink(f"/proc/{pid}/cwd")
    except OSError:
        return None
    crate = re.search(r"--crate-name (\S+)", " ".join(words))
    if os.path.basename(words[0]) != "rattle" or not crate:
        return None
    return Cost(crate[1], kind_of(words, folder))


def look(root, seen):
    table = processes()
    for pid in below(root, table):
        process = table[pid]
        cost = seen.get((pid, process.start)) or cost_of(pid)
        if cost:
            cost.cpu = max(cost.cpu, process.cpu)
            cost.memory = max(cost.memory, process.memory)
            seen[pid, process.start] = cost


def row(name, kinds, digits, more=""):
    cells = "".join(f"{cost:10.{digits}f}" for cost in [*(kinds[kind] for kind in KINDS), sum(kinds.values())])
    return f"{name:20}{cells}{more}"


def table_of(costs, wall):
    seconds = collections.defaultdict(lambda: dict.fromkeys(KINDS, 0.0))
    memory = collections.Counter()
    for cost in costs:
        seconds[cost.crate][cost.kind] += cost.cpu
        memory[cost.crate] = max(memory[cost.crate], cost.memory)
    lines = [f"{'crate':20}" + "".join(f"{kind:>10}" for kind in [*KINDS, "all"]) + f"{'GB':>9}"]
    for crate, kinds in sorted(seconds.items(), key=lambda pair: -sum(pair[1].values())):
        lines.append(row(crate, kinds, 0, f"{memory[crate] / 1e9:9.1f}"))
    lines.append(row("CPU minutes", {kind: sum(kinds[kind] for kinds in seconds.values()) / 60 for kind in KINDS}, 1))
    return "\n".join([*lines, f"wall minutes {wall / 60:.1f}, {os.cpu_count()} processors"])


def main():
    given = argparse.ArgumentParser(description=__doc__, formatter_class=argparse.RawDescriptionHelpFormatter)
    given.add_argument("-o", metavar="FILE", type=pathlib.Path, help="a file for the table too")
    given.add_argument("command", nargs=argparse.REMAINDER)
    asked = given.parse_args()
    if not asked.command:
        given.error("no command was given, such as rt ci")
    began, seen = time.time(), {}
    running = subprocess.Popen(asked.command)
    while running.poll() is None:
        look(running.pid, seen)
        time.sleep(1)
    text = table_of(seen.values(), time.time() - began)
    print(text, file=sys.stderr)
    if asked.o:
        asked.o.write_text(text + "\n")
    return running.returncode


if __name__ == "__main__":
    sys.exit(main())
