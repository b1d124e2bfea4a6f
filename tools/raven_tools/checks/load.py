"""Ages one file: by scripts whose replies are compared with the model, or by clients of a server that delete as much as they write."""

import argparse
import pathlib
import tempfile
import time

from raven_tools import model, programs, servers
from raven_tools.checks import ageing
from raven_tools.making.load_scripts import LoadMaker
from raven_tools.places import PROGRAM


class Wrong(Exception):
    """The program did not end or answer as it has to."""


def executed(program: str, path: pathlib.Path, script: bytes, name: str) -> tuple[bytes, float]:
    """The output and the seconds of a run over the file."""
    began = time.perf_counter()
    done = programs.run(program, script, "--data", path)
    if done.returncode != 0:
        raise Wrong(f"{name} ended with status {done.returncode}")
    return done.stdout, time.perf_counter() - began


def round_of(program: str, path: pathlib.Path, maker: LoadMaker, lines: int) -> tuple[float, float]:
    """One opening, and one run of a script: the seconds of the first, and the lines per second of the other."""
    _, opening = executed(program, path, b"", "an opening")
    script, expected = [], []
    for line in ["AUTO Users Name", *[None] * lines, "PUMP 65536", "FIND Auto/Users/ByName Name ada", "STATS"]:
        line = line or maker.line()
        script.append(line)
        expected.append(model.write_json(model.answer(maker.database, line.encode())).encode())
    written, seconds = executed(program, path, ("\n".join(script) + "\n").encode(), "a round")
    replies = model.at_no_moment(written).split(b"\n")[:-1]
    for line, reply, right in zip(script, replies, expected):
        if reply != right:
            raise Wrong(f"line:   {line[:200]}\nreply:  {reply[:300]!r}\nwanted: {right[:300]!r}")
    if len(replies) != len(script):
        raise Wrong(f"{len(replies)} replies to {len(script)} lines")
    return opening, len(script) / max(seconds - opening, 0.001)


def rounds(options: argparse.Namespace) -> None:
    """Runs the rounds, and prints a row for each."""
    maker = LoadMaker(options.seed, model.Database(), options.ids)
    with tempfile.TemporaryDirectory() as folder:
        path = pathlib.Path(folder) / "load.db"
        print("| Round | Rows | Opening, s | Lines per second | File, MiB |\n|---:|---:|---:|---:|---:|")
        for number in range(1, options.rounds + 1):
            maker.database = maker.database.opened()
            opening, speed = round_of(options.program, path, maker, options.lines)
            size = sum(part.stat().st_size for part in pathlib.Path(folder).iterdir())
            rows = len(maker.database.store.rows)
            print(f"| {number} | {rows} | {opening:.3f} | {speed:,.0f} | {size / 2**20:.1f} |", flush=True)
    print(f"{options.rounds} rounds of {options.lines + 4} lines: all replies right")


def is_takable(options: argparse.Namespace) -> bool:
    if options.model:
        return True
    is_built = programs.is_built(options.program)
    return is_built and (servers.takes_serve(options.program) if options.age else programs.takes_data(options.program))


def main() -> int:
    parser = argparse.ArgumentParser(description="Ages one file, by scripts or by clients of a server.")
    parser.add_argument("--program", default=str(PROGRAM))
    parser.add_argument("--model", action="store_true", help="with --age: the model in Python, which stores nothing")
    parser.add_argument("--age", type=int, default=0, metavar="ROUNDS", help="so many rounds of a server, of as many deletions as writes")
    parser.add_argument("--rounds", type=int, default=10)
    parser.add_argument("--lines", type=int, default=2_000)
    parser.add_argument("--ids", type=int, default=5_000)
    parser.add_argument("--seed", type=int, default=1)
    options = parser.parse_args()
    if options.model and not options.age:
        parser.error("the model serves with --age alone")
    if not is_takable(options):
        print("skipped: the program is not built, or takes no --data or no serve")
        return 0
    command = servers.MODEL if options.model else (options.program,)
    try:
        if options.age:
            ageing.age(command, not options.model, options.age, options.lines, options.ids, options.seed)
        else:
            rounds(options)
    except (Wrong, servers.Wrong) as wrong:
        print(wrong)
        return 1
    return 0
