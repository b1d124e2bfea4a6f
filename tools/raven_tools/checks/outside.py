"""Compares statuses, options and files: what no single script shows."""

import functools
import os
import resource
import subprocess
import tempfile

from raven_tools import model
from raven_tools.checks.files import files
from raven_tools.checks.sessions import sessions
from raven_tools.checks.unopened import unopened
from raven_tools.making import MAKERS
from raven_tools.model import messages, usage
from raven_tools.programs import STATUSES, first_difference, run


HELP = {
    "run": ["--data <FILE>", "--id <BASE>", "[default: AAAAAAAAAAAAAAAAAAAAAA]"],
    "serve": [
        *["--data <FILE>", "--id <BASE>", "--db <NAME>", "[default: db]", "--port <N>", "[default: 8080]", "--workers <N>", "[default: 4]"],
        *["--pumps <N>", "[default: 2]", "--connections <N>"],
    ],
    "http": ["--data <FILE>", "--id <BASE>", "--db <NAME>", "[default: db]", "--pump <N>", "[default: 1024]"],
    "measure": ["--seed <N>", "[default: 1]", "--docs <N>", "[default: 2000]", "--batch <N>", "[default: 1024]"],
}
"""What the help says of each command: its options and their defaults."""


OVERVIEW = "Usage: raven <COMMAND>"


def parts_of(text: str) -> dict[str, str]:
    """The help of each command that a text has."""
    found = {name: text.partition(f"Usage: raven {name} ")[2].partition("Usage:")[0] for name in HELP}
    return {name: part for name, part in found.items() if part}


def is_help(text: str, command: str | None = None) -> bool:
    """Whether a text is the help of a command and of nothing else; or, without one, of the program and of each command."""
    found = parts_of(text)
    is_whole = all(part in said for name, said in found.items() for part in HELP[name])
    return is_whole and list(found) == ([command] if command else list(HELP)) and (OVERVIEW in text) == (command is None)


def is_overview(text: str) -> bool:
    """Whether a text names the commands, and has the help of none."""
    return OVERVIEW in text and not parts_of(text) and all(f"\n  {name} " in text for name in HELP)


def helps(program: str) -> int:
    """How many of the calls for a text about the program are wrong."""
    wrong = 0
    for arguments in (["--help"], ["-h"], ["run", "--help"], ["http", "-h"], ["serve", "--help"], ["measure", "-h"]):
        ended = subprocess.run([program, *arguments], capture_output=True, timeout=60)
        if ended.returncode or ended.stderr or not is_help(ended.stdout.decode(), *arguments[:-1]):
            wrong += 1
            print(f"arguments {arguments}: status {ended.returncode}, {ended.stdout.decode()}, {ended.stderr!r}")
    for arguments in (["--version"], ["-V"]):
        ended = subprocess.run([program, *arguments], capture_output=True, timeout=60)
        if ended.returncode or ended.stderr or not ended.stdout.startswith(b"raven "):
            wrong += 1
            print(f"arguments {arguments}: status {ended.returncode}, {ended.stdout!r}")
    return wrong


STACK = 8 << 20
"""The stack that a program has on Linux by default."""


def depths(program: str) -> int:
    """How many conditions of as many parts as a text can have are not answered as `true` is, on a stack of that size."""
    wrong = 0
    for word in ("or", "and"):
        query = f"QUERY from Users where {f' {word} '.join(['true'] * (8_000 if word == 'or' else 7_000))}"
        script = f'PUT users/1 {{"@metadata":{{"@collection":"Users"}}}}\nQUERY from Users where true\n{query}\n'
        limit = functools.partial(resource.setrlimit, resource.RLIMIT_STACK, (STACK, STACK))
        ended = subprocess.run([program, "run"], input=script.encode(), capture_output=True, preexec_fn=limit, timeout=60)
        _, plain, long, *_ = [*ended.stdout.decode().splitlines(), "", "", ""]
        if ended.returncode or not plain or plain != long:
            wrong += 1
            print(f"parts joined by `{word}`: status {ended.returncode}, {long[:200]!r} in place of {plain[:200]!r}")
    return wrong


def tells_usage(text: str, arguments: list) -> bool:
    """Whether a text is the help for who wrote these malformed arguments, and in its last line what is wrong with them."""
    command = usage.command_of(arguments)
    helps_with, _, last = text.removesuffix("\n").rpartition("\n")
    return (is_help(helps_with, command) if command else is_overview(helps_with)) and last == f"raven: {usage.mistake(arguments)}"


def has_status(program: str, arguments: list, wanted: int, name: str, given=None, taken=None) -> bool:
    """Whether the program, called with these arguments, input and output, writes nothing and reports this status. Without an input
    it is given a line of a script, of which HTTP is refused."""
    ways = {"stdin": given} if given is not None else {"input": b"PUT a {}\n"}
    ended = subprocess.run([program, *arguments], stdout=taken or subprocess.PIPE, stderr=subprocess.PIPE, timeout=60, **ways)
    message = f"raven: {STATUSES[wanted]}".encode()
    first, _, rest = ended.stderr.partition(b"\n")
    is_whole = tells_usage(rest.decode(), arguments) if wanted == 2 else ended.stderr.decode() == messages.message_of(STATUSES[wanted])
    if ended.returncode == wanted and not ended.stdout and first == message and is_whole:
        return True
    print(f"{name}: status {ended.returncode} in place of {wanted}, {ended.stderr!r} in place of {message!r}, output {ended.stdout!r}")
    return False


def statuses(program: str) -> int:
    """How many of the statuses that no script can have are wrong."""
    calls = [[], ["RUN"], ["help"], ["help", "run"], ["--help", "run"], ["start", "--help"], ["run", "run"], ["run", ""], [""], [b"run\xff"], ["--data", "x"], ["run", "--db", "x"]]
    calls += [["run", "--data"], ["run", "--data", ""], ["run", "--data", "-x"], ["run", "--data=x"], ["run", "--data", "x", "y"]]
    calls += [["run", "--id", text] for text in ("short", "A" * 21, "A" * 23, "A" * 21 + "-", "A" * 21 + "\u00e9")]
    calls += [["run", "--data", "x", "--data", "x"], ["run", "--id", "A" * 22, "--id", "A" * 22]]
    calls += [["HTTP"], ["http", "x"], ["http", "--db"], ["http", "--db", "db", "--db", "db"], ["http", "--port", "80"], ["run", "--pump", "1"]]
    calls += [["http", "--db", name] for name in ("", "-db", "a b", "a/b", "a.b", "\u00e9", "x" * 65)]
    calls += [["http", "--pump", number] for number in ("", "-1", "+1", "1.0", "x", "65537", "00000000001", "\u0663")]
    calls += [["SERVE"], ["serve", "x"], ["serve", "--port"], ["serve", "--pump", "1"], ["serve", "--host", "x"], ["serve", "--port=0"]]
    calls += [["serve", "--port=1", "--workers", "65"], ["serve", "--bogus", "1"], ["serve", "--port="], ["measure", "--docs", "0"], ["measure", "x"]]
    calls += [["run", "--data", "a\nb", "c d\x1b"], ["run", "a b"], ["measure", "--seed", "9", "--batch"], ["\u00e9"]]
    calls += [["serve", "--port", "0", "--port", "0"], ["serve", "--db", "a b"], ["serve", "--id", "short"], ["serve", "--data", ""]]
    calls += [["serve", "--port", number] for number in ("65536", "-1", "", "x", "00000000000", "\u0660")]
    calls += [["serve", "--workers", number] for number in ("0", "65", "4294967297", "1.0")]
    calls += [["serve", "--pumps", number] for number in ("0", "17", "+1")]
    calls += [["serve", "--connections", number] for number in ("0", "1000001", "99999999999")]
    wrong = sum(not has_status(program, arguments, 2, f"arguments {arguments}") for arguments in calls)
    with open("/dev/full", "wb") as full:
        wrong += not has_status(program, ["run"], 4, "a full output", taken=full)
        wrong += not has_status(program, ["http"], 4, "a full output of a session", taken=full)
    with tempfile.TemporaryFile() as large:
        large.write(b"PUT a {}\n" * (model.MAX_SCRIPT // 9 + 1))
        large.seek(0)
        wrong += not has_status(program, ["run"], 9, "an input that is too large", given=large)
    folder = os.open("/", os.O_RDONLY)
    try:
        wrong += not has_status(program, ["run"], 3, "an input that cannot be read", given=folder)
        wrong += not has_status(program, ["http"], 3, "a session that cannot be read", given=folder)
    finally:
        os.close(folder)
    return wrong


def options(program: str) -> int:
    """How many of the calls with `--id` and `--data` are wrong."""
    base, other = model.BASE, "0123456789abcdefghiXYZ"
    with tempfile.TemporaryDirectory() as folder:
        kept = os.path.join(folder, "kept")
        stats = '{"CountOfDocuments":2,"CountOfIndexes":0,"CountOfTombstones":0,"LastDocEtag":3}\n'
        cases = [
            (["--id", other], "PUT a {}\n", f'{{"ChangeVector":"A:1-{other}","Id":"a"}}\n'),
            (["--data", kept], "PUT a {}\n", f'{{"ChangeVector":"A:1-{base}","Id":"a"}}\n'),
            (["--data", kept], "PUT b {}\n", f'{{"ChangeVector":"A:2-{base}","Id":"b"}}\n'),
            (["--id", other, "--data", kept], f"PUTIF A A:1-{other} {{}}\n", f'{{"ChangeVector":"A:3-{other}","Id":"a"}}\n'),
            (["--data", kept, "--id", base], "STATS\n", stats),
        ]
        wrong = 0
        for arguments, script, written in cases:
            ended = run(program, script.encode(), *arguments, timeout=60)
            if (ended.returncode, ended.stdout.decode(), ended.stderr.decode()) != (0, written, messages.message_of("Done")):
                wrong += 1
                message = f"status {ended.returncode} in place of 0, {ended.stderr!r}"
                print(f"arguments {arguments}: {message}, {ended.stdout!r} in place of {written!r}")
        return wrong


def openings(program: str, seed: int, lines: int) -> int:
    """How many files are wrong over which some scripts run one after another. A file keeps the rows: each index begins anew."""
    wrong = 0
    for round_ in range(len(MAKERS) * 3 // 2):
        database = model.Database()
        with tempfile.TemporaryDirectory() as folder:
            for part in range(4):
                maker = MAKERS[(round_ + part) % len(MAKERS)](seed * 2_000_003 + round_ * 7 + part)
                script = maker.script(lines)
                expected = model.replies(script, database)
                ended = run(program, script, "--data", os.path.join(folder, "kept"))
                found = model.at_no_moment(ended.stdout)
                if ended.returncode or found != expected:
                    wrong += 1
                    print(f"file {round_}, script {part}: status {ended.returncode}, {first_difference(expected, found)}")
                    break
                database = database.opened()
    return wrong


def outside(program: str, seed: int, lines: int) -> int:
    """How many of these checks find something wrong."""
    wrong = statuses(program) + helps(program) + depths(program) + options(program) + openings(program, seed, lines)
    return wrong + files(program) + unopened(program) + sessions(program, seed, lines)
