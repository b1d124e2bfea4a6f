"""Compares sessions over HTTP whose options, files or ways of being sent matter: what no single list of bytes shows."""

import contextlib
import os
import pathlib
import random
import subprocess
import tempfile
import threading
import typing

from raven_tools import model, programs
from raven_tools.making import http_rounds, worked_http
from raven_tools.making.worked_http import PUT_ADA, STATS, asked
from raven_tools.model import keeping, messages, running

OTHER = "0123456789abcdefghiXYZ"


def is_so(program: str, arguments: list[str], data: bytes, keeper: keeping.Keeper, name: str) -> bool:
    """Whether the program does with the arguments and the bytes what the model does over what the keeper holds."""
    status, expected = running.run(running.Outside(tuple(arguments), script=data), keeper)
    ended = programs.call(program, arguments, data)
    return is_as(ended, messages.message_of(status), expected, name)


def is_as(ended: subprocess.CompletedProcess[bytes], said: str, expected: bytes, name: str) -> bool:
    """Whether a run has written this to standard error and this to its output, and ended with the number of the status that is said."""
    found, message = model.at_no_moment(ended.stdout), ended.stderr.decode(errors="replace")
    number = programs.number_of(said)
    if (ended.returncode, message, found) == (number, said, expected):
        return True
    print(f"{name}: status {ended.returncode} in place of {number}, {message!r} in place of {said!r}")
    print(programs.first_difference(expected, found))
    return False


def options(program: str) -> int:
    """How many calls with options are wrong."""
    name, long = "a-B_1", "x" * 64
    calls = [
        (["--db", name], asked("GET", "/stats") + STATS.replace(b"/db/", b"/a-B_1/") + STATS.replace(b"/db/", b"/a-b_1/")),
        (["--db", long, "--pump", "0000000000"], STATS.replace(b"/db/", b"/%s/" % long.encode())),
        (["--id", OTHER], PUT_ADA + asked("GET", "/docs?id=USERS/1")),
        (["--pump", "65536", "--db", "db", "--id", OTHER], b""),
        ([], STATS * 1_001),
        ([], STATS + b"Z"),
    ]
    return sum(not is_so(program, ["http", *given], data, keeping.Keeper(), f"http {given}") for given, data in calls)


def openings(program: str, seed: int, lines: int) -> int:
    """How many files are wrong over which some sessions run one after another, and a script between them."""
    wrong = 0
    for round_ in range(8):
        keeper = keeping.Keeper()
        with tempfile.TemporaryDirectory() as folder:
            for part in range(4):
                given = http_rounds.RoundMaker(seed * 3_000_017 + round_ * 7 + part).round(f"file {round_}, session {part}", lines)
                data = ["--data", os.path.join(folder, "kept")]
                counts = is_so(program, ["run", *data], b"STATS\nINDEXES\n", keeper, f"{given.name}, the script before it")
                if not counts or not is_so(program, [*given.arguments, *data], given.data, keeper, given.name):
                    wrong += 1
                    break
    return wrong


def kept(program: str) -> int:
    """How many files that cannot be opened are opened: then nothing is read."""
    with tempfile.TemporaryDirectory() as folder:
        text = pathlib.Path(folder, "text")
        text.write_bytes(STATS * 100)
        files = {folder: "Folder", str(text): "NotADatabase", os.path.join(folder, "no/file"): "NoFolder"}
        runs = [(programs.call(program, ["http", "--data", file], STATS), messages.unopened(file, cause)) for file, cause in files.items()]
        return sum(not is_as(ended, said, b"", said) for ended, said in runs)


def send(to: typing.IO[bytes], pieces: list[bytes]) -> None:
    """Sends each piece by itself. The program may have ended its session before the last of them."""
    with contextlib.suppress(BrokenPipeError):
        for piece in pieces:
            to.write(piece)
            to.flush()
    with contextlib.suppress(BrokenPipeError):
        to.close()


def in_pieces(program: str, arguments: tuple[str, ...], pieces: list[bytes]) -> subprocess.CompletedProcess[bytes]:
    command = [program, *arguments]
    with subprocess.Popen(command, stdin=subprocess.PIPE, stdout=subprocess.PIPE, stderr=subprocess.PIPE) as started:
        sender = threading.Thread(target=send, args=(started.stdin, pieces))
        sender.start()
        written, message = started.stdout.read(), started.stderr.read()
        sender.join()
        return subprocess.CompletedProcess(command, started.wait(), written, message)


def pieces(program: str, seed: int, lines: int) -> int:
    """How many sessions are wrong if their bytes are sent in pieces, most of them small."""
    wrong = 0
    for round_ in range(20):
        given = http_rounds.RoundMaker(seed * 5_000_011 + round_).round(f"session {round_}, in pieces", lines)
        source, cuts = random.Random(round_), [0]
        while cuts[-1] < len(given.data):
            cuts.append(cuts[-1] + source.choice([1, 1, 2, 7, 100, 20_000]))
        parts = [given.data[start:end] for start, end in zip(cuts, cuts[1:])]
        status, expected = running.run(running.Outside(given.arguments, script=given.data), keeping.Keeper())
        wrong += not is_as(in_pieces(program, given.arguments, parts), messages.message_of(status), expected, given.name)
    return wrong


def turns(program: str) -> int:
    """Whether each response is given before more bytes come: 1 if one is not, and 0 if all are."""
    with subprocess.Popen([program, "http"], stdin=subprocess.PIPE, stdout=subprocess.PIPE, stderr=subprocess.PIPE) as started:
        late = threading.Timer(60, started.kill)
        late.start()
        for request, response in [(STATS, worked_http.EMPTY_STATS), (PUT_ADA, worked_http.CREATED_ADA)]:
            started.stdin.write(request)
            started.stdin.flush()
            found = started.stdout.read(len(response))
            if found != response:
                print(f"a response that is not there before the next request: {found!r}")
        started.stdin.close()
        late.cancel()
        return int(started.wait() != 0)


def sessions(program: str, seed: int, lines: int) -> int:
    """How many of these checks find something wrong."""
    return options(program) + openings(program, seed, lines) + kept(program) + pieces(program, seed, lines) + turns(program)
