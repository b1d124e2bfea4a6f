"""Files that are not opened, each for another cause: what standard error says, that nothing is written, and that what stands there is left.

The causes are those of docs/messages.md. Out of memory cannot be made here."""

import collections.abc
import contextlib
import os
import pathlib
import resource
import shutil
import signal
import socket
import sqlite3
import subprocess
import tempfile

from raven_tools.checks.files import COLUMNS, OLD_TABLE, OTHER_TABLE, is_so, make, says
from raven_tools.model import messages
from raven_tools.programs import call

# A user that owns nothing here, for what root may do and others may not.
NOBODY = 65_534
SCRIPT = b"PUT a {}\n"
ROW = f"INSERT INTO kept ({COLUMNS}) VALUES (?, ?, ?, ?, ?, ?)"


def is_refused(program: str, file: pathlib.Path | str, said: str) -> bool:
    """Whether a script over the file ends so, and writes nothing."""
    ended = call(program, ["run", "--data", file], SCRIPT, 60)
    return says(ended, said, str(file)) and is_so(not ended.stdout, str(file), ended.stdout)


def is_unopened(program: str, file: pathlib.Path | str, cause: str) -> bool:
    return is_refused(program, file, messages.unopened(str(file), cause))


def names(program: str, folder: pathlib.Path) -> bool:
    """Paths of no file. A name is quoted whatever it has."""
    text = folder / "text"
    text.write_text("This is no folder.")
    causes = {
        folder / "no" / "file": "NoFolder",
        text / "file": "NoFolder",
        folder / 'no "folder"\\\t\x7f\n' / "Zoé": "NoFolder",
        folder: "Folder",
        f"{folder}/": "Folder",
        f"{folder}/new/": "Folder",
        ":memory:": "NotAPath",
        f"file:{folder}/file": "NotAPath",
    }
    right = all([is_unopened(program, file, cause) for file, cause in causes.items()])
    return right and is_so(os.listdir(folder) == ["text"], "what was made", os.listdir(folder))


def kinds(program: str, folder: pathlib.Path) -> bool:
    """What is no regular file of one name, itself or at the name of the log."""
    pipe, link, first, second, plain = (folder / name for name in ("pipe", "link", "first", "second", "plain"))
    os.mkfifo(pipe)
    link.symlink_to("nothing")
    first.touch()
    second.hardlink_to(first)
    pathlib.Path(f"{plain}-wal").symlink_to("first")
    return all([is_unopened(program, file, "NotRegular") for file in (pipe, link, first, second, plain)])


def by_system(program: str, folder: pathlib.Path) -> bool:
    """What the system refuses for a cause that is none of the others: its own words."""
    loop = folder / "loop"
    loop.symlink_to("loop")
    causes = {folder / ("x" * 300): "File name too long (os error 36)", loop: "Too many levels of symbolic links (os error 40)"}
    return all([is_unopened(program, file, cause) for file, cause in causes.items()])


def journals(program: str, folder: pathlib.Path) -> bool:
    """A journal that only SQLite can play back, or a folder of its name."""
    played, named = folder / "played", folder / "named"
    for file in (played, named):
        make(file, OLD_TABLE)
    pathlib.Path(f"{played}-journal").write_bytes(b"\xd9\xd5\x05\xf9 a journal")
    pathlib.Path(f"{named}-journal").mkdir()
    return all([is_unopened(program, file, "Journal") for file in (played, named)])


def used(program: str, folder: pathlib.Path) -> bool:
    """A file in which SQLite reads or writes. Once it has ended, the file is opened."""
    file = folder / "used"
    make(file, OLD_TABLE)
    with contextlib.closing(sqlite3.connect(file)) as connection:
        connection.execute("BEGIN IMMEDIATE")
        refused = is_unopened(program, file, "InUse")
        connection.rollback()
    ended = call(program, ["run", "--data", file], b"", 60)
    return refused and says(ended, messages.message_of("Done"), "a file that was in use")


def contents(program: str, folder: pathlib.Path) -> bool:
    """What is no database, what is one of another program, what is damaged, and what is of a kind that is not read."""
    short, long, other, damaged, moving = (folder / name for name in ("short", "long", "other", "damaged", "moving"))
    short.write_bytes(b"No database.")
    long.write_bytes(b"S line of a text that is no database.\n" * 1_000)
    make(other, OTHER_TABLE)
    make(damaged, OLD_TABLE)
    with damaged.open("r+b") as file:
        file.seek(28)
        file.write(b"\0\0\0\x63")
    with contextlib.closing(sqlite3.connect(moving)) as connection:
        connection.execute("PRAGMA auto_vacuum = FULL")
        connection.execute(OLD_TABLE)
    causes = {short: "NotADatabase", long: "NotADatabase", other: "Foreign", damaged: "Unreadable", moving: "Unreadable"}
    before = {file: file.read_bytes() for file in causes}
    right = all([is_unopened(program, file, cause) for file, cause in causes.items()])
    return right and is_so(all(file.read_bytes() == held for file, held in before.items()), "what was left", before.keys())


def rows(program: str, folder: pathlib.Path) -> bool:
    """A database that is opened, and whose rows are not those of this program."""
    right = True
    row = ("a", 1, "a", "@empty", "{}", 0)
    refused = {
        "moment": ((*row[:5], -1), "KeptFault"),
        "etag": (("a", 0, *row[2:]), "KeptBad 0"),
        "body": ((*row[:4], "[", 0), "KeptBad 1"),
    }
    for name, (values, status) in refused.items():
        file = folder / name
        with contextlib.closing(sqlite3.connect(file)) as connection:
            connection.execute(OLD_TABLE)
            connection.execute(ROW, values)
            connection.commit()
        right &= is_refused(program, file, messages.message_of(status, str(file)))
    return right


def no_room() -> None:
    """No file of the process may have a byte; a write fails, as on a full disk."""
    signal.signal(signal.SIGXFSZ, signal.SIG_IGN)
    resource.setrlimit(resource.RLIMIT_FSIZE, (0, 0))


def full(program: str, folder: pathlib.Path) -> bool:
    """A new file for which there is no room."""
    file = folder / "full"
    # Standard error is no file, so it takes what is said.
    ended = subprocess.run([program, "run", "--data", file], input=SCRIPT, capture_output=True, timeout=60, preexec_fn=no_room)
    return says(ended, messages.unopened(str(file), "Disk"), "a full disk")


def denied(program: str, folder: pathlib.Path) -> bool:
    """What another user may not do. Only root can become one; anybody else is that user."""
    is_root = os.geteuid() == 0
    copy = shutil.copy(program, folder / "raven") if is_root else program
    closed, kept, alone = folder / "closed", folder / "kept", folder / "alone"
    closed.mkdir(0o755)
    (closed / "inside").mkdir(0o700)
    make(kept, OLD_TABLE)
    make(closed / "alone", OLD_TABLE)
    alone = closed / "alone"
    (closed / "inside").chmod(0 if not is_root else 0o700)
    kept.chmod(0o444 if is_root else 0o400)
    alone.chmod(0o666)
    closed.chmod(0o555)
    folder.chmod(0o755)
    user = {"user": NOBODY, "group": NOBODY, "extra_groups": []} if is_root else {}
    right = True
    # In turn: not to be made, in a folder that may not be entered, not to be written, and without a log that may be made.
    for file in (closed / "new", closed / "inside" / "file", kept, alone):
        ended = subprocess.run([copy, "run", "--data", file], input=SCRIPT, capture_output=True, timeout=60, **user)
        right &= says(ended, messages.unopened(str(file), "NoPermission"), str(file))
    closed.chmod(0o755)
    (closed / "inside").chmod(0o700)
    return right


def ports(program: str, folder: pathlib.Path) -> bool:
    """A port that is taken, with and without a file, which is opened and closed again."""
    right = True
    with socket.create_server(("127.0.0.1", 0)) as taken:
        port = taken.getsockname()[1]
        for data in ([], ["--data", str(folder / "kept")]):
            ended = call(program, ["serve", "--port", str(port), *data], b"", 60)
            right &= says(ended, messages.message_of(f"DoorFault {port}"), "a port that is taken")
    return right


def unopened(program: str) -> int:
    """How many of these checks find something wrong."""
    checks: list[collections.abc.Callable[[str, pathlib.Path], bool]] = [names, kinds, by_system, journals, used, contents, rows, full, denied, ports]
    wrong = 0
    for check in checks:
        with tempfile.TemporaryDirectory() as folder:
            wrong += not check(os.path.abspath(program), pathlib.Path(folder))
    return wrong
