"""A PostgreSQL server of its own for a measurement: over a socket in a folder, which both go away afterwards."""

import collections.abc
import os
import pathlib
import pwd
import shutil
import subprocess
import tempfile

import harness
from harness import Bench, Lines, script_of

VERSION = "15"
USER = "postgres"
# Debian's package puts the programs of the server here, and not on the path.
FOLDERS = (f"/usr/lib/postgresql/{VERSION}/bin",)
PROGRAMS = ("initdb", "pg_ctl", "postgres", "psql")
# Settings with which no transaction waits for the disk.
WITHOUT_DISK = ("fsync=off", "synchronous_commit=off", "full_page_writes=off")
# How many nanoseconds the processor has spent in the process of the server that a connection has.
SCHEDSTAT = "/proc/self/schedstat"
OWN_TIME = f"select split_part(pg_read_file('{SCHEDSTAT}'), ' ', 1);"


def programs() -> dict[str, str]:
    """The programs of that version, by name. Missing if one is not here."""
    path = os.pathsep.join([*FOLDERS, os.environ.get("PATH", "")])
    found = {name: shutil.which(name, path=path) for name in PROGRAMS}
    if not all(found.values()):
        raise harness.Missing(f"PostgreSQL {VERSION}, whose package in Debian is postgresql-{VERSION}")
    said = subprocess.run([found["initdb"], "--version"], capture_output=True, text=True).stdout
    if f" {VERSION}." not in said:
        raise harness.Missing(f"PostgreSQL {VERSION}, but {said.strip()}")
    if not os.path.exists(SCHEDSTAT):
        raise harness.Missing(f"{SCHEDSTAT}, which has the time of the server")
    return found


def as_owner() -> list[str]:
    """What a command of the server begins with: it does not run as root, so the user of the package runs it then."""
    if os.geteuid():
        return []
    if not shutil.which("setpriv"):
        raise harness.Missing("setpriv, by which root starts PostgreSQL as another user")
    if USER not in (user.pw_name for user in pwd.getpwall()):
        raise harness.Missing(f"user {USER}, as whom root starts PostgreSQL")
    return ["setpriv", f"--reuid={USER}", f"--regid={USER}", "--clear-groups"]


class Server:
    """Started with these settings at the beginning of a `with`, and stopped at its end. Only this machine reaches it."""

    def __init__(self, *settings: str):
        self.programs, self.owner = programs(), as_owner()
        self.settings = settings
        self.folder = pathlib.Path(tempfile.mkdtemp(prefix="pg-"))
        self.data = self.folder / "data"
        self.data.mkdir(mode=0o700)

    def __enter__(self) -> "Server":
        try:
            if self.owner:
                owner = pwd.getpwnam(USER)
                for path in (self.folder, self.data):
                    os.chown(path, owner.pw_uid, owner.pw_gid)
            self.does("initdb", "-U", USER, "-A", "trust", "-E", "UTF8", "--locale=C", "--no-sync")
            options = " ".join(["-c listen_addresses=''", f"-k {self.folder}", *(f"-c {setting}" for setting in self.settings)])
            self.does("pg_ctl", "-w", "-s", "-l", str(self.folder / "log"), "-o", options, "start")
        except BaseException:
            shutil.rmtree(self.folder, ignore_errors=True)
            raise
        return self

    def __exit__(self, *_: object) -> None:
        try:
            self.does("pg_ctl", "-w", "-s", "-m", "fast", "stop")
        finally:
            shutil.rmtree(self.folder, ignore_errors=True)

    def does(self, name: str, *arguments: str) -> None:
        command = [*self.owner, self.programs[name], "-D", str(self.data), *arguments]
        with tempfile.TemporaryFile() as said:
            if subprocess.run(command, stdout=said, stderr=said, stdin=subprocess.DEVNULL, cwd="/").returncode:
                said.seek(0)
                raise harness.Wrong(f"{name}: {said.read()[-500:]!r}")

    def run(self, lines: Lines) -> harness.Outcome:
        """One connection that executes these lines, one after another. Columns are separated by tabs."""
        command = [self.programs["psql"], "-X", "-q", "-A", "-t", "-F", "\t", "-v", "ON_ERROR_STOP=1"]
        return harness.run([*command, "-h", str(self.folder), "-U", USER], script_of(lines))

    def spent(self, lines: Lines) -> tuple[float, Lines]:
        """What the processor spends on one connection, in the server and in `psql`, and what is printed.

        What other processes of the server do does not count.
        """
        taken = self.run([*lines, OWN_TIME])
        *printed, nanoseconds = taken.output.decode().splitlines()
        return taken.cpu + int(nanoseconds) / 1e9, printed

    def each(self, bench: Bench, lines_of: collections.abc.Callable[[int], Lines], most: int) -> float:
        """What one of so many lines takes, with the client."""

        def spent(count: int) -> float:
            return self.spent(lines_of(count))[0]

        return bench.each(spent, lambda _: spent(0), 20, most)
