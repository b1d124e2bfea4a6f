#!/usr/bin/env python3
"""Tests of the tool that packs releases, over a small repository whose gate does nothing but pass or fail, with a toolchain that only tells its kit.

    tools/test_release.py

It ends with 0 if every test holds, and otherwise at the first assertion that does not. Without git it says so, and tests nothing.
"""

import os
import pathlib
import shutil
import subprocess
import sys
import tarfile
import tempfile

TOOL = pathlib.Path(__file__).resolve().parent / "release"
PROGRAM = "#!/bin/sh\necho raven 0.1.0\n"
PASSED = f"#!/bin/sh\nmkdir -p crates/raven/out\nprintf '%s' '{PROGRAM}' >crates/raven/out/raven\nchmod +x crates/raven/out/raven\n"
TOOLS = [*(f"tools/{name}.py" for name in ("model", "studio", "shell", "metrics", "explain")), "tools/studio/main.js", "tools/raven_tools/places.py"]
FILES = {
    ".gitignore": "out/\n",
    "README.md": "# raven\n",
    "docs/map.md": "# The map\n",
    "examples/nothing.raven": "\n",
    "crates/raven/src/main.rt": "//! The program.\n",
    "tools/release": TOOL.read_text(),
    "tools/test_model.py": "\n",
    **dict.fromkeys(TOOLS, "\n"),
}


def write(file: pathlib.Path, text: str) -> None:
    file.parent.mkdir(parents=True, exist_ok=True)
    file.write_text(text)
    file.chmod(0o755)


class Room:
    """A folder with a repository, a toolchain and a place for releases."""

    def __init__(self, folder: str, gate: str):
        self.folder = pathlib.Path(folder).resolve()
        self.repository, self.releases = self.folder / "repository", self.folder / "releases"
        write(self.folder / "bin/rt", "#!/bin/sh\necho a kit\n")
        for name, text in {**FILES, ".ci/run": gate}.items():
            write(self.repository / name, text)
        self.git("init", "-q")
        self.commit()

    def git(self, *words: str) -> str:
        author = ["-c", "user.name=a", "-c", "user.email=a@example.org", "-c", "init.defaultBranch=main"]
        return subprocess.run(["git", *author, *words], cwd=self.repository, check=True, capture_output=True, text=True).stdout

    def commit(self) -> None:
        self.git("add", "-A")
        self.git("commit", "-qm", "A commit")

    def release(self, folder: pathlib.Path | None = None) -> tuple[int, str]:
        path = f"{self.folder / 'bin'}{os.pathsep}{os.environ['PATH']}"
        command = [str(self.repository / "tools/release"), str(folder or self.releases)]
        ended = subprocess.run(command, env={**os.environ, "PATH": path}, capture_output=True, text=True)
        return ended.returncode, ended.stderr

    def archives(self) -> list[pathlib.Path]:
        return sorted(self.releases.glob("*.tar.gz"))


def test_passed(folder: str) -> None:
    """What the gate has built is packed with its pages, some tools and checksums, in the same bytes each time, and nothing is left in the repository."""
    room = Room(folder, PASSED)
    status, said = room.release()
    assert status == 0, said
    (archive,) = room.archives()
    commit = room.git("rev-parse", "HEAD").strip()
    name = f"raven-{commit[:12]}"
    with tarfile.open(archive) as packed:
        names = {entry.name.removeprefix(f"{name}/") for entry in packed if entry.isfile()}
        packed.extractall(room.folder / "unpacked", filter="data")
    pages = {"README.md", "docs/map.md", "examples/nothing.raven"}
    assert names == {"raven", *pages, *TOOLS, "VERSION", "KIT", "COMMIT", "SHA256SUMS"}, names
    unpacked = room.folder / "unpacked" / name
    found = [(unpacked / file).read_text() for file in ("raven", "VERSION", "KIT", "COMMIT")]
    assert found == [PROGRAM, "raven 0.1.0\n", "a kit\n", f"{commit}\n"], found
    subprocess.run(["sha256sum", "--quiet", "-c", "SHA256SUMS"], cwd=unpacked, check=True)
    subprocess.run(["sha256sum", "--quiet", "-c", f"{archive.name}.sha256"], cwd=room.releases, check=True)
    assert not room.git("status", "--porcelain", "--ignored")
    status, said = room.release()
    assert status == 1 and "is there" in said, said
    first = archive.read_bytes()
    archive.unlink()
    assert room.release()[0] == 0 and archive.read_bytes() == first


def test_refused(folder: str) -> None:
    """There is no archive if the gate fails or builds nothing, if a change is not committed, or if the folder is in the repository."""
    room = Room(folder, PASSED + "exit 1\n")
    status, said = room.release()
    assert status == 1 and "the gate failed" in said, said
    write(room.repository / ".ci/run", "#!/bin/sh\n")
    status, said = room.release()
    assert status == 1 and "not committed" in said, said
    room.commit()
    status, said = room.release()
    assert status == 1 and "no program" in said, said
    status, said = room.release(room.repository / "out/releases")
    assert status == 1 and "inside" in said, said
    assert not room.archives()


def main() -> None:
    if not shutil.which("git"):
        print("there is no git, so nothing was tested")
        return
    for test in (test_passed, test_refused):
        with tempfile.TemporaryDirectory() as folder:
            test(folder)
            print(f"holds  {test.__name__}")


if __name__ == "__main__":
    main()
