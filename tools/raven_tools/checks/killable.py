"""A run of the program that may be killed on its way."""

import os
import pathlib
import select
import subprocess
import tempfile
import time

# A run that takes longer has no end, in seconds.
PATIENCE = 120


class Run:
    """One run of the program over a file."""

    def __init__(self, program: str, file: pathlib.Path, script: list[bytes]):
        given = tempfile.TemporaryFile()
        given.write(b"".join(line + b"\n" for line in script))
        given.seek(0)
        with given:
            command = [program, "run", "--data", str(file)]
            self.process = subprocess.Popen(command, stdin=given, stdout=subprocess.PIPE, stderr=subprocess.PIPE)
        self.written = self.message = b""
        self.began = time.monotonic()

    def read_until(self, replies: int, seconds: float) -> bool:
        """Reads until so many replies have come, the time is over, or the output ends; returns whether it still runs."""
        output = self.process.stdout.fileno()
        while self.written.count(b"\n") < replies:
            left = self.began + seconds - time.monotonic()
            if left <= 0 or not select.select([output], [], [], left)[0]:
                return True
            piece = os.read(output, 65_536)
            if not piece:
                return False
            self.written += piece
        return True

    def kill(self) -> bool:
        """Kills it, and reads what it had written. Returns whether it was killed, and had not ended before."""
        self.process.kill()
        rest, self.message = self.process.communicate(timeout=PATIENCE)
        self.written += rest
        return self.process.returncode == -9

    def end(self) -> None:
        """Lets it end by itself."""
        rest, self.message = self.process.communicate(timeout=PATIENCE)
        self.written += rest

    def status(self) -> int:
        return self.process.returncode

    def replies(self) -> tuple[list[bytes], bytes]:
        """The whole replies, and the prefix of the one after them."""
        *whole, part = self.written.split(b"\n")
        return whole, part
