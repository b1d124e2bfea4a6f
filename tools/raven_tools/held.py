"""The model as a server whose indexes move only when they are told to, so that a test sees them stale for as long as it looks."""

import socket
import threading

from raven_tools.model import http_session, keeping, serving
from raven_tools.model.lines import answer

WORKERS = 8


class Held:
    """Listens on a free port of 127.0.0.1, in threads that end with the process."""

    def __init__(self) -> None:
        options = serving.options_of(("serve", "--port", "0", "--workers", str(WORKERS)))
        assert options
        database = http_session.opened(options, keeping.Keeper())
        assert not isinstance(database, str)
        self.service = serving.Service(database, options)
        listening = socket.create_server(("127.0.0.1", 0), backlog=128)
        self.port: int = listening.getsockname()[1]
        for _ in range(WORKERS):
            threading.Thread(target=self.service.front, args=(listening,), daemon=True).start()

    def pump(self, most: int, *index: str) -> None:
        """One batch of at most so many rows, of this index, if it is there, or of each."""
        with self.service.lock:
            answer(self.service.database, " ".join(["PUMP", str(most), *index]).encode())

    def catch_up(self) -> None:
        """Until nothing is left to take. Replacements then have their names."""
        while True:
            with self.service.lock:
                if not self.service.round():
                    return
