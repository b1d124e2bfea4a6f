"""A listener on 127.0.0.1. Each connection that it accepts is one session of the command `http`; one follows another, since one
program alone may have a file open."""

import collections.abc
import os
import socket
import subprocess
import sys
import threading
import time

from raven_tools.model import http_session, keeping

Serve = collections.abc.Callable[[socket.socket], None]
# The most bytes that are read and thrown away after a session, so that its last response is not lost.
MOST_DROPPED = 8_388_608


def hang_up(connection: socket.socket, patience: float) -> None:
    """Ends the session for the client, and reads on for so many seconds: if bytes of it are unread, closing at once takes back what was
    written last."""
    connection.shutdown(socket.SHUT_WR)
    ends = time.monotonic() + patience
    dropped = 0
    while dropped < MOST_DROPPED and (left := ends - time.monotonic()) > 0:
        connection.settimeout(left)
        more = connection.recv(65_536)
        if not more:
            return
        dropped += len(more)


def by_program(program: str | os.PathLike[str], arguments: collections.abc.Sequence[str], messages: int | None = None) -> Serve:
    """Each session by a run of the program, with the connection as its input and its output. Its messages go where ours do, or where it
    is said."""

    def serve(connection: socket.socket) -> None:
        subprocess.run([program, "http", *arguments], stdin=connection, stdout=connection, stderr=messages)

    return serve


def by_model(arguments: collections.abc.Sequence[str]) -> Serve:
    """Each session by the model, over one keeper."""
    keeper = keeping.Keeper()

    def serve(connection: socket.socket) -> None:
        http_session.serve(("http", *arguments), keeper, lambda: connection.recv(65_536), connection.sendall)

    return serve


class Listener:
    """Listens from the start on. Port 0 is any that is free."""

    def __init__(self, serve: Serve, port: int = 0, patience: float = 2.0):
        self.serve = serve
        self.patience = patience
        self.socket = socket.create_server(("127.0.0.1", port))
        self.port = self.socket.getsockname()[1]

    def run(self) -> None:
        """Serves one connection after another, until the listener is closed."""
        while True:
            try:
                connection, _ = self.socket.accept()
            except OSError:
                return
            with connection:
                try:
                    self.serve(connection)
                    hang_up(connection, self.patience)
                except OSError as fault:
                    print(f"a connection is lost: {fault}", file=sys.stderr)

    def __enter__(self) -> "Listener":
        self.thread = threading.Thread(target=self.run, daemon=True)
        self.thread.start()
        return self

    def __exit__(self, *_: object) -> None:
        self.socket.shutdown(socket.SHUT_RDWR)
        self.socket.close()
        self.thread.join()

