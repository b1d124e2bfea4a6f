"""A headless Chromium, driven by its debugging port: the messages of that port are JSON over a WebSocket (RFC 6455)."""

import base64
import collections.abc
import http.client
import json
import os
import re
import shutil
import socket
import struct
import subprocess
import tempfile
import threading
import time
import typing

NAMES = ("chromium", "chromium-browser", "google-chrome")
LISTENS = re.compile(r"DevTools listening on ws://127\.0\.0\.1:([0-9]+)/")
# How long it may take to start, to answer, or to come to what a test waits for, in seconds.
PATIENCE = 60
FLAGS = ("--headless", "--no-sandbox", "--disable-gpu", "--disable-dev-shm-usage", "--hide-scrollbars", "--no-first-run")
# Of frames: the kinds of those with text and of the last one, what controls the connection, and the marks of a message's last and of a mask.
TEXT, CLOSE, CONTROL = 1, 8, 8
LAST, MASKED = 0x80, 0x80

Json = dict[str, typing.Any]


class Failed(Exception):
    """The page does not do what it has to, or the browser does not answer."""


def found() -> str | None:
    return next(filter(None, map(shutil.which, NAMES)), None)


class WebSocket:
    """A client's end. Frames of the server are not masked, and a message may have several."""

    def __init__(self, port: int, path: str):
        self.socket = socket.create_connection(("127.0.0.1", port), timeout=PATIENCE)
        key = base64.b64encode(os.urandom(16)).decode()
        fields = {"Upgrade": "websocket", "Connection": "Upgrade", "Sec-WebSocket-Key": key, "Sec-WebSocket-Version": "13"}
        lines = "".join(f"{name}: {value}\r\n" for name, value in {"Host": f"127.0.0.1:{port}", **fields}.items())
        self.socket.sendall(f"GET {path} HTTP/1.1\r\n{lines}\r\n".encode())
        self.input = self.socket.makefile("rb")
        if b" 101 " not in self.input.readline():
            raise Failed("the browser does not take the connection")
        while self.input.readline().strip():
            pass

    def send(self, text: str) -> None:
        data = text.encode()
        mask = os.urandom(4)
        size = len(data)
        if size < 126:
            length = bytes([MASKED | size])
        else:
            length = struct.pack(">BH", MASKED | 126, size) if size < 65_536 else struct.pack(">BQ", MASKED | 127, size)
        masked = bytes(byte ^ mask[at % 4] for at, byte in enumerate(data))
        self.socket.sendall(bytes([LAST | TEXT]) + length + mask + masked)

    def take(self) -> str:
        """The next message of text. A `TimeoutError` if none comes."""
        whole = b""
        while True:
            first, second = self.exactly(2)
            size = second & 0x7F
            if size == 126:
                (size,) = struct.unpack(">H", self.exactly(2))
            elif size == 127:
                (size,) = struct.unpack(">Q", self.exactly(8))
            data = self.exactly(size)
            if first & 0x0F == CLOSE:
                raise Failed("the browser closes the connection")
            # Frames that control the connection stand between those of a message.
            if not first & CONTROL:
                whole += data
                if first & LAST:
                    return whole.decode()

    def exactly(self, size: int) -> bytes:
        data = self.input.read(size)
        if len(data) < size:
            raise Failed("the browser is gone")
        return data

    def close(self) -> None:
        self.input.close()
        self.socket.close()


class Page:
    """One page of a browser of its own, which ends with the `with`. It accepts what the page asks to be confirmed."""

    def __init__(self, browser: str, width: int, height: int):
        self.folder = tempfile.TemporaryDirectory(ignore_cleanup_errors=True)
        own = (f"--window-size={width},{height}", f"--user-data-dir={self.folder.name}", "--remote-debugging-port=0")
        command = [browser, *FLAGS, *own, "about:blank"]
        self.process = subprocess.Popen(command, stdin=subprocess.DEVNULL, stdout=subprocess.DEVNULL, stderr=subprocess.PIPE, text=True)
        self.asked = 0
        self.faults: list[str] = []
        self.confirmed: list[str] = []
        try:
            self.port = self.listening()
            self.socket = WebSocket(self.port, self.path_of_page())
        except BaseException:
            self.end()
            raise
        for domain in ("Page", "Runtime", "Log"):
            self.call(f"{domain}.enable")

    def listening(self) -> int:
        late = threading.Timer(PATIENCE, self.process.kill)
        late.start()
        try:
            for line in self.process.stderr:
                if port := LISTENS.search(line):
                    # What it says later is read, so that it never waits for us.
                    threading.Thread(target=self.process.stderr.read, daemon=True).start()
                    return int(port[1])
        finally:
            late.cancel()
        raise Failed("the browser does not start")

    def path_of_page(self) -> str:
        connection = http.client.HTTPConnection("127.0.0.1", self.port, timeout=PATIENCE)
        connection.request("GET", "/json")
        pages = json.loads(connection.getresponse().read())
        connection.close()
        address = next(page["webSocketDebuggerUrl"] for page in pages if page["type"] == "page")
        return "/" + address.partition("://")[2].partition("/")[2]

    def __enter__(self) -> "Page":
        return self

    def __exit__(self, *_: object) -> None:
        self.socket.close()
        self.end()

    def end(self) -> None:
        self.process.kill()
        self.process.wait()
        self.folder.cleanup()

    def call(self, method: str, **given: object) -> Json:
        """Calls the browser, and notes what it tells meanwhile."""
        self.asked += 1
        mine = self.asked
        self.socket.send(json.dumps({"id": mine, "method": method, "params": given}))
        while True:
            message = json.loads(self.socket.take())
            if message.get("id") == mine:
                if "error" in message:
                    raise Failed(f"{method}: {message['error']}")
                return message["result"]
            self.note(message)

    def note(self, message: Json) -> None:
        method, told = message.get("method"), message.get("params", {})
        if method == "Runtime.exceptionThrown":
            self.faults.append(json.dumps(told["exceptionDetails"])[:500])
        elif method == "Log.entryAdded" and told["entry"]["source"] == "security":
            self.faults.append(told["entry"]["text"])
        elif method == "Page.javascriptDialogOpening":
            self.confirmed.append(told["message"])
            self.asked += 1
            # Nobody waits for this response, which `call` passes over.
            self.socket.send(json.dumps({"id": self.asked, "method": "Page.handleJavaScriptDialog", "params": {"accept": True}}))

    def open(self, address: str) -> None:
        self.call("Page.navigate", url=address)

    def look(self, expression: str) -> typing.Any:
        """The value of an expression of JavaScript in the page."""
        found = self.call("Runtime.evaluate", expression=expression, awaitPromise=True, returnByValue=True)
        if "exceptionDetails" in found:
            raise Failed(f"{expression}: {found['exceptionDetails'].get('exception', {}).get('description')}")
        return found["result"].get("value")

    def until(self, expression: str, holds: collections.abc.Callable[[typing.Any], object] = bool) -> typing.Any:
        """Its value once that holds."""
        ends = time.monotonic() + PATIENCE
        while True:
            value = self.look(expression)
            if holds(value):
                return value
            if time.monotonic() > ends:
                raise Failed(f"{expression} stays {value!r}")
            time.sleep(0.05)

    def picture(self) -> bytes:
        return base64.b64decode(self.call("Page.captureScreenshot", format="png")["data"])
