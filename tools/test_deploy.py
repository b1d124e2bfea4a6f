#!/usr/bin/env python3
"""Tests of examples/deploy: the arguments of the program, the unit by `systemd-analyze verify`, and the proxy by nginx over the model.

    tools/test_deploy.py

What is not there is not tried, and a line says so; the Dockerfile is not built in any case. It ends with 0 if every test holds, and otherwise
at the first assertion that does not.
"""

import collections.abc
import contextlib
import http.client
import json
import os
import pathlib
import re
import shutil
import socket
import ssl
import subprocess
import sys
import tempfile
import time

sys.dont_write_bytecode = True
from raven_tools.model import usage
from raven_tools.model.limits import MAX_REQUEST_BODY
from raven_tools.places import TOP
from raven_tools.servers import MODEL, PATIENCE, Server

FOLDER = TOP / "examples/deploy"
NAME = "raven.example.org"
USER = {"Authorization": "Basic YWRhOnNlY3JldA=="}
# What an nginx that is installed has of its own, outside of the block.
AROUND = """daemon off; master_process off; pid {0}/pid; error_log {0}/log;
events {{}}
http {{
    access_log off; client_body_temp_path {0}/1; proxy_temp_path {0}/2; fastcgi_temp_path {0}/3; uwsgi_temp_path {0}/4; scgi_temp_path {0}/5;
    include {0}/block;
}}
"""


def text_of(name: str) -> str:
    return (FOLDER / name).read_text()


def found(program: str) -> str | None:
    """A program of the path, or of the folder where Debian has those of its services."""
    return shutil.which(program, path=f"{os.environ.get('PATH', '')}:/usr/sbin")


def test_arguments() -> None:
    """The program takes what it is started with, and the proxy keeps fewer connections than there are workers."""
    unit = re.search(r"^ExecStart=\S+/raven (.+)$", text_of("raven.service"), re.MULTILINE)[1].split()
    image = [word for lists in re.findall(r"^(?:ENTRYPOINT|CMD) (.+)$", text_of("Dockerfile"), re.MULTILINE) for word in json.loads(lists)][1:]
    kept = int(re.search(r"max_conns=([0-9]+)", text_of("nginx.conf"))[1])
    for arguments in (unit, image):
        assert usage.mistake(arguments) is None, usage.mistake(arguments)
        assert kept < int(arguments[arguments.index("--workers") + 1]), arguments


def test_unit(folder: pathlib.Path) -> None:
    verify = found("systemd-analyze")
    if verify is None:
        print("there is no systemd-analyze, so the unit was not tried")
        return
    unit = folder / "raven.service"
    unit.write_text(text_of("raven.service").replace("/usr/local/bin/raven", "/bin/true"))
    ended = subprocess.run([verify, "verify", str(unit)], capture_output=True, text=True, timeout=60)
    assert (ended.returncode, ended.stdout, ended.stderr) == (0, "", ""), ended


# The proxy


def free_port() -> int:
    with socket.create_server(("127.0.0.1", 0)) as listener:
        return listener.getsockname()[1]


def certify(folder: pathlib.Path) -> ssl.SSLContext:
    """Makes a certificate of the name, and gives what trusts it alone."""
    made = ["-keyout", str(folder / "raven.key"), "-out", str(folder / "raven.pem"), "-days", "2"]
    named = ["-subj", f"/CN={NAME}", "-addext", f"subjectAltName=DNS:{NAME}"]
    subprocess.run(["openssl", "req", "-x509", "-newkey", "rsa:2048", "-nodes", *made, *named], check=True, capture_output=True, timeout=60)
    return ssl.create_default_context(cafile=str(folder / "raven.pem"))


@contextlib.contextmanager
def proxied(nginx: str, folder: pathlib.Path, server: int, port: int) -> collections.abc.Iterator[None]:
    """The block as it is, but for its ports and the folders of its files."""
    block = text_of("nginx.conf").replace("listen 443 ", f"listen 127.0.0.1:{port} ").replace("127.0.0.1:8080", f"127.0.0.1:{server}")
    (folder / "block").write_text(re.sub(r"/etc/(?:ssl|nginx)/", f"{folder}/", block))
    (folder / "raven.users").write_text("ada:{PLAIN}secret\n")
    (folder / "main").write_text(AROUND.format(folder))
    with subprocess.Popen([nginx, "-p", str(folder), "-c", str(folder / "main")], stderr=subprocess.PIPE, text=True) as process:
        try:
            wait_for(process, port)
            yield
        finally:
            process.terminate()


def wait_for(process: subprocess.Popen, port: int) -> None:
    ends = time.monotonic() + PATIENCE
    while time.monotonic() < ends:
        assert process.poll() is None, process.stderr.read()
        with contextlib.suppress(ConnectionRefusedError), socket.create_connection(("127.0.0.1", port), timeout=PATIENCE):
            return
        time.sleep(0.05)
    raise AssertionError("nginx does not listen")


class ByName(http.client.HTTPSConnection):
    """A connection to this machine, as if the name led to it."""

    def connect(self) -> None:
        plain = socket.create_connection(("127.0.0.1", self.port), timeout=PATIENCE)
        self.sock = self._context.wrap_socket(plain, server_hostname=self.host)


def asked(port: int, trust: ssl.SSLContext, method: str, page: str, body: bytes | None = None, **fields: str) -> tuple[int, str]:
    """The status and the body of a response to a user, unless other fields are given."""
    headers = {name.replace("_", "-"): value for name, value in fields.items()}
    with contextlib.closing(ByName(NAME, port, context=trust)) as connection:
        connection.request(method, page, body, USER | headers)
        response = connection.getresponse()
        return response.status, response.read().decode()


def test_proxy(nginx: str, folder: pathlib.Path) -> None:
    trust, port = certify(folder), free_port()
    docs, stats = "/databases/db/docs?id=", "/databases/db/stats"
    with Server(MODEL, "--workers", "4") as server, proxied(nginx, folder, server.port, port):
        written = asked(port, trust, "PUT", docs + "a", b'{"N":1}')
        assert written == (201, '{"ChangeVector":"A:1-AAAAAAAAAAAAAAAAAAAAAA","Id":"a"}'), written
        # What a write expects is passed on, also that there is nothing; and so is a status without a body.
        for expected, status in [('"x"', 409), ('""', 409), ('"A:1-AAAAAAAAAAAAAAAAAAAAAA"', 201)]:
            assert asked(port, trust, "PUT", docs + "a", b"{}", If_Match=expected)[0] == status, expected
        assert asked(port, trust, "DELETE", docs + "a") == (204, "")
        assert asked(port, trust, "GET", "/")[0] == 404
        # The largest body, of which the server says that it is no JSON, and a larger one, of which the proxy says it.
        assert asked(port, trust, "PUT", docs + "b", b"x" * MAX_REQUEST_BODY) == (400, '{"Error":"NotJson"}')
        # Who is nobody, a page of another origin, and another Host.
        assert asked(port, trust, "GET", stats, Authorization="")[0] == 401
        for origin, status in [("https://evil.example", 403), ("null", 403), (f"https://{NAME}", 200)]:
            assert asked(port, trust, "GET", stats, Origin=origin)[0] == status, origin
        assert asked(port, trust, "GET", stats, Host="evil.example")[0] in (403, 404)
        assert asked(port, trust, "GET", stats)[1] == '{"CountOfDocuments":0,"CountOfIndexes":0,"CountOfTombstones":1,"LastDocEtag":3}'
        server.kill()
        assert asked(port, trust, "GET", stats)[0] == 502


if __name__ == "__main__":
    sys.setrecursionlimit(10_000)
    test_arguments()
    missing = next((program for program in ("nginx", "openssl") if found(program) is None), None)
    with tempfile.TemporaryDirectory(prefix="deploy-") as name:
        test_unit(pathlib.Path(name))
        if missing is None:
            test_proxy(found("nginx"), pathlib.Path(name))
        else:
            print(f"there is no {missing}, so the proxy was not tried")
    print("the files to deploy a server hold")
