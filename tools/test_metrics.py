#!/usr/bin/env python3
"""Tests of tools/metrics.py over the model: what it prints, and what it answers on a port.

    tools/test_metrics.py

What has to be printed was worked out by hand. It ends with 0 if every test holds, and otherwise at the first assertion that does not.
"""

import http.client
import re
import subprocess
import sys

sys.dont_write_bytecode = True
from raven_tools.held import Held
from raven_tools.places import TOP
from raven_tools.servers import Client

# Two entries, two documents of which the map fails, a deletion and a document that no index has seen, and an index whose name has to be escaped.
EXPECTED = r"""raven_up 1
raven_documents 4
raven_tombstones 1
raven_indexes 2
raven_rows 7
raven_rows_limit 4000000
raven_last_etag 8
raven_index_etag{index="Half"} 6
raven_index_etag{index="a\"\\b"} 0
raven_index_entries{index="Half"} 2
raven_index_entries{index="a\"\\b"} 0
raven_index_errors{index="Half"} 2
raven_index_errors{index="a\"\\b"} 0
raven_index_stale{index="Half"} 1
raven_index_stale{index="a\"\\b"} 1
raven_index_behind{index="Half"} 2
raven_index_behind{index="a\"\\b"} 8
"""
SAMPLE = re.compile(r'raven_[a-z_]+(\{index="(?:[^"\\]|\\["\\n])*"\})? [0-9]+')
COMMAND = [sys.executable, str(TOP / "tools/metrics.py")]


def filled() -> Held:
    held = Held()
    with Client(held.port) as client:
        client.define("Half", "from u in docs.Users select new { Half = 100 / u.Age }")
        client.define('a"\\b', "from u in docs.Users select new { u.Age }")
        for name, age in [("users/1", 1), ("users/2", 0), ("users/3", 0), ("users/4", 5)]:
            client.put(name, {"Age": age, "@metadata": {"@collection": "Users"}})
            held.pump(1, "Half")
        assert client.stats()["LastDocEtag"] == 6
    return held


def samples(text: str) -> str:
    """What is counted. Each name is said before, once, to be a gauge."""
    lines = text.split("\n")[:-1]
    counted = [line for line in lines if not line.startswith("#")]
    names = list(dict.fromkeys(re.split("[{ ]", line)[0] for line in counted))
    assert [line.split(" ")[2] for line in lines if line.startswith("# TYPE ")] == names
    assert [line.split(" ")[2] for line in lines if line.startswith("# HELP ")] == names
    assert all(SAMPLE.fullmatch(line) for line in counted), counted
    return "".join(f"{line}\n" for line in counted)


def test_worked_out() -> None:
    held = filled()
    with Client(held.port) as client:
        client.delete("users/4")
        client.put("users/5", {"Age": 7, "@metadata": {"@collection": "Users"}})
    ended = subprocess.run([*COMMAND, "--server", f"http://127.0.0.1:{held.port}"], capture_output=True, text=True, timeout=60)
    assert (ended.returncode, ended.stderr) == (0, ""), ended
    assert samples(ended.stdout) == EXPECTED, samples(ended.stdout)


def test_on_a_port() -> None:
    held = Held()
    command = [*COMMAND, "--server", f"http://127.0.0.1:{held.port}", "--port", "0"]
    with subprocess.Popen(command, stderr=subprocess.PIPE, text=True) as process:
        try:
            port = int(re.search(r":([0-9]+)/metrics", process.stderr.readline())[1])
            for path, expected in [("/metrics", 200), ("/", 404)]:
                connection = http.client.HTTPConnection("127.0.0.1", port, timeout=60)
                connection.request("GET", path)
                response = connection.getresponse()
                written = response.read().decode()
                connection.close()
                assert response.status == expected and ("raven_up 1\n" in written) == (path == "/metrics"), written
                assert response.headers["Content-Type"].startswith("text/plain; version=0.0.4")
        finally:
            process.kill()


def test_no_server() -> None:
    ended = subprocess.run([*COMMAND, "--server", "http://127.0.0.1:1"], capture_output=True, text=True, timeout=60)
    assert ended.returncode == 1 and samples(ended.stdout) == "raven_up 0\n", ended
    assert subprocess.run([*COMMAND, "--server", "nowhere"], capture_output=True, timeout=60).returncode == 2


if __name__ == "__main__":
    sys.setrecursionlimit(10_000)
    test_worked_out()
    test_on_a_port()
    test_no_server()
    print("the metrics hold")
