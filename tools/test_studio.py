#!/usr/bin/env python3
"""Tests of tools/studio over the model: what its proxy passes on and refuses, and its page in a headless Chromium.

    tools/test_studio.py
    tools/test_studio.py --picture docs/studio.png

The indexes of the model move only when a test says so, and so it sees them stale and then fresh. Without a Chromium the page is not looked
at, which it says. With a path it makes a picture of the page, and tests nothing. It ends with 0 if every test holds, and otherwise at the first
assertion that does not.
"""

import collections.abc
import contextlib
import http.client
import json
import pathlib
import socket
import sys
import threading
import time
import typing

sys.dont_write_bytecode = True
from raven_tools import chromium, explaining, remote, studio
from raven_tools.held import Held
from raven_tools.servers import Client

Holds = collections.abc.Callable[[typing.Any], object]

CITIES = ["Berlin", "London", "Oslo", "Paris", "Rome"]
MAP = "from o in docs.Orders select new { o.City, Total = o.Cents, Count = 1 }"
GROUPS = "from r in results group r by r.City into g select new { City = g.Key, Total = g.Sum(x => x.Total), Count = g.%s(x => x.Count) }"
REDUCE, HIGHEST = GROUPS % "Sum", GROUPS % "Max"
CTRL = 2
SCRIPT = "<script>window.hit = 1</script><img src=x onerror='window.hit = 1'>"


def opened(port: int) -> studio.Studio:
    """The studio of a server, on a free port."""
    shown = studio.Studio(remote.Remote("127.0.0.1", port), "db", 0)
    threading.Thread(target=shown.serve_forever, daemon=True).start()
    return shown


# The proxy


def asked(port: int, method: str, path: str, body: bytes | None = None, **fields: str) -> tuple[int, bytes, http.client.HTTPMessage]:
    connection = http.client.HTTPConnection("127.0.0.1", port, timeout=60)
    connection.request(method, path, body, {name.replace("_", "-"): value for name, value in fields.items()})
    response = connection.getresponse()
    found = response.status, response.read(), response.headers
    connection.close()
    return found


def test_refuses_others(port: int) -> None:
    stats = "/databases/db/stats"
    own = f"127.0.0.1:{port}"
    for fields in [{}, {"Host": f"localhost:{port}"}, {"Origin": f"http://{own}"}, {"Sec_Fetch_Site": "same-origin"}]:
        assert asked(port, "GET", stats, **fields)[0] == 200, fields
    others = [
        {"Host": "127.0.0.1"},
        {"Host": f"evil.example:{port}"},
        {"Origin": "http://evil.example"},
        {"Origin": "null"},
        {"Origin": f"https://{own}"},
        {"Sec_Fetch_Site": "cross-site"},
        {"Sec_Fetch_Site": "same-site"},
    ]
    for fields in others:
        for method, body in [("GET", None), ("PUT", b"{}"), ("POST", b"{}"), ("DELETE", None)]:
            status, written, _ = asked(port, method, stats, body, **fields)
            assert (status, json.loads(written)["Error"]) == (403, "NotOurs"), (fields, method, status)
    # A page that links here only opens it.
    assert asked(port, "GET", "/", Sec_Fetch_Site="cross-site")[0] == 200
    assert asked(port, "GET", "/", Host="evil.example")[0] == 403


def test_passes_on(port: int) -> None:
    document = "/databases/db/docs?id=users%2F1"
    status, written, fields = asked(port, "PUT", document, b'{"Name":"Ada"}', If_Match='""')
    assert status == 201 and fields["Content-Security-Policy"].startswith("default-src 'none'"), (status, fields)
    vector = json.loads(written)["ChangeVector"]
    status, written, _ = asked(port, "PUT", document, b"{}", If_Match='""')
    assert status == 409 and json.loads(written)["Found"] == vector, written
    assert asked(port, "PUT", document, b"{}", If_Match=f'"{vector}"')[0] == 201
    status, written, fields = asked(port, "DELETE", document)
    assert (status, written) == (204, b"") and "Content-Length" not in fields
    status, written, _ = asked(port, "GET", document)
    assert (status, written) == (404, b'{"Error":"NoDocument","Id":"users/1"}')


def test_paths(port: int) -> None:
    assert b"<title>raven studio" in asked(port, "GET", "/")[1]
    for path in ["/main.js", "/style.css", "/settings"]:
        status, _, fields = asked(port, "GET", path)
        assert status == 200 and fields["X-Content-Type-Options"] == "nosniff", path
    for path in ["/none", "/../raven_tools/studio.py", "/%2e%2e/studio.py", "/databases"]:
        assert asked(port, "GET", path)[0] == 404, path
    assert asked(port, "PUT", "/main.js", b"x")[0] == 404


def test_bodies(port: int) -> None:
    """The longest that the server takes, one byte more, and those of which the length is not stated."""
    document = "/databases/db/docs?id=a"
    assert asked(port, "PUT", document, b"x" * studio.MOST_BODY)[:2] == (400, b'{"Error":"NotJson"}')
    status, written, fields = asked(port, "PUT", document, b"x" * (studio.MOST_BODY + 1))
    assert (status, json.loads(written)["Error"], fields["Connection"]) == (413, "BodyTooLarge", None)
    connection = http.client.HTTPConnection("127.0.0.1", port, timeout=60)
    others = [("Content-Length", str(studio.MOST_READ + 1), 413), ("Content-Length", "-1", 400), ("Transfer-Encoding", "chunked", 400)]
    for name, value, expected in others:
        connection.putrequest("PUT", document)
        connection.putheader(name, value)
        connection.endheaders()
        response = connection.getresponse()
        assert (response.status, response.headers["Connection"]) == (expected, "close"), value
        response.read()
        connection.close()


def test_truncated(port: int) -> None:
    """What is no whole body is not passed on, though it is a document."""
    with socket.create_connection(("127.0.0.1", port)) as connection:
        head = f"PUT /databases/db/docs?id=cut HTTP/1.1\r\nHost: 127.0.0.1:{port}\r\nContent-Length: 3\r\n\r\n"
        connection.sendall(head.encode() + b"{}")
        connection.shutdown(socket.SHUT_WR)
        assert connection.makefile("rb").readline().startswith(b"HTTP/1.1 400 ")
    assert asked(port, "GET", "/databases/db/docs?id=cut")[0] == 404


def test_server_gone() -> None:
    """Nothing listens, or what listens never answers, or never ends."""
    with socket.create_server(("127.0.0.1", 0)) as listening:
        port = listening.getsockname()[1]
        patience, remote.PATIENCE = remote.PATIENCE, 0.5
        is_gone(port)
        threading.Thread(target=drip, args=(listening,), daemon=True).start()
        is_gone(port)
        remote.PATIENCE = patience
    is_gone(port)


def is_gone(port: int) -> None:
    began = time.monotonic()
    status, written, _ = asked(opened(port).server_port, "GET", "/databases/db/stats")
    assert (status, json.loads(written)["Error"]) == (502, "NoServer")
    assert time.monotonic() - began < 10


def drip(listening: socket.socket) -> None:
    """A response byte by byte, to each that connects: the first is the one that was never answered."""
    for _ in range(2):
        connection, _ = listening.accept()
        with connection, contextlib.suppress(OSError):
            connection.sendall(b"HTTP/1.1 200 OK\r\nContent-Length: 1000\r\n\r\n")
            for _ in range(1_000):
                connection.sendall(b" ")
                time.sleep(0.05)


# The page


def element(place: str) -> str:
    """The element of this id, in JavaScript."""
    return f"document.getElementById({json.dumps(place)})"


class Shown:
    """The page of a studio, as a person uses it."""

    def __init__(self, page: chromium.Page, port: int):
        self.page, self.address = page, f"http://127.0.0.1:{port}/"

    def open(self, rest: str = "") -> None:
        self.page.open("about:blank")
        self.page.open(self.address + rest)
        self.page.until("document.getElementById('state')?.textContent === 'answers'")

    # what a person does

    def type(self, place: str, text: str) -> None:
        self.page.look(f"{element(place)}.value = {json.dumps(text)}")
        self.page.look(f"{element(place)}.dispatchEvent(new Event('input'))")

    def click(self, place: str) -> None:
        self.page.look(f"{element(place)}.click()")

    def click_on(self, place: str, name: str, value: str) -> None:
        """The button in this place of which a property has this value."""
        buttons = f"[...{element(place)}.querySelectorAll('button')]"
        self.page.look(f"{buttons}.find((button) => button[{json.dumps(name)}] === {json.dumps(value)}).click()")

    def define(self, name: str, map: str, reduce: str = "") -> None:
        for place, text in [("name", name), ("map", map), ("reduce", reduce)]:
            self.type(place, text)
        self.click("define")

    def query(self, text: str) -> None:
        self.type("query", text)
        self.click("run")

    def write_samples(self, count: int) -> None:
        self.type("sample-count", str(count))
        self.click("sample-write")
        self.until("sample-said", lambda said: said == f"{count:,} of {count:,} written")

    # what a person sees

    def until(self, place: str, holds: Holds) -> str:
        """A text, once this holds of it."""
        return self.page.until(f"{element(place)}.textContent", holds)

    def text(self, place: str) -> str:
        return self.until(place, lambda text: True)

    def until_value(self, place: str, holds: Holds) -> str:
        """What stands in a box."""
        return self.page.until(f"{element(place)}.value", holds)

    def value(self, place: str) -> str:
        return self.until_value(place, lambda text: True)

    def lines(self, place: str, holds: Holds) -> list[str]:
        return [line for line in self.page.until(f"{element(place)}.innerText", holds).split("\n") if line]

    def until_rows(self, table: str, holds: Holds) -> list[list[str]]:
        """The texts of the cells."""
        rows = f"[...({element(table)}.tBodies[0]?.rows ?? [])]"
        return self.page.until(f"{rows}.map((row) => [...row.cells].map((cell) => cell.textContent))", holds)

    def rows(self, table: str) -> list[list[str]]:
        return self.until_rows(table, lambda rows: True)

    def is_shown(self, place: str) -> bool:
        return self.page.look(f"{element(place)}.checkVisibility()")

    def until_shown(self, place: str) -> None:
        self.page.until(f"{element(place)}.checkVisibility()")


def totals(client: Client) -> list[list[str]]:
    """The rows that the index by city has to give, added up here."""
    documents = client.query("from Orders").reply["Results"]
    cents = {city: [document["Cents"] for document in documents if document["City"] == city] for city in CITIES}
    return [[city, str(len(found)), str(sum(found))] for city, found in cents.items()]


def test_stale_then_fresh(shown: Shown, held: Held, client: Client) -> None:
    shown.define("Orders/ByCity", MAP, REDUCE)
    shown.until("defined", lambda said: said == "Defined: Orders/ByCity")
    shown.write_samples(400)
    behind = shown.until_rows("indexes", lambda rows: rows and rows[0][4] == "401")
    assert behind[0][1:6] == ["0", "0", "0", "401", "STALE"], behind
    shown.query("from index 'Orders/ByCity' order by City")
    shown.until("flag", lambda flag: flag == "STALE")
    assert shown.rows("results") == []
    # It is asked again, and what is typed meanwhile is not: that would make an index.
    shown.type("query", "from Orders where Cents = 1")
    held.pump(150)
    rows = shown.until_rows("results", lambda rows: len(rows) == len(CITIES))
    assert rows != totals(client) and shown.text("flag") == "STALE", rows
    held.catch_up()
    shown.until("flag", lambda flag: flag == "FRESH")
    assert shown.rows("results") == totals(client), shown.rows("results")
    assert "5 found · Orders/ByCity at etag 401" in shown.text("answer-said"), shown.text("answer-said")
    fresh = shown.until_rows("indexes", lambda rows: rows[0][5] == "FRESH")
    assert fresh[0][1:5] == ["400", "0", "401", "0"], fresh
    assert shown.page.look("document.querySelectorAll('#plot polyline').length") == 1
    assert len(client.indexes()) == 1


def test_collections(shown: Shown, client: Client) -> None:
    shown.click_on("collections", "textContent", "Orders")
    shown.until("collections", lambda said: said == "Orders400")
    assert shown.value("query") == "from 'Orders'" and shown.text("flag") == "FRESH"
    assert len(client.indexes()) == 1


def test_built_beside(shown: Shown, held: Held) -> None:
    shown.define("orders/bycity", MAP, HIGHEST)
    shown.until("defined", lambda said: said == "Defined: ReplacementOf/Orders/ByCity")
    held.pump(200, "ReplacementOf/Orders/ByCity")
    rows = shown.until_rows("indexes", lambda rows: len(rows) == 2 and rows[1][1] == "200")
    assert rows[1][0] == "ReplacementOf/Orders/ByCitybuilt beside" and rows[0][5] == "FRESH" and rows[1][5] == "STALE", rows
    assert shown.page.look("(({value, max}) => value / max)(document.querySelector('tr.beside progress'))") == 201 / 401
    held.catch_up()
    shown.until_rows("indexes", lambda rows: len(rows) == 1)


def test_refusals(shown: Shown, client: Client) -> None:
    shown.type("query", "from Orders\nwere City = 'é'")
    shown.page.look(f"{element('query')}.focus()")
    shown.page.call("Input.dispatchKeyEvent", type="keyDown", key="Enter", windowsVirtualKeyCode=13, modifiers=CTRL)
    line, caret, name, when = shown.lines("query-refused", lambda said: "Unexpected" in said)
    assert (line, caret, name) == ("were City = 'é'", "^", "400 Unexpected: At 12") and when.startswith("if the text of a query is refused"), when
    assert not shown.is_shown("answer") and shown.rows("results") == []
    shown.query("from Orders where City = 'é' 'é'")
    line, caret, *_ = shown.lines("query-refused", lambda said: "At 30" in said)
    assert (line, caret) == ("from Orders where City = 'é' 'é'", " " * 29 + "^"), caret
    reduce = "from r in results group r by r.Town into g select new { City = g.Key }"
    shown.define("Bad", MAP, reduce)
    line, caret, name, _ = shown.lines("define-refused", lambda said: "Part" in said)
    refused = client.define("Bad", MAP, reduce).reply
    assert refused["Part"] == "Reduce" and [line, caret] == explaining.pointed(reduce, refused["At"]), (line, caret, refused)
    assert name == f'400 {refused["Error"]}: At {refused["At"]}, Part "Reduce"', name


def test_conflict(shown: Shown, client: Client) -> None:
    """A number that JavaScript would round stays as it is on the way."""
    client.put("orders/1", {"City": "Oslo", "Cents": 9007199254740993, "@metadata": {"@collection": "Orders"}})
    shown.query("from Orders where City = 'Oslo'")
    shown.type("id", "orders/1")
    shown.click("load")
    text = shown.until_value("document", lambda text: "9007199254740993" in text)
    assert json.loads(text)["City"] == "Oslo" and "\n" in text
    client.put("orders/1", {"City": "Rome", "Cents": 9007199254740993, "@metadata": {"@collection": "Orders"}})
    shown.type("document", text.replace("Oslo", "Paris"))
    shown.click("save")
    shown.until_shown("conflict")
    assert client.get("orders/1").reply["Results"][0]["City"] == "Rome"
    assert "409 Conflict" in shown.text("document-refused")
    shown.click("load")
    text = shown.until_value("document", lambda text: "Rome" in text)
    assert not shown.is_shown("conflict")
    shown.type("document", text.replace("Rome", "Paris"))
    shown.click("save")
    shown.until_value("document", lambda found: "Paris" in found and found != text.replace("Rome", "Paris"))
    kept = client.get("orders/1").reply["Results"][0]
    assert (kept["City"], kept["Cents"]) == ("Paris", 9007199254740993), kept
    # An id that was not loaded is created, and is never written over.
    shown.type("id", "orders/2")
    shown.click("save")
    shown.until_shown("conflict")


def test_script_is_text(shown: Shown, client: Client) -> None:
    client.put("evil/1", {SCRIPT: SCRIPT, "@metadata": {"@collection": "Evil"}})
    shown.query("from Evil")
    rows = shown.until_rows("results", lambda rows: rows and rows[0][0] == "evil/1")
    assert rows == [["evil/1", SCRIPT]], rows
    shown.click_on("results", "textContent", "evil/1")
    shown.until_value("document", lambda text: SCRIPT in text)
    assert shown.page.look("document.querySelectorAll('script').length") == 1
    assert shown.page.look("typeof window.hit") == "undefined"


def test_included(shown: Shown, client: Client) -> None:
    client.put("evil/2", {"Name": "Eve", "@metadata": {"@collection": "Others"}})
    client.put("evil/1", {SCRIPT: SCRIPT, "Friend": "evil/2", "@metadata": {"@collection": "Evil"}})
    shown.query("from Evil include Friend")
    shown.until("included", lambda said: said == "included: evil/2")
    shown.click_on("included", "textContent", "evil/2")
    shown.until_value("document", lambda text: '"Name": "Eve"' in text)
    shown.until("collections", lambda said: "Others" in said)
    shown.query("from Evil")
    shown.until("included", lambda said: said == "")
    shown.click_on("results", "textContent", "evil/1")
    shown.until_value("document", lambda text: SCRIPT in text)


def test_kinds(shown: Shown) -> None:
    shown.query("from Orders group by City select City, count()")
    rows = shown.until_rows("indexes", lambda rows: any(row[0].startswith("Auto/Orders/ByCountReducedByCity") for row in rows))
    assert all(row[0].endswith("automatic") for row in rows if row[0].startswith("Auto/")), rows
    assert rows[0][0] == "Orders/ByCitywith a reduce", rows


def test_deletion_asks(shown: Shown, client: Client) -> None:
    shown.click("delete")
    shown.until("vector", lambda said: said.startswith("Not loaded"))
    assert client.get("evil/1").status == 404
    name = next(index["Name"] for index in client.indexes() if index["Definition"]["Kind"] == "auto")
    before = len(client.indexes())
    shown.click_on("indexes", "title", f"Remove {name}")
    shown.until_rows("indexes", lambda rows: len(rows) == before - 1)
    assert shown.page.confirmed[-2:] == ["Delete the document evil/1?", f"Remove the index {name}?"], shown.page.confirmed


def test_address(shown: Shown, client: Client) -> None:
    """It holds the query, which does not run when the page opens."""
    shown.query("from Evil")
    address = shown.page.look("location.hash")
    assert address == "#query=from+Evil", address
    before = len(client.indexes())
    shown.open("#query=from+Evil+where+A+%3D+1&size=7")
    time.sleep(1)
    assert (shown.value("query"), shown.value("size")) == ("from Evil where A = 1", "7")
    assert len(client.indexes()) == before and not shown.is_shown("answer")


def test_narrow(shown: Shown) -> None:
    shown.page.call("Emulation.setDeviceMetricsOverride", width=390, height=800, deviceScaleFactor=1, mobile=True)
    shown.open()
    assert shown.page.look("document.documentElement.scrollWidth") == 390
    assert shown.page.look("getComputedStyle(document.getElementById('layout')).gridTemplateColumns.split(' ').length") == 1


def test_page(browser: str) -> None:
    held = Held()
    with chromium.Page(browser, 1280, 900) as page, Client(held.port) as client:
        shown = Shown(page, opened(held.port).server_port)
        shown.open()
        test_stale_then_fresh(shown, held, client)
        test_collections(shown, client)
        test_built_beside(shown, held)
        test_refusals(shown, client)
        test_conflict(shown, client)
        test_script_is_text(shown, client)
        test_included(shown, client)
        test_kinds(shown)
        test_deletion_asks(shown, client)
        test_address(shown, client)
        test_narrow(shown)
        assert not page.faults, page.faults


# The picture


# What a person does, by the number of the half second in which it is done.
BURSTS = {0: ("Orders", 700), 40: ("Invoices", 900), 80: ("Orders", 1_300), 150: ("Invoices", 700), 180: ("Orders", 600)}
REPLACED = 150
STEPS = 190
# How many rows each index takes in a half second.
SPEEDS = {"Orders/ByCity": 24, "Invoices/High": 40, "ReplacementOf/Orders/ByCity": 30}


def picture(browser: str, path: pathlib.Path) -> None:
    """Indexes catch up while documents are written, one of them beside its old definition, and a query has an answer that is still stale."""
    held = Held()
    with chromium.Page(browser, 1280, 900) as page:
        shown = Shown(page, opened(held.port).server_port)
        page.call("Emulation.setDeviceMetricsOverride", width=1280, height=800, deviceScaleFactor=1, mobile=False)
        shown.open()
        shown.define("Invoices/High", "from i in docs.Invoices where i.Cents >= 5000 select new { i.City, i.Cents }")
        shown.until("defined", lambda said: said == "Defined: Invoices/High")
        shown.define("Orders/ByCity", MAP, REDUCE)
        shown.until("defined", lambda said: said == "Defined: Orders/ByCity")
        for at in range(STEPS):
            half_second(shown, held, at)
        shown.click_on("collections", "textContent", "Orders")
        shown.until("flag", lambda flag: flag == "FRESH")
        shown.query("from index 'Orders/ByCity' order by Total as long desc")
        shown.type("id", "orders/7")
        shown.click("load")
        shown.until_value("document", bool)
        shown.until("flag", lambda flag: flag == "STALE")
        page.look("document.activeElement.blur()")
        path.write_bytes(page.picture())
    print(f"{path}: {path.stat().st_size:,} bytes")


def half_second(shown: Shown, held: Held, at: int) -> None:
    began = time.monotonic()
    if at in BURSTS:
        collection, count = BURSTS[at]
        shown.type("sample-collection", collection)
        shown.write_samples(count)
    if at == REPLACED:
        shown.define("Orders/ByCity", MAP, HIGHEST)
    for name, most in SPEEDS.items():
        held.pump(most, name)
    time.sleep(max(0, 0.5 - (time.monotonic() - began)))


def main() -> int:
    sys.setrecursionlimit(10_000)
    browser = chromium.found()
    if sys.argv[1:2] == ["--picture"] and len(sys.argv) == 3:
        if not browser:
            print("there is no Chromium, so there is no picture")
            return 2
        picture(browser, pathlib.Path(sys.argv[2]))
        return 0
    shown = opened(Held().port)
    for test in [test_refuses_others, test_passes_on, test_paths, test_bodies, test_truncated]:
        test(shown.server_port)
    test_server_gone()
    print("the proxy holds")
    if browser:
        test_page(browser)
        print(f"the page holds, in {browser}")
    else:
        print("there is no Chromium, so the page was not looked at")
    return 0


if __name__ == "__main__":
    sys.exit(main())
