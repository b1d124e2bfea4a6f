#!/usr/bin/env python3
"""Tests of the model of sessions over HTTP by itself: bytes worked out by hand, recorded ones of real clients, and random ones.

    tools/test_http.py [ROUNDS]

It needs no program. It ends with 0 if every test holds, and otherwise at the first assertion that does not.
"""

import collections
import itertools
import random
import re
import sys

sys.dont_write_bytecode = True
from raven_tools import model, session_file
from raven_tools.making import MAKERS, worked_http
from raven_tools.making.http_calls import Call, call_of
from raven_tools.making.http_sessions import Session, SessionMaker
from raven_tools.making.worked_http import CHUNKS, EMPTY_STATS, LAST_STATS, NO_ROWS, PUT_ADA, STATS, asked, head
from raven_tools.model import http_answering, http_asking, http_reading, http_session, keeping
from raven_tools.model.http_reading import Reading, session_of
from raven_tools.model.outside import Clock, LeftOpen, Outside
from raven_tools.model.running import run
from raven_tools.places import DATA
from raven_tools.responses import responses_of

Answer = tuple[str, bytes]
# Heads again, as expressions: whole ones, and what some bytes can make whole.
NAME, VALUE, END = rb"[!#$%&'*+.^_`|~0-9A-Za-z-]+", rb"[\t\x20-\x7e\x80-\xff]*", rb"\r?\n"
FIELDS = rb"(?:%s:%s%s)*" % (NAME, VALUE, END)
WHOLE_HEAD = re.compile(rb"(?:%s)*%s /[!-~]* HTTP/1\.[01]%s%s%s" % (END, NAME, END, FIELDS, END))
LAST_LINE = rb"(?:\r|%s%s(?:\r|%s(?::%s\r?)?)?)" % (END, FIELDS, NAME, VALUE)
# What is refused before the database is asked.
BEFORE_DATABASE = "NotJson NumberNotWhole TooDeep Empty TooLong Control BadMember Unexpected UnknownName DuplicateField FieldsDiffer "
BEFORE_DATABASE += "NotReducible ClauseOrder BadNumber"


def over(data: bytes, *arguments: str, keeper: keeping.Keeper | None = None, **given: object) -> Answer:
    """The status and what is written for the bytes."""
    return run(Outside(("http", *arguments), script=data, **given), keeper or keeping.Keeper())


def response(status: str, body: str | None, closes: bool = False) -> bytes:
    """The bytes of a response, if those of `EMPTY_STATS` are right."""
    close = "Connection: close\r\n" if closes else ""
    content = "" if body is None else f"Content-Length: {len(body.encode())}\r\nContent-Type: application/json; charset=utf-8\r\n"
    return f"HTTP/1.1 {status}\r\n{close}{content}\r\n{body or ''}".encode()


def refused(end: str) -> bytes:
    return response(worked_http.ENDS[end], f'{{"Error":"{end}"}}', True)


def nested(parts: list[bytes]) -> bytes:
    """An expression for the first part, perhaps with the second behind it, and so on."""
    first, *others = parts
    return first + (b"(?:" + nested(others) + b")?" if others else b"")


PARTS = [NAME, b" ", b"/[!-~]*", b" ", *(rb"\x%02x" % byte for byte in b"HTTP/1."), b"[01]", LAST_LINE]
OPEN_HEAD = re.compile(rb"(?:%s)*(?:\r|%s)?" % (END, nested(PARTS)))


# Bytes by hand


def test_worked_sessions() -> None:
    ended = "Done"
    no_database = b"HTTP/1.1 404 Not Found\r\nContent-Length: 22\r\n" + worked_http.TYPE + b'{"Error":"NoDatabase"}'
    assert over(PUT_ADA) == (ended, worked_http.CREATED_ADA)
    assert over(b"GET /databases/other/stats HTTP/1.1\r\n\r\n") == (ended, no_database)
    assert over(STATS) == (ended, EMPTY_STATS)
    assert over(b"") == (ended, b"")
    deleted = b"DELETE /databases/db/docs?id=a HTTP/1.1\r\n\r\n"
    assert over(deleted) == (ended, b"HTTP/1.1 204 No Content\r\n\r\n")
    closed = b"HTTP/1.1 204 No Content\r\nConnection: close\r\n\r\n"
    assert over(deleted.replace(b"1.1", b"1.0") + b"Z") == (ended, closed)
    too_long = b'HTTP/1.1 431 Request Header Fields Too Large\r\nConnection: close\r\nContent-Length: 24\r\n' + worked_http.TYPE
    assert over(b"G" * 16_384) == ("HttpRefused HeadTooLarge", too_long + b'{"Error":"HeadTooLarge"}')
    bad = b'HTTP/1.1 400 Bad Request\r\nConnection: close\r\nContent-Length: 20\r\n' + worked_http.TYPE + b'{"Error":"BadChunk"}'
    assert over(CHUNKS + b"Z") == ("HttpRefused BadChunk", bad)
    assert over(b"HEAD" + STATS[3:]) == (ended, response("404 Not Found", '{"Error":"NoRoute"}'))


def test_refused_bytes() -> None:
    """The last byte shows the end. Without it nothing does, and whatever follows changes nothing."""
    for data, end in worked_http.REFUSED:
        for more in (b"", b"\r\n\r\n", STATS, b"Z"):
            assert session_of(data + more) == Reading([], [], end, len(data)), (data[-100:], more, session_of(data + more))
        before = "Truncated" if data[:-1] else "Ended"
        assert session_of(data[:-1]) == Reading([], [], before, None), data[-100:]
        status, written = over(STATS + data + STATS)
        assert (status, written) == (f"HttpRefused {end}", EMPTY_STATS + refused(end)), (data[-100:], written)


def test_cut_short() -> None:
    for data in worked_http.CUT_SHORT:
        assert session_of(data) == Reading([], [], "Truncated", None), data[-100:]
        assert over(STATS + data) == ("HttpRefused Truncated", EMPTY_STATS), data[-100:]


def test_whole_requests() -> None:
    for data, request in worked_http.WHOLE:
        end = ("Closed", len(data)) if request.close else ("Ended", None)
        assert session_of(data) == Reading([request], [len(data)], *end), (data[-100:], session_of(data))
        assert session_of(data[:-1]).end == "Truncated", data[-100:]
        if not request.close:
            behind = session_of(data + STATS)
            assert behind.requests[:-1] == [request] and behind.places == [len(data), len(data + STATS)], data[-100:]


def test_every_cut() -> None:
    """A session cut before each byte: a request is whole exactly behind its last one."""
    chunked = CHUNKS + b"2 ;x\r\nab\r\n003\r\ncde\r\n0\r\n\r\n"
    session = b"\r\n" + PUT_ADA + chunked + b"\n\r\nGET /x HTTP/1.1\nA: b\n\n"
    places = [2 + len(PUT_ADA), 2 + len(PUT_ADA) + len(chunked), len(session)]
    for cut in range(len(session) + 1):
        reading = session_of(session[:cut])
        whole = [place for place in places if place <= cut]
        assert reading.places == whole and reading.end == ("Ended" if cut in [0, *whole] else "Truncated"), cut
    for cut in range(1, len(PUT_ADA)):
        assert over(PUT_ADA[:cut]) == ("HttpRefused Truncated", b""), cut


def cut_into_chunks(body: bytes, cuts: tuple[int, ...]) -> bytes:
    pieces = [body[start:end] for start, end in zip((0, *cuts), (*cuts, len(body)))]
    return b"".join(b"%x\r\n%s\r\n" % (len(piece), piece) for piece in [*pieces, b""])


def test_every_chunking() -> None:
    body = b"a\r\n0\r\n\r\nb"
    for count in range(len(body)):
        for cuts in itertools.combinations(range(1, len(body)), count):
            data = CHUNKS + cut_into_chunks(body, cuts)
            assert session_of(data + STATS).requests[0].body == body, cuts
            assert session_of(data).end == "Ended", cuts


# Answers by hand


def test_parameters() -> None:
    for name, query, value in worked_http.PARAMETERS:
        try:
            found = http_asking.parameter(worked_http.request(query=query), name)
        except model.Refused as missing:
            assert value is None and missing.reply == {"Error": "BadMember", "Name": name}, query
            continue
        assert found == value, (query, found)


def test_answers() -> None:
    """One request after another of one database, alone and with what closes the session."""
    for version in ("1.1", "1.0"):
        data, expected = b"", b""
        for method, target, fields, body, status, reply in worked_http.ANSWERS:
            last = asked(method, target, fields, body, version)
            wanted = response(f"{status} {worked_http.PHRASES[status]}", reply, version == "1.0")
            ended, written = over(data + last, "--pump", "0")
            assert (ended, written) == ("Done", expected + wanted), (method, target, body[:80], written[len(expected) :])
            data += asked(method, target, fields, body)
            expected += response(f"{status} {worked_http.PHRASES[status]}", reply)


def test_statuses() -> None:
    for reply, status in worked_http.ERRORS:
        assert http_answering.status_of_error(reply) == status, reply
    full = keeping.KeptRow(model.MAX_ETAG, "a", "@empty", None, 0)
    spent = '{"At":0,"Error":"EtagsSpent","Last":9007199254740991}'
    assert over(PUT_ADA, keeper=keeping.Keeper([full])) == ("Done", response("507 Insufficient Storage", spent))
    large = asked("PUT", "/docs?id=a", (), b'{"F":"%s"}' % (b"x" * 1_048_554))
    assert over(large) == ("Done", response("413 Payload Too Large", '{"At":0,"Error":"TooLarge","Len":1048577}'))
    largest = asked("PUT", "/docs?id=a", (), b'{"F":"%s"}' % (b"x" * 1_048_553))
    assert over(largest)[1].startswith(b"HTTP/1.1 201 Created\r\n")


def test_too_many_indexes() -> None:
    definition = '{"Indexes":[{"Map":"from u in docs.U select new { u.A }","Name":"n%d"}]}'
    data = b"".join(asked("PUT", "/admin/indexes", (), (definition % number).encode()) for number in range(257))
    made = [response("201 Created", '{"Index":"n%d"}' % number) for number in range(256)]
    assert over(data) == ("Done", b"".join(made) + response("507 Insufficient Storage", '{"Error":"TooManyIndexes"}'))


def test_databases() -> None:
    """The names are compared as they stand, behind the test of the route."""
    for path, is_there in [("/databases/a-B_1/stats", True), ("/databases/a-b_1/stats", False), ("/databases/a%2DB_1/stats", False)]:
        body = NO_ROWS.decode() if is_there else '{"Error":"NoDatabase"}'
        wanted = response("200 OK" if is_there else "404 Not Found", body)
        assert over(head(line=f"GET {path} HTTP/1.1".encode()), "--db", "a-B_1") == ("Done", wanted), path
    for path in worked_http.NO_ROUTE:
        assert over(head(line=f"GET {path} HTTP/1.1".encode())) == ("Done", response("404 Not Found", '{"Error":"NoRoute"}')), path


# Sessions


def test_closing() -> None:
    """What stands behind a request that closes the session is not read."""
    for fields, version in [((b"Connection: close",), "1.1"), ((b"Connection: x", b"connection: CLOSE"), "1.1"), ((), "1.0")]:
        last = asked("GET", "/stats", fields, version=version)
        for more in (b"", b"Z", STATS, b"G" * 20_000):
            assert over(STATS + last + more) == ("Done", EMPTY_STATS + LAST_STATS)
            assert session_of(STATS + last + more).rest == len(STATS + last)
    for field in (b"Connection: keep-alive", b"Connection: close, x", b"Proxy-Connection: close"):
        assert over(asked("GET", "/stats", (field,)) + STATS) == ("Done", EMPTY_STATS * 2)


def test_thousand_requests() -> None:
    """The thousandth response closes the session, whatever follows. Refused requests count, but not bytes that hold no whole one."""
    unknown, none = asked("GET", "/none"), response("404 Not Found", '{"Error":"NoRoute"}')
    last = response("404 Not Found", '{"Error":"NoRoute"}', True)
    closing = asked("GET", "/stats", (b"Connection: close",))
    for data, status, written in [
        (STATS * 999, "Done", EMPTY_STATS * 999),
        (STATS * 1_000, "Enough", EMPTY_STATS * 999 + LAST_STATS),
        (STATS * 1_001, "Enough", EMPTY_STATS * 999 + LAST_STATS),
        (STATS * 1_000 + b"Z ", "Enough", EMPTY_STATS * 999 + LAST_STATS),
        (unknown * 1_000, "Enough", none * 999 + last),
        (STATS * 999 + closing, "Enough", EMPTY_STATS * 999 + LAST_STATS),
        (STATS * 998 + closing + STATS, "Done", EMPTY_STATS * 998 + LAST_STATS),
        (STATS * 999 + b"\n \n", "HttpRefused BadHead", EMPTY_STATS * 999 + refused("BadHead")),
        (STATS * 999 + b"\n", "HttpRefused Truncated", EMPTY_STATS * 999),
    ]:
        assert over(data) == (status, written), (len(data), status)


def test_batches() -> None:
    """A batch of each index follows each request that reached the database, and no other."""
    define = asked("PUT", "/admin/indexes", (), b'{"Indexes":[{"Map":"from u in docs.U select new { u.A }","Name":"N"}]}')
    documents = b",".join(b'{"Document":{"@metadata":{"@collection":"U"}},"Id":"%d","Type":"PUT"}' % number for number in range(3))
    bulk = asked("POST", "/bulk_docs", (), b'{"Commands":[%s]}' % documents)
    stale = asked("GET", "/indexes/staleness?name=N")
    unknown, bad, missing = asked("GET", "/none"), asked("PUT", "/docs?id=a", (), b"["), asked("GET", "/docs?id=none")
    bad_query, no_page = asked("GET", "/queries?query=from"), asked("POST", "/queries", (), b'{"Query":"from U","Start":-1}')
    for pump, between, etags in [
        ("0", missing, [0, 0, 0]),
        ("1", unknown, [2, 3, 4]),
        ("1", bad, [2, 3, 4]),
        ("1", bad_query, [2, 3, 4]),
        ("1", missing, [3, 4, 4]),
        ("1", no_page, [3, 4, 4]),
        ("2", unknown, [3, 4, 4]),
        ("3", unknown, [4, 4, 4]),
        ("65536", unknown, [4, 4, 4]),
    ]:
        status, written = over(define + bulk + between + stale * 3, "--pump", pump)
        bodies = [model.read_json(body) for _, _, body in responses_of(written)[3:]]
        wanted = [{"IndexEtag": etag, "IsStale": etag < 4, "Newest": 4} for etag in etags]
        assert (status, bodies) == ("Done", wanted), (pump, between, bodies)


def test_answers_that_are_fresh() -> None:
    """By default an index has caught up when the next request is read."""
    define = asked("PUT", "/admin/indexes", (), b'{"Indexes":[{"Map":"from u in docs.Users select new { u.Name }","Name":"N"}]}')
    query = asked("GET", "/queries?query=from+index+'N'+where+Name='ADA'+select+Name")
    parts = [response("201 Created", '{"Index":"N"}'), worked_http.CREATED_ADA.replace(b"A:1-", b"A:2-")]
    found = '{"Includes":{},"IndexEtag":2,"IndexName":"N","IsStale":false,"Results":[{"Name":"Ada"}],"TotalResults":1}'
    assert over(define + PUT_ADA + query) == ("Done", b"".join(parts) + response("200 OK", found))


# Indexes that requests make, and what is done behind them


def answer_of(name: str, etag: int, is_stale: bool, results: str, total: int) -> bytes:
    """The answer that an index gives, without includes."""
    flag = "true" if is_stale else "false"
    found = f'"IndexEtag":{etag},"IndexName":"{name}","IsStale":{flag},"Results":[{results}],"TotalResults":{total}'
    return response("200 OK", '{"Includes":{},' + found + "}")


def asks(query: str) -> bytes:
    return asked("GET", "/queries?query=" + query.replace(" ", "+"))


def test_queries_that_make_indexes() -> None:
    """A query is answered from the index that it has just made; when the next one is read, the index has caught up and is the only one."""
    put = asked("PUT", "/docs?id=users/1", (), b'{"@metadata":{"@collection":"Users"},"Age":36,"Name":"Ada"}')
    by_name, by_both = asks("from Users where Name = 'ada' select Name"), asks("from Users where Name = 'ada' and Age = 36 select Name")
    ada, wide = '{"Name":"Ada"}', "Auto/Users/ByAgeAndName"
    parts = [worked_http.CREATED_ADA, answer_of("Auto/Users/ByName", 0, True, "", 0), answer_of("Auto/Users/ByName", 2, False, ada, 1)]
    parts += [answer_of(wide, 0, True, "", 0), answer_of(wide, 3, False, ada, 1)]
    stats = response("200 OK", '{"CountOfDocuments":1,"CountOfIndexes":1,"CountOfTombstones":0,"LastDocEtag":4}')
    data = put + by_name * 2 + by_both + by_name + asked("GET", "/stats")
    assert over(data) == ("Done", b"".join(parts) + stats)
    waiting = asked("POST", "/queries", (), b'{"Query":"from Users where Name = \'ada\'","WaitForNonStaleResults":true,"Looks":3}')
    assert over(waiting) == ("Done", answer_of("Auto/Users/ByName", 0, False, "", 0))


def test_removals_that_fail() -> None:
    """A commit that fails behind a request is not reported, and is tried again behind the next one."""
    narrow, wide = asks("from Users where Name = 'ada'"), asks("from Users where Name = 'ada' and Age = 36")
    stats = asked("GET", "/stats")
    for fails, counts in [([], [1, 1]), ([4], [2, 1]), ([4, 5], [2, 2])]:
        keeper = keeping.Keeper(fails=fails)
        status, written = over(narrow + wide + stats * 2, keeper=keeper)
        found = [model.read_json(body)["CountOfIndexes"] for _, _, body in responses_of(written)[2:]]
        assert (status, found) == ("Done", counts), (fails, written)


def test_replacements() -> None:
    """One that reads nothing is ready at once, and serves when the next request is read."""
    define = '{"Indexes":[{"Map":"from u in docs.U select new { u.%s }","Name":"%s"}]}'
    first, second = (asked("PUT", "/admin/indexes", (), (define % way).encode()) for way in (("A", "U"), ("B", "u")))
    shown = '{"Results":[{"Definition":{"Kind":"static","Map":"from u in docs.U select new { u.B }","Reduce":null,"Version":2},'
    shown += '"Entries":0,"Errors":0,"Etag":0,"IsStale":false,"Name":"U"}]}'
    stats = response("200 OK", '{"CountOfDocuments":0,"CountOfIndexes":1,"CountOfTombstones":0,"LastDocEtag":4}')
    parts = [response("201 Created", '{"Index":"U"}'), response("201 Created", '{"Index":"ReplacementOf/U"}'), response("200 OK", shown)]
    data = first + second + asked("GET", "/indexes") + asked("GET", "/stats")
    assert over(data) == ("Done", b"".join(parts) + stats)
    stats = response("200 OK", '{"CountOfDocuments":0,"CountOfIndexes":2,"CountOfTombstones":0,"LastDocEtag":2}')
    assert over(first + second + asked("GET", "/stats"), "--pump", "0") == ("Done", b"".join(parts[:2]) + stats)


# Faults and options


def test_faults_of_the_keeper() -> None:
    """The first call loads, and finds nothing. A commit that fails changes nothing, and is not repeated."""
    fault, found = response("503 Service Unavailable", '{"Error":"KeeperFault"}'), '{"Error":"NoDocument","Id":"users/1"}'
    get = asked("GET", "/docs?id=users/1")
    keeper = keeping.Keeper(fails=[2])
    data = PUT_ADA + get + PUT_ADA
    assert over(data, keeper=keeper) == ("Done", fault + response("404 Not Found", found) + worked_http.CREATED_ADA)
    assert [(row.etag, row.id) for row in keeper.rows] == [(1, "users/1")]
    assert over(data, keeper=keeping.Keeper(fails=[1])) == ("KeptFault", b"")
    bad = keeping.KeptRow(0, "a", "@empty", None, 0)
    assert over(data, keeper=keeping.Keeper([bad]), reads=frozenset([1])) == ("KeptBad 0", b"")


def test_faults_of_the_output() -> None:
    """The request whose response fails was executed, and no request behind it."""
    second = PUT_ADA.replace(b"users/1", b"users/2")
    for fails, written, count in [({1}, b"", 1), ({2}, worked_http.CREATED_ADA, 2), ({2, 3}, worked_http.CREATED_ADA, 2)]:
        keeper = keeping.Keeper()
        found = over(PUT_ADA + second + second, keeper=keeper, writes=frozenset(fails))
        assert found == ("WriteFault", written) and len(keeper.rows) == count, (fails, found)
    assert over(b"Z\0", writes=frozenset([1])) == ("WriteFault", b"")
    assert over(b"Z", writes=frozenset([1])) == ("HttpRefused Truncated", b"")


def test_faults_of_the_input() -> None:
    """A call gives one byte at least. What depends on how many more it gives is left open."""
    fault, closing = ("ReadFault", b""), asked("GET", "/stats", (b"Connection: close",))
    for data, fails, wanted in [
        (b"", {1}, fault),
        (b"", {2}, ("Done", b"")),
        (STATS, {1}, fault),
        (STATS, {2}, None),
        (STATS, {len(STATS) + 1}, None),
        (STATS, {len(STATS) + 2}, ("Done", EMPTY_STATS)),
        (STATS[:-1], {2}, fault),
        (STATS[:-1], {3}, None),
        (b"\rG", {2}, None),
        (b" Z", {2}, ("HttpRefused BadHead", refused("BadHead"))),
        (closing, {len(closing)}, None),
        (closing, {len(closing) + 1}, ("Done", LAST_STATS)),
    ]:
        try:
            found = over(data, reads=frozenset(fails))
        except LeftOpen:
            found = None
        assert found == wanted, (data, fails, found)


def test_options() -> None:
    base = "b" * 22
    good = [("--db", "db"), ("--pump", "0"), ("--pump", "0000000001"), ("--id", base, "--data", "x"), ("--pump", "65536", "--db", "db")]
    for arguments in good:
        assert over(STATS, *arguments) == ("Done", EMPTY_STATS), arguments
    assert over(PUT_ADA, "--id", base) == ("Done", worked_http.CREATED_ADA.replace(b"A" * 22, base.encode()))
    assert over(b"", "--db", "x" * 64) == ("Done", b"")
    bad = [("x",), ("--db",), ("--db", ""), ("--db", "-db"), ("--db", "a b"), ("--db", "é"), ("--db", "a/b"), ("--db", "x" * 65)]
    bad += [("--pump", "65537"), ("--pump", "-1"), ("--pump", "+1"), ("--pump", "00000000001"), ("--pump", "1.0"), ("--pump", "٣")]
    bad += [("--pump", "1", "--pump", "1"), ("--db=db",), ("--port", "80"), ("--id", "short"), ("--data", ""), ("--Db", "db")]
    for arguments in bad:
        assert over(STATS, *arguments, reads=frozenset([1])) == ("Usage", b""), arguments
    assert run(Outside(("HTTP",)), keeping.Keeper()) == ("Usage", b"")


def test_what_is_left_open() -> None:
    """The model does not answer what the rules leave open."""
    assert over(b"", clock=Clock(0, 1)) == ("Done", b"")
    try:
        over(STATS, clock=Clock(0, 1))
    except LeftOpen:
        return
    raise AssertionError


# Real clients


def test_clients() -> None:
    recorded = session_file.read((DATA / "http-clients.txt").read_text())
    assert len(recorded) > 30
    for session in recorded:
        reading = session_of(session.data)
        assert (reading.requests, reading.end) == (session.requests, session.end), (session.name, reading)
        status, written = over(session.data)
        assert status.split(" ")[-1] in ("Done", "BadHead"), session.name
        assert len(responses_of(written)) == len(session.requests) + (session.end == "BadHead"), session.name


# Random sessions


def check_bytes(session: Session, reading: Reading) -> None:
    """Each byte belongs to one request, or to the rest, of which none can be read. A good session is read as it was meant."""
    for start, place, request in zip([0, *reading.places], reading.places, reading.requests):
        assert start < place and http_reading.next_request(session.data[start:place], 0) == (request, place - start)
    rest = session_of(session.data[reading.rest :])
    if reading.end not in ("Closed", "Enough"):
        assert not rest.requests and rest.end == reading.end, (session.data, rest)
    if session.is_good:
        closing = [number for number, request in enumerate(session.meant, 1) if request.close]
        meant = slice(closing[0] if closing else None)
        assert (reading.requests, reading.places) == (session.meant[meant], session.places[meant]), session
        assert reading.end == ("Closed" if closing else "Ended"), session


def check_head(data: bytes) -> None:
    """The first head is whole, refused or open by the expressions as by the automaton."""
    try:
        place = http_reading.behind(http_reading.HEAD, data, 0, model.limits.MAX_HEAD, "BadHead", "HeadTooLarge")
        assert data[:place] == WHOLE_HEAD.match(data)[0], data
    except http_reading.Stopped as stopped:
        assert not WHOLE_HEAD.match(data[: model.limits.MAX_HEAD]), data
        open_bytes = stopped.shown_by - 1 if stopped.end == "BadHead" else min(len(data), model.limits.MAX_HEAD)
        assert OPEN_HEAD.fullmatch(data[:open_bytes]), (data, stopped.end)
        assert stopped.end != "BadHead" or not OPEN_HEAD.fullmatch(data[: open_bytes + 1]), data


def check_cuts(data: bytes, reading: Reading, cuts: list[int]) -> None:
    """Of fewer bytes as many requests are read as are whole, and an end that fewer bytes show."""
    for cut in cuts:
        found = session_of(data[:cut])
        whole = [place for place in reading.places if place <= cut]
        assert (found.places, found.requests) == (whole, reading.requests[: len(whole)]), (data, cut)
        if reading.shown_by is not None and reading.shown_by <= cut:
            assert (found.end, found.shown_by) == (reading.end, reading.shown_by), (data, cut)
        else:
            assert found.end == ("Ended" if cut in [0, *whole] else "Truncated"), (data, cut)


def check_responses(reading: Reading, status: str, written: bytes) -> None:
    """A response for each request, and one for an end that is answered; the last one closes the session if the program does."""
    responses = responses_of(written)
    is_answered = reading.end in worked_http.ENDS
    assert len(responses) == len(reading.requests) + is_answered, reading
    closes = [False] * len(responses)
    if is_answered or reading.end == "Closed":
        closes[-1] = True
    assert [is_last for _, is_last, _ in responses] == closes, written
    assert status == ("Done" if reading.end in ("Ended", "Closed") else f"HttpRefused {reading.end}"), status
    assert all((status == 204) == (body == b"") for status, _, body in responses), written


def as_it_comes(data: bytes, size: int) -> Answer:
    """What `over` gives, of bytes that come in pieces of this size."""
    pieces = [data[start : start + size] for start in range(0, len(data), size)]
    written: list[bytes] = []
    status = http_session.serve(("http",), keeping.Keeper(), lambda: pieces.pop(0) if pieces else b"", written.append)
    return status, b"".join(written)


def test_bytes_as_they_come() -> None:
    for seed in range(200):
        data = SessionMaker(seed).session().data
        for size in (1, 7, 20_000):
            if size > 1 or len(data) < 2_000:
                assert as_it_comes(data, size) == over(data), (data, size)
    assert as_it_comes(STATS * 1_001, 99) == over(STATS * 1_001)


def test_random_sessions(rounds: int) -> None:
    ends: collections.Counter[str] = collections.Counter()
    chance = random.Random(1)
    for seed in range(rounds):
        session = SessionMaker(seed).session()
        reading = session_of(session.data)
        ends[reading.end] += 1
        check_bytes(session, reading)
        check_head(session.data)
        every = range(len(session.data) + 1)
        cuts = list(every) if seed % 20 == 0 and len(every) < 2_000 else chance.sample(every, min(12, len(every)))
        check_cuts(session.data, reading, cuts)
        check_responses(reading, *over(session.data))
    assert rounds < 2_000 or set(ends) >= {"Ended", "Closed", "Truncated", *worked_http.ENDS}, ends


# Sessions and scripts


def is_left_out(line: bytes, call: Call | None) -> bool:
    """Of definitions only objects are asked, since what is none is refused by another name over HTTP."""
    if call is None:
        return True
    try:
        return call.page == "/admin/indexes" and not isinstance(model.read_json(line.split(b" ", 1)[1]), dict)
    except model.Refused:
        return True


def has_reached(reply: model.database.Reply) -> bool:
    error = reply.get("Error")
    return error not in BEFORE_DATABASE.split() and (error != "TooLarge" or "Len" in reply)


def script_of(seed: int, pump: int) -> tuple[list[Call], list[model.database.Reply]]:
    """The calls of a random script, and the replies if each line that reaches the database is followed by a batch."""
    database = model.Database()
    calls, replies = [], []
    for line in model.lines(MAKERS[seed % len(MAKERS)](seed).script(24)):
        call = call_of(line)
        if is_left_out(line, call):
            continue
        reply = model.answer(database, line)
        if reply == {"Error": "UnknownLine"}:
            continue
        if pump and has_reached(reply):
            model.answer(database, b"PUMP %d" % pump)
            model.answer(database, b"TIDY")
        is_document = (call.method, call.page) == ("GET", "/docs") and "Error" not in reply
        calls.append(call)
        replies.append({"Includes": {}, "Results": [reply]} if is_document else reply)
    return calls, replies


def test_sessions_and_scripts() -> None:
    """What is asked over HTTP is answered as the lines of a script are."""
    statuses: collections.Counter[int] = collections.Counter()
    for seed in range(160):
        pump = [0, 1, 2, 1_024][seed % 4]
        calls, replies = script_of(seed, pump)
        session = SessionMaker(seed).of_calls(calls)
        assert session_of(session.data).requests == session.meant, seed
        ended, written = over(session.data, "--pump", str(pump))
        responses = responses_of(written)
        assert ended == "Done" and len(responses) == len(calls), (seed, ended)
        for call, reply, (status, _, body) in zip(calls, replies, responses):
            statuses[status] += 1
            assert body == (b"" if status == 204 else model.write_json(reply).encode()), (seed, call, body, reply)
            assert status < 300 or http_answering.status_of_error(reply) == status, (seed, call, status)
    assert {200, 201, 204, 400, 404, 409} <= set(statuses), statuses


def main() -> int:
    sys.setrecursionlimit(10_000)
    rounds = int(sys.argv[1]) if len(sys.argv) > 1 else 2_000
    for name, test in [(name, test) for name, test in globals().items() if name.startswith("test_")]:
        test(*([rounds] if name == "test_random_sessions" else []))
        print(f"holds  {name}")
    return 0


if __name__ == "__main__":
    sys.exit(main())
