"""Bytes of sessions over HTTP, with what they are read as and what is written for them. All of it was worked out by hand."""

from raven_tools.model import BASE
from raven_tools.model.http_reading import HttpRequest

PUT_ADA = (
    b"PUT /databases/db/docs?id=users/1 HTTP/1.1\r\nContent-Length: 50\r\n\r\n"
    b'{"Name":"Ada","@metadata":{"@collection":"Users"}}'
)
STATS = b"GET /databases/db/stats HTTP/1.1\r\n\r\n"
TYPE = b"Content-Type: application/json; charset=utf-8\r\n\r\n"
CREATED_ADA = b'HTTP/1.1 201 Created\r\nContent-Length: 60\r\n' + TYPE + b'{"ChangeVector":"A:1-AAAAAAAAAAAAAAAAAAAAAA","Id":"users/1"}'
NO_ROWS = b'{"CountOfDocuments":0,"CountOfIndexes":0,"CountOfTombstones":0,"LastDocEtag":0}'
EMPTY_STATS = b"HTTP/1.1 200 OK\r\nContent-Length: 79\r\n" + TYPE + NO_ROWS
LAST_STATS = b"HTTP/1.1 200 OK\r\nConnection: close\r\nContent-Length: 79\r\n" + TYPE + NO_ROWS

MOST_HEAD, MOST_BODY = 16_384, 4_194_304


def head(*fields: bytes, line: bytes = b"PUT /d HTTP/1.1") -> bytes:
    return b"".join(part + b"\r\n" for part in (line, *fields, b""))


def asked(method: str, target: str, fields: tuple[bytes, ...] = (), body: bytes = b"", version: str = "1.1") -> bytes:
    """The bytes of a request to the database `db`."""
    length = [b"Content-Length: %d" % len(body)] if body else []
    return head(*length, *fields, line=f"{method} /databases/db{target} HTTP/{version}".encode()) + body


def sized(size: int) -> bytes:
    """A head of so many bytes."""
    before, after = b"GET / HTTP/1.1\r\nX: ", b"\r\n\r\n"
    return before + b"x" * (size - len(before) - len(after)) + after


CHUNKS = head(b"Transfer-Encoding: chunked")
START = b"GET / HTTP/1.1\r\n"

# Bytes that are refused at their last one. Without it they are cut short, and whatever follows changes nothing.
REFUSED = [
    # what stands before a request
    (b" ", "BadHead"),
    (b"\t", "BadHead"),
    (b"\0", "BadHead"),
    (b"\x16", "BadHead"),
    (b"\r\r", "BadHead"),
    (b"\rG", "BadHead"),
    (b"\r\n\n\r ", "BadHead"),
    (b"\xef", "BadHead"),
    # methods and targets
    (b"GET\t", "BadHead"),
    (b"GET\r", "BadHead"),
    (b"GET\n", "BadHead"),
    (b"G(", "BadHead"),
    (b"G\xc3", "BadHead"),
    (b"GET  ", "BadHead"),
    (b"GET h", "BadHead"),
    (b"OPTIONS *", "BadHead"),
    (b"CONNECT e", "BadHead"),
    (b"GET ?", "BadHead"),
    (b"GET \r", "BadHead"),
    (b"GET /\r", "BadHead"),
    (b"GET /\n", "BadHead"),
    (b"GET /\t", "BadHead"),
    (b"GET /\x1f", "BadHead"),
    (b"GET /\x7f", "BadHead"),
    (b"GET /\x80", "BadHead"),
    (b"GET /\xc3", "BadHead"),
    # versions
    (b"GET /  ", "BadHead"),
    (b"GET / h", "BadHead"),
    (b"GET / HTTP/2", "BadHead"),
    (b"GET / HTTP/1.2", "BadHead"),
    (b"GET / HTTP/1,", "BadHead"),
    (b"GET / HTTP/1.11", "BadHead"),
    (b"GET / HTTP/1.1 ", "BadHead"),
    (b"GET / HTTP/1.1\rX", "BadHead"),
    (b"GET / HTTP/1.1\r\r", "BadHead"),
    # fields
    (START + b" ", "BadHead"),
    (START + b":", "BadHead"),
    (START + b"\x80", "BadHead"),
    (START + b"A ", "BadHead"),
    (START + b"A\t", "BadHead"),
    (START + b"A\r", "BadHead"),
    (START + b"A\n", "BadHead"),
    (START + b"A(", "BadHead"),
    (START + b"A:\0", "BadHead"),
    (START + b"A: b\x7f", "BadHead"),
    (START + b"A: b\x1f", "BadHead"),
    (START + b"A: b\rc", "BadHead"),
    (START + b"A: b\r\r", "BadHead"),
    (START + b"A: b\r\n ", "BadHead"),
    (START + b"A: b\r\n\t", "BadHead"),
    (START + b"A: b\n ", "BadHead"),
    (START + b"\r\r", "BadHead"),
    (START + b"\rX", "BadHead"),
    # the length of a body, on whole heads
    (head(b"Content-Length: 5", b"Content-Length: 6"), "BadHead"),
    (head(b"Content-Length: 5", b"content-length: 5"), "BadHead"),
    (head(b"Content-Length: 5, 5"), "BadHead"),
    (head(b"Content-Length:"), "BadHead"),
    (head(b"Content-Length: +5"), "BadHead"),
    (head(b"Content-Length: -1"), "BadHead"),
    (head(b"Content-Length: 0x5"), "BadHead"),
    (head(b"Content-Length: 5 5"), "BadHead"),
    (head(b"Content-Length: 5.0"), "BadHead"),
    (head(b"Content-Length: 00000000000"), "BadHead"),
    (head(b"Content-Length: 5", b"Transfer-Encoding: chunked"), "BadHead"),
    (head(b"Transfer-Encoding: chunked", b"Content-Length: 0"), "BadHead"),
    (head(b"Transfer-Encoding: gzip"), "BadHead"),
    (head(b"Transfer-Encoding: gzip, chunked"), "BadHead"),
    (head(b"Transfer-Encoding: chunked, chunked"), "BadHead"),
    (head(b"Transfer-Encoding: chunked", b"Transfer-Encoding: chunked"), "BadHead"),
    (head(b"Transfer-Encoding: gzip", b"Transfer-Encoding: chunked"), "BadHead"),
    (head(b"Transfer-Encoding: identity"), "BadHead"),
    (head(b"Transfer-Encoding: chunked;q=1"), "BadHead"),
    (head(b"Transfer-Encoding:"), "BadHead"),
    # other fields, on whole heads
    (head(b"If-Match: \xff"), "BadHead"),
    (head(b'If-Match: "\xc3"'), "BadHead"),
    (head(b"If-Match: \xed\xa0\x80", b"If-Match: x"), "BadHead"),
    (head(b"Content-Encoding: gzip"), "Encoded"),
    (head(b"Content-Encoding: Identity"), "Encoded"),
    (head(b"Content-Encoding:"), "Encoded"),
    (head(b"Content-Encoding: identity, identity"), "Encoded"),
    (head(b"Content-Encoding: identity", b"content-encoding: br"), "Encoded"),
    (head(b"Content-Encoding: gzip", line=b"GET / HTTP/1.0"), "Encoded"),
    # which of two causes counts
    (head(b"Content-Encoding: gzip", b"Content-Length: x"), "BadHead"),
    (head(b"Content-Encoding: gzip", b"If-Match: \xff"), "BadHead"),
    (head(b"Content-Encoding: gzip", b"Content-Length: 4194305"), "Encoded"),
    (head(b"Content-Encoding: gzip", b"Content-Length: 5"), "Encoded"),
    (head(b"Content-Encoding: gzip", b"Transfer-Encoding: chunked"), "Encoded"),
    # sizes
    (head(b"Content-Length: 4194305"), "BodyTooLarge"),
    (head(b"Content-Length: 0004194305"), "BodyTooLarge"),
    (head(b"Content-Length: 9999999999"), "BodyTooLarge"),
    (b"\n" * MOST_HEAD, "HeadTooLarge"),
    (b"G" * MOST_HEAD, "HeadTooLarge"),
    (sized(MOST_HEAD + 1)[:-1], "HeadTooLarge"),
    (b"\n" * (MOST_HEAD - 1) + b" ", "BadHead"),
    # chunks
    (CHUNKS + b"Z", "BadChunk"),
    (CHUNKS + b" ", "BadChunk"),
    (CHUNKS + b"\r", "BadChunk"),
    (CHUNKS + b";", "BadChunk"),
    (CHUNKS + b"-", "BadChunk"),
    (CHUNKS + b"0x", "BadChunk"),
    (CHUNKS + b"5\n", "BadChunk"),
    (CHUNKS + b"5 5", "BadChunk"),
    (CHUNKS + b"5\rX", "BadChunk"),
    (CHUNKS + b"5\r\r", "BadChunk"),
    (CHUNKS + b"5;a\n", "BadChunk"),
    (CHUNKS + b"5 ;a\rb", "BadChunk"),
    (CHUNKS + b"00000000000000000", "BadChunk"),
    (CHUNKS + b"5;" + b"x" * 62, "BadChunk"),
    (CHUNKS + b"5;" + b"x" * 61 + b"\r", "BadChunk"),
    (CHUNKS + b"5\r\nhelloX", "BadChunk"),
    (CHUNKS + b"5\r\nhello\n", "BadChunk"),
    (CHUNKS + b"5\r\nhello0", "BadChunk"),
    (CHUNKS + b"5\r\nhello\rX", "BadChunk"),
    (CHUNKS + b"5\r\nhello\r\n\r", "BadChunk"),
    (CHUNKS + b"5\r\nhello\r\nG", "BadChunk"),
    (CHUNKS + b"0\r\n\n", "BadChunk"),
    (CHUNKS + b"0\r\nX", "BadChunk"),
    (CHUNKS + b"0\r\n0", "BadChunk"),
    (CHUNKS + b"0\r\n\rX", "BadChunk"),
    (CHUNKS + b"400001\r\n", "BodyTooLarge"),
    (CHUNKS + b"ffffffffffffffff\r\n", "BodyTooLarge"),
    (CHUNKS + b"1\r\nx\r\n400000\r\n", "BodyTooLarge"),
    (CHUNKS + b"400000\r\n" + b"x" * MOST_BODY + b"\r\n01\r\n", "BodyTooLarge"),
]

# Bytes that are cut short: nothing shows a fault yet.
CUT_SHORT = [
    b"\n",
    b"\r",
    b"\r\n",
    b"\r\n\n",
    b"G",
    b"GET ",
    b"GET /",
    b"GET / ",
    b"GET / HTTP/1.",
    b"GET / HTTP/1.1",
    b"GET / HTTP/1.1\r",
    START,
    START + b"\r",
    START + b"A",
    START + b"A:",
    START + b"A: b\r",
    START + b"A: b\r\n",
    START + b"A: b\n\r",
    START + b"Content-Length: x\r\nContent-Encoding: gzip\r\n",
    sized(MOST_HEAD)[:-1],
    b"\r\n" * (MOST_HEAD // 2 - 1) + b"\r",
    head(b"Content-Length: 1"),
    head(b"Content-Length: 4194304"),
    head(b"Content-Length: 4194304") + b"x" * (MOST_BODY - 1),
    head(b"Content-Length: 2") + b"\r",
    CHUNKS,
    CHUNKS + b"5",
    CHUNKS + b"0000000000000000",
    CHUNKS + b"5 \t ",
    CHUNKS + b"5;\0\xff;",
    CHUNKS + b"5;" + b"x" * 61,
    CHUNKS + b"5\r",
    CHUNKS + b"5\r\n",
    CHUNKS + b"5\r\nhell",
    CHUNKS + b"5\r\nhello",
    CHUNKS + b"5\r\nhello\r",
    CHUNKS + b"5\r\nhello\r\n",
    CHUNKS + b"400000\r\n",
    CHUNKS + b"0\r\n",
    CHUNKS + b"0\r\n\r",
]


def request(
    method: str = "PUT", path: str = "/d", query: str = "", expected: str | None = None, close: bool = False, body: bytes = b""
) -> HttpRequest:
    return HttpRequest(method, path, query, expected, close, body)


# Whole requests.
WHOLE = [
    (START + b"\r\n", request("GET", "/")),
    (b"GET / HTTP/1.1\n\n", request("GET", "/")),
    (b"GET / HTTP/1.1\r\n\n", request("GET", "/")),
    (b"GET / HTTP/1.1\nA: b\r\n\n", request("GET", "/")),
    (b"\r\n\n\r\nGET / HTTP/1.1\r\n\r\n", request("GET", "/")),
    (b"G / HTTP/1.1\r\n\r\n", request("G", "/")),
    (b"get / HTTP/1.1\r\n\r\n", request("get", "/")),
    (b"!#$%&'*+-.^_`|~1 / HTTP/1.1\r\n\r\n", request("!#$%&'*+-.^_`|~1", "/")),
    (b"GET /a?b=c?d#e HTTP/1.1\r\n\r\n", request("GET", "/a", "b=c?d#e")),
    (b"GET /? HTTP/1.1\r\n\r\n", request("GET", "/")),
    (b"GET //a/%41/./..;x\"<>\\^`{|}~ HTTP/1.1\r\n\r\n", request("GET", "//a/%41/./..;x\"<>\\^`{|}~")),
    # fields without a meaning here, and odd ones
    (head(b"Host: a", b"Host: b", b"Expect: 100-continue", b"Accept-Encoding: gzip", b"Upgrade: h2c"), request()),
    (head(b"A:", b"B: \t ", b"C:\td\t", b"D: \x80\xff\tx", b"E: : :"), request()),
    (head(b"Content-Encoding: identity", b"CONTENT-ENCODING:identity\t"), request()),
    # how long the body is
    (head(b"Content-Length: 5") + b"hello", request(body=b"hello")),
    (head(b"CONTENT-length:\t5 ") + b"hello", request(body=b"hello")),
    (head(b"Content-Length: 0000000005") + b"\r\n\0\xff ", request(body=b"\r\n\0\xff ")),
    (head(b"Content-Length: 0"), request()),
    (head(b"Content-Length: 5", line=b"GET / HTTP/1.1") + b"hello", request("GET", "/", body=b"hello")),
    (head(b"Content-Length: 4194304") + b"x" * MOST_BODY, request(body=b"x" * MOST_BODY)),
    (sized(MOST_HEAD), request("GET", "/")),
    # what closes the session
    (head(b"Connection: close"), request(close=True)),
    (head(b"connection:\tCLOSE "), request(close=True)),
    (head(b"Connection: keep-alive", b"Connection: Close"), request(close=True)),
    (head(b"Connection: close, x"), request()),
    (head(b"Connection: keep-alive, close"), request()),
    (head(b"Connection: \"close\""), request()),
    (head(b"Connection:"), request()),
    (head(line=b"GET / HTTP/1.0"), request("GET", "/", close=True)),
    (head(b"Connection: keep-alive", line=b"GET / HTTP/1.0"), request("GET", "/", close=True)),
    (head(b"Transfer-Encoding: chunked", line=b"PUT /d HTTP/1.0") + b"0\r\n\r\n", request(close=True)),
    # change vectors
    (head(b"If-Match: A:1-x"), request(expected="A:1-x")),
    (head(b'If-Match: "A:1-x"'), request(expected="A:1-x")),
    (head(b"If-Match: first", b"if-match: second"), request(expected="first")),
    (head(b"If-Match: first", b"If-Match: \xff"), request(expected="first")),
    (head(b"If-Match:"), request(expected="")),
    (head(b'If-Match: ""'), request(expected="")),
    (head(b'If-Match: "'), request(expected='"')),
    (head(b'If-Match: "a'), request(expected='"a')),
    (head(b'If-Match: a"'), request(expected='a"')),
    (head(b'If-Match: ""a""'), request(expected='"a"')),
    (head(b'If-Match: W/"a"'), request(expected='W/"a"')),
    (head(b'If-Match: "a", "b"'), request(expected='a", "b')),
    (head(b"If-Match: *"), request(expected="*")),
    (head(b'If-Match: " \xc3\xa9 "'), request(expected=" é ")),
    # chunks
    (CHUNKS + b"5\r\nhello\r\n0\r\n\r\n", request(body=b"hello")),
    (head(b"TRANSFER-ENCODING:\tChunKED ") + b"5\r\nhello\r\n0\r\n\r\n", request(body=b"hello")),
    (CHUNKS + b"0\r\n\r\n", request()),
    (CHUNKS + b"0000000000000000 \t;x\r\n\r\n", request()),
    (CHUNKS + b"2 \r\nhe\r\n0003;a=\"b;c\0\xff\"\r\nllo\r\n00;\r\n\r\n", request(body=b"hello")),
    (CHUNKS + b"A\r\n0\r\n\r\n5\r\n\r\n\r\n0\r\n\r\n", request(body=b"0\r\n\r\n5\r\n\r\n")),
    (CHUNKS + b"c\r\nhello, world\r\n0\r\n\r\n", request(body=b"hello, world")),
    (CHUNKS + b"5;" + b"x" * 60 + b"\r\nhello\r\n0\r\n\r\n", request(body=b"hello")),
    (CHUNKS + b"400000\r\n" + b"x" * MOST_BODY + b"\r\n0\r\n\r\n", request(body=b"x" * MOST_BODY)),
    (CHUNKS + b"1\r\nx\r\n3fffff\r\n" + b"y" * (MOST_BODY - 1) + b"\r\n0\r\n\r\n", request(body=b"x" + b"y" * (MOST_BODY - 1))),
]

# Names of parameters and queries, with the value that counts, or with none.
PARAMETERS = [
    ("id", "id=users/1", "users/1"),
    ("id", "id=", ""),
    ("id", "id", ""),
    ("id", "x&id&id=y", ""),
    ("id", "", None),
    ("id", "Id=a&ID=b&xid=c&id%20=d", None),
    ("id", "&&id=a&id=b", "a"),
    ("id", "i%64=a", "a"),
    ("id", "x=id=a&id=b=c", "b=c"),
    ("id", "id=a+b%20c%2Bd", "a b c+d"),
    ("id", "id=%C3%A9%c3%a9", "éé"),
    ("id", "id=%", "%"),
    ("id", "id=%4", "%4"),
    ("id", "id=%%41%4g%zz", "%A%4g%zz"),
    ("id", "id=%2525", "%25"),
    ("id", "id=%FF", "\ufffd"),
    ("id", "id=a%C3", "a\ufffd"),
    ("id", "id=a;b?c/d#e", "a;b?c/d#e"),
    ("id", "id=a%26id=b%00", "a&id=b\0"),
    ("a b", "a+b=1", "1"),
]

MAP = "from u in docs.Users select new { u.Name }"
VECTOR = "A:%d-" + BASE
LONG = "i" * 513
# What is asked, one after another of one database and without batches: the method and the target behind the database, further fields, the
# body, and the status and the body of the response. The requests of a line without a body have none.
ANSWERS = [
    # routes, whatever the body and the parameters
    ("GET", "", (), b"", 404, '{"Error":"NoRoute"}'),
    ("GET", "/", (), b"", 404, '{"Error":"NoRoute"}'),
    ("GET", "/stats/", (), b"", 404, '{"Error":"NoRoute"}'),
    ("GET", "/Stats", (), b"", 404, '{"Error":"NoRoute"}'),
    ("GET", "/%73tats", (), b"", 404, '{"Error":"NoRoute"}'),
    ("GET", "/stats#", (), b"", 404, '{"Error":"NoRoute"}'),
    ("get", "/stats", (), b"", 404, '{"Error":"NoRoute"}'),
    ("HEAD", "/stats", (), b"", 404, '{"Error":"NoRoute"}'),
    ("POST", "/stats", (), b"", 404, '{"Error":"NoRoute"}'),
    ("PATCH", "/docs?id=a", (), b"", 404, '{"Error":"NoRoute"}'),
    ("POST", "/docs?id=a", (), b"{}", 404, '{"Error":"NoRoute"}'),
    ("GET", "/bulk_docs", (), b"", 404, '{"Error":"NoRoute"}'),
    ("PUT", "/queries", (), b"", 404, '{"Error":"NoRoute"}'),
    ("GET", "/admin/indexes", (), b"", 404, '{"Error":"NoRoute"}'),
    ("PUT", "/indexes", (), b"", 404, '{"Error":"NoRoute"}'),
    ("DELETE", "/indexes/staleness?name=a", (), b"", 404, '{"Error":"NoRoute"}'),
    ("PUT", "/subscriptions?name=a", (), b"{", 404, '{"Error":"NoRoute"}'),
    # putting: the body as JSON, the id, the body as an object, and what the database says
    ("PUT", "/docs?id=", (), b"", 400, '{"Error":"NotJson"}'),
    ("PUT", "/docs", (), b"[" * 101, 400, '{"Error":"TooDeep"}'),
    ("PUT", "/docs", (), b'{"a":1.5}', 400, '{"Error":"NumberNotWhole"}'),
    ("PUT", "/docs", (), b"[]", 400, '{"Error":"BadMember","Name":"id"}'),
    ("PUT", "/docs?id", (), b"[]", 400, '{"Error":"Empty"}'),
    ("PUT", "/docs?id=" + LONG, (), b"[]", 400, '{"Error":"TooLong","Len":513}'),
    ("PUT", "/docs?id=ab%0A", (), b"[]", 400, '{"At":2,"Error":"Control"}'),
    ("PUT", "/docs?id=a", (), b"[]", 400, '{"Error":"BadMember","Name":"body"}'),
    ("PUT", "/docs?id=%40index/x", (), b"{}", 400, '{"At":0,"Error":"ReservedId"}'),
    ("PUT", "/docs?id=x", (), b'{"@metadata":{"@collection":"@indexes"}}', 400, '{"At":0,"Error":"ReservedId"}'),
    ("PUT", "/docs?id=a", (b'If-Match: "x"',), b"{}", 409, '{"At":0,"Error":"Conflict","Expected":"x","Found":""}'),
    ("GET", "/stats", (), b"", 200, NO_ROWS.decode()),
    ("PUT", "/docs?id=Users/1", (b"If-Match:",), b'{"Name":"Ada"}', 201, '{"ChangeVector":"%s","Id":"Users/1"}' % (VECTOR % 1)),
    ("PUT", "/docs?id=users/1", (b'If-Match: ""',), b"{}", 409,
     '{"At":0,"Error":"Conflict","Expected":"","Found":"%s"}' % (VECTOR % 1)),
    ("PUT", "/docs?id=users%2f1", (b'If-Match: "%s"' % (VECTOR % 1).encode(),), b'{"Name":"Bo"}', 201,
     '{"ChangeVector":"%s","Id":"Users/1"}' % (VECTOR % 2)),
    ("PUT", "/docs?id=users/1", (), b'{"@metadata":{"@collection":"Users"}}', 409,
     '{"At":0,"Error":"CollectionChanged","From":"@empty"}'),
    # getting
    ("GET", "/docs", (), b"", 400, '{"Error":"BadMember","Name":"id"}'),
    ("GET", "/docs?id=", (), b"", 400, '{"Error":"Empty"}'),
    ("GET", "/docs?id=USERS/2", (), b"{", 404, '{"Error":"NoDocument","Id":"USERS/2"}'),
    ("GET", "/docs?x=1&id=USERS/1&id=", (), b"{", 200,
     '{"Includes":{},"Results":[{"@metadata":{"@change-vector":"%s","@collection":"@empty","@id":"Users/1",'
     '"@last-modified":"1970-01-01T00:00:00.0000000Z"},"Name":"Bo"}]}' % (VECTOR % 2)),
    # deleting
    ("DELETE", "/docs?name=a", (), b"", 400, '{"Error":"BadMember","Name":"id"}'),
    ("DELETE", "/docs?id=%C3%A9%7f", (), b"", 400, '{"At":2,"Error":"Control"}'),
    ("DELETE", "/docs?id=users/1", (b"If-Match: x",), b"", 409,
     '{"At":0,"Error":"Conflict","Expected":"x","Found":"%s"}' % (VECTOR % 2)),
    ("DELETE", "/docs?id=users/1", (), b"", 204, None),
    ("DELETE", "/docs?id=users/1", (), b"", 204, None),
    ("GET", "/docs?id=users/1", (), b"", 404, '{"Error":"NoDocument","Id":"Users/1"}'),
    # several
    ("POST", "/bulk_docs", (), b"x", 400, '{"Error":"NotJson"}'),
    ("POST", "/bulk_docs", (), b"[]", 400, '{"Error":"BadMember","Name":"body"}'),
    ("POST", "/bulk_docs", (), b"{}", 400, '{"Error":"BadMember","Name":"Commands"}'),
    ("POST", "/bulk_docs", (), b'{"Commands":{}}', 400, '{"Error":"BadMember","Name":"Commands"}'),
    ("POST", "/bulk_docs", (), b'{"Commands":[7]}', 400, '{"Error":"BadMember","Name":"Commands"}'),
    ("POST", "/bulk_docs", (), b'{"Commands":[{"Id":"","Type":"PUT"},7]}', 400, '{"Error":"Empty"}'),
    ("POST", "/bulk_docs", (), b'{"Commands":[{"Id":"","Type":"put"}]}', 400, '{"Error":"BadMember","Name":"Type"}'),
    ("POST", "/bulk_docs", (), b'{"Commands":[{"Type":"PUT"}]}', 400, '{"Error":"BadMember","Name":"Id"}'),
    ("POST", "/bulk_docs", (), b'{"Commands":[{"Id":"a","Type":"PUT","ChangeVector":1}]}', 400,
     '{"Error":"BadMember","Name":"ChangeVector"}'),
    ("POST", "/bulk_docs", (), b'{"Commands":[{"Id":"a","Type":"PUT"}]}', 400, '{"Error":"BadMember","Name":"Document"}'),
    ("POST", "/bulk_docs", (), b'{"Commands":[{"Id":"a","Type":"DELETE"},{"ChangeVector":"x","Id":"b","Type":"DELETE"}]}', 409,
     '{"At":1,"Error":"Conflict","Expected":"x","Found":""}'),
    ("POST", "/bulk_docs", (b"If-Match: passed over",), b'{"Commands":[]}', 201, '{"Results":[]}'),
    ("POST", "/bulk_docs?x", (),
     b'{"Commands":[{"ChangeVector":"","Document":{"Name":"Cy","@metadata":{"@collection":"Users"}},"Id":"u","Type":"PUT"},'
     b'{"ChangeVector":null,"Id":"none","Type":"DELETE","Other":1}]}', 201,
     '{"Results":[{"ChangeVector":"%s","Id":"u","Type":"PUT"},{"Deleted":false,"Id":"none","Type":"DELETE"}]}' % (VECTOR % 4)),
    # defining
    ("PUT", "/admin/indexes", (), b"", 400, '{"Error":"NotJson"}'),
    ("PUT", "/admin/indexes", (), b'"x"', 400, '{"Error":"BadMember","Name":"body"}'),
    ("PUT", "/admin/indexes", (), b'{"Name":"N"}', 400, '{"Error":"BadMember","Name":"Indexes"}'),
    ("PUT", "/admin/indexes", (), b'{"Indexes":{}}', 400, '{"Error":"BadMember","Name":"Indexes"}'),
    ("PUT", "/admin/indexes", (), b'{"Indexes":[]}', 400, '{"Error":"BadMember","Name":"Indexes"}'),
    ("PUT", "/admin/indexes", (), b'{"Indexes":[{},{}]}', 400, '{"Error":"BadMember","Name":"Indexes"}'),
    ("PUT", "/admin/indexes", (), b'{"Indexes":["N"]}', 400, '{"Error":"BadMember","Name":"Indexes"}'),
    ("PUT", "/admin/indexes", (), b'{"Indexes":[{}]}', 400, '{"Error":"BadMember","Name":"Name"}'),
    ("PUT", "/admin/indexes", (), b'{"Indexes":[{"Name":""}]}', 400, '{"Error":"Empty"}'),
    ("PUT", "/admin/indexes", (), b'{"Indexes":[{"Name":"N"}]}', 400, '{"Error":"BadMember","Name":"Maps"}'),
    ("PUT", "/admin/indexes", (), b'{"Indexes":[{"Map":7,"Name":"N"}]}', 400, '{"Error":"BadMember","Name":"Map"}'),
    ("PUT", "/admin/indexes", (), b'{"Indexes":[{"Map":"m","Maps":[],"Name":"N"}]}', 400, '{"Error":"BadMember","Name":"Maps"}'),
    ("PUT", "/admin/indexes", (), b'{"Indexes":[{"Map":"m","Name":"N","Reduce":7}]}', 400, '{"Error":"BadMember","Name":"Reduce"}'),
    ("PUT", "/admin/indexes", (), b'{"Indexes":[{"Map":"from u","Name":"auto/x"}]}', 400,
     '{"At":6,"Error":"Unexpected","Part":"Map"}'),
    ("PUT", "/admin/indexes", (), b'{"Indexes":[{"Map":"%s","Name":"N"}]}' % (b" " * 65_537), 400,
     '{"At":65536,"Error":"TooLarge","Part":"Map"}'),
    ("PUT", "/admin/indexes", (), b'{"Indexes":[{"Map":"%s","Name":"auto/x"}]}' % MAP.encode(), 400, '{"Error":"ReservedName"}'),
    ("PUT", "/admin/indexes", (), b'{"Indexes":[{"Map":"%s","Name":"%s"}]}' % (MAP.encode(), b"n" * 201), 400,
     '{"Error":"NameTooLong","Len":201}'),
    ("PUT", "/admin/indexes", (), b'{"Indexes":[{"Maps":["%s"],"Name":"Names","Reduce":null}]}' % MAP.encode(), 201,
     '{"Index":"Names"}'),
    ("PUT", "/admin/indexes", (), b'{"Indexes":[{"Map":"%s","Name":"names"}]}' % MAP.encode(), 201, '{"Index":"Names"}'),
    ("GET", "/indexes?name=x", (), b"{", 200,
     '{"Results":[{"Definition":{"Kind":"static","Map":"%s","Reduce":null,"Version":2},"Entries":0,"Errors":0,"Etag":0,"IsStale":true,'
     '"Name":"Names"}]}' % MAP),
    # how far an index is
    ("GET", "/indexes/staleness", (), b"", 400, '{"Error":"BadMember","Name":"name"}'),
    ("GET", "/indexes/staleness?name=", (), b"", 400, '{"Error":"Empty"}'),
    ("GET", "/indexes/staleness?name=" + "n" * 215, (), b"", 400, '{"Error":"TooLong","Len":215}'),
    ("GET", "/indexes/staleness?name=None", (), b"", 404, '{"Error":"NoIndex","Name":"None"}'),
    ("GET", "/indexes/staleness?name=NAMES", (), b"", 200, '{"IndexEtag":0,"IsStale":true,"Newest":4}'),
    # queries by their text
    ("GET", "/queries", (), b"", 400, '{"Error":"BadMember","Name":"query"}'),
    ("GET", "/queries?query=", (), b"", 400, '{"At":0,"Error":"Unexpected"}'),
    ("GET", "/queries?query=from+Users+select+Name+where", (), b"", 400, '{"At":23,"Error":"ClauseOrder"}'),
    ("GET", "/queries?query=from+index+'Names'+where+Name=12ab", (), b"", 400, '{"At":30,"Error":"BadNumber"}'),
    ("GET", "/queries?query=from+index+'None'+where+A=$p", (), b"", 400, '{"Error":"NoParameter","Name":"p"}'),
    ("GET", "/queries?query=from+Users+select+count()", (), b"", 400, '{"Error":"NotGrouped","Name":"count()"}'),
    ("GET", "/queries?query=from+index+'None'+where+A=1", (), b"", 404, '{"Error":"NoIndex","Name":"None"}'),
    ("GET", "/queries?query=from+index+'Names'+where+Age=1", (), b"", 400, '{"Error":"NoField","Name":"Age"}'),
    ("GET", "/queries?query=from%20Users+select+Name", (), b"", 200,
     '{"Includes":{},"IndexEtag":5,"IndexName":"collection/Users","IsStale":false,"Results":[{"Name":"Cy"}],"TotalResults":1}'),
    # queries by a body
    ("POST", "/queries", (), b"", 400, '{"Error":"NotJson"}'),
    ("POST", "/queries?query=from+Users", (), b"{}", 400, '{"Error":"BadMember","Name":"Query"}'),
    ("POST", "/queries", (), b'{"Query":"x","QueryParameters":null}', 400, '{"Error":"BadMember","Name":"QueryParameters"}'),
    ("POST", "/queries", (), b'{"Query":"x","Start":true}', 400, '{"Error":"BadMember","Name":"Start"}'),
    ("POST", "/queries", (), b'{"Query":"x","PageSize":"1","CutoffEtag":-1}', 400, '{"Error":"BadMember","Name":"PageSize"}'),
    ("POST", "/queries", (), b'{"Query":"x","CutoffEtag":-1,"Looks":0}', 400, '{"Error":"BadMember","Name":"CutoffEtag"}'),
    ("POST", "/queries", (), b'{"Query":"x","WaitForNonStaleResults":0,"Looks":0}', 400,
     '{"Error":"BadMember","Name":"WaitForNonStaleResults"}'),
    ("POST", "/queries", (), b'{"Query":"x","Looks":0}', 400, '{"Error":"BadMember","Name":"Looks"}'),
    ("POST", "/queries", (), b'{"Query":"x","Looks":65}', 400, '{"Error":"BadMember","Name":"Looks"}'),
    ("POST", "/queries", (), b'{"Query":"x","Looks":64,"Start":-1}', 400, '{"At":0,"Error":"Unexpected"}'),
    ("POST", "/queries", (), b'{"Query":"from Users","Start":-1}', 400, '{"Error":"BadPage"}'),
    ("POST", "/queries", (), b'{"Query":"from index \'Names\' where Name = $n","QueryParameters":{"n":"cy"},'
     b'"WaitForNonStaleResults":true,"Looks":3}', 200,
     '{"Includes":{},"IndexEtag":0,"IndexName":"Names","IsStale":true,"Results":[],"TotalResults":0}'),
    ("POST", "/queries", (), b'{"Query":"from index \'Names\' where Name = $n","QueryParameters":{"n":"cy"},"CutoffEtag":3}', 200,
     '{"Includes":{},"IndexEtag":0,"IndexName":"Names","IsStale":false,"Results":[],"TotalResults":0}'),
    # removing
    ("DELETE", "/indexes", (), b"", 400, '{"Error":"BadMember","Name":"name"}'),
    ("DELETE", "/indexes?id=Names&name=%00", (), b"", 400, '{"At":0,"Error":"Control"}'),
    ("DELETE", "/indexes?name=None", (), b"", 404, '{"Error":"NoIndex","Name":"None"}'),
    ("DELETE", "/indexes?name=nAMES", (), b"", 204, None),
    ("GET", "/indexes", (), b"", 200, '{"Results":[]}'),
    ("GET", "/stats?x", (), b"", 200, '{"CountOfDocuments":1,"CountOfIndexes":0,"CountOfTombstones":1,"LastDocEtag":6}'),
]

# Paths that no method has, whatever the database.
NO_ROUTE = ["/databases//stats", "/databases/db", "/databases", "/", "/stats", "/x/databases/db/stats", "/Databases/db/stats"]
NO_ROUTE += ["/databases/other/none", "/databases/db/db/stats", "//databases/db/stats", "/databases/other/"]

# Each error that may be answered, with further members, and the status.
ERRORS = [
    ({"Error": "NotJson"}, 400),
    ({"Error": "NumberNotWhole"}, 400),
    ({"Error": "TooDeep"}, 400),
    ({"Error": "Empty"}, 400),
    ({"Error": "TooLong", "Len": 513}, 400),
    ({"Error": "Control", "At": 0}, 400),
    ({"Error": "BadMember", "Name": "id"}, 400),
    ({"Error": "Unexpected", "At": 0, "Part": "Map"}, 400),
    ({"Error": "UnknownName", "At": 0, "Part": "Map"}, 400),
    ({"Error": "DuplicateField", "At": 0, "Part": "Map"}, 400),
    ({"Error": "FieldsDiffer", "At": 0, "Part": "Reduce"}, 400),
    ({"Error": "NotReducible", "At": 0, "Part": "Reduce"}, 400),
    ({"Error": "TooLarge", "At": 65_536, "Part": "Map"}, 400),
    ({"Error": "TooLarge", "At": 65_536}, 400),
    ({"Error": "TooLarge", "At": 0, "Len": 1_048_577}, 413),
    ({"Error": "Unexpected", "At": 0}, 400),
    ({"Error": "ClauseOrder", "At": 0}, 400),
    ({"Error": "BadNumber", "At": 0}, 400),
    ({"Error": "NoParameter", "Name": "p"}, 400),
    ({"Error": "NoField", "Name": "F"}, 400),
    ({"Error": "NotGrouped", "Name": "F"}, 400),
    ({"Error": "BadPage"}, 400),
    ({"Error": "ReservedName"}, 400),
    ({"Error": "NameTooLong", "Len": 201}, 400),
    ({"Error": "NoRoute"}, 404),
    ({"Error": "NoDatabase"}, 404),
    ({"Error": "NoDocument", "Id": "a"}, 404),
    ({"Error": "NoIndex", "Name": "a"}, 404),
    ({"Error": "NoReplacement"}, 404),
    ({"Error": "ReservedId", "At": 0}, 400),
    ({"Error": "CollectionChanged", "At": 0, "From": "C"}, 409),
    ({"Error": "Conflict", "At": 0, "Expected": "x", "Found": ""}, 409),
    ({"Error": "NotFresh", "IndexEtag": 2, "Newest": 5}, 409),
    ({"Error": "StoreFull", "At": 0, "Rows": 4_000_000}, 507),
    ({"Error": "EtagsSpent", "At": 0, "Last": 9_007_199_254_740_991}, 507),
    ({"Error": "TooManyIndexes"}, 507),
    ({"Error": "NotesFull"}, 507),
    ({"Error": "KeeperFault"}, 503),
]
# The status of each end that is answered.
ENDS = {
    "BadHead": "400 Bad Request",
    "HeadTooLarge": "431 Request Header Fields Too Large",
    "BodyTooLarge": "413 Payload Too Large",
    "Encoded": "415 Unsupported Media Type",
    "BadChunk": "400 Bad Request",
}
PHRASES = {
    200: "OK",
    201: "Created",
    204: "No Content",
    400: "Bad Request",
    404: "Not Found",
    409: "Conflict",
    413: "Payload Too Large",
    503: "Service Unavailable",
    507: "Insufficient Storage",
}
