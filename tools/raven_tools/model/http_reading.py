"""HTTP/1.1 as the program reads it: from the bytes of a session to its requests, and the one end behind them.

Three automata say which bytes may follow one another: those of a head, of the line before a chunk, and of a line end. Bytes that lead
nowhere refuse the session at once; bytes that lead on, but not to the end, are too long or cut short.
"""

import collections.abc
import dataclasses
import re

from raven_tools.model.limits import MAX_CHUNK_LINE, MAX_HEAD, MAX_REQUEST_BODY, MAX_REQUESTS

TOKEN = b"!#$%&'*+-.^_`|~0123456789ABCDEFGHIJKLMNOPQRSTUVWXYZabcdefghijklmnopqrstuvwxyz"
VISIBLE = bytes(range(0x21, 0x7F))
BLANKS = b" \t"
VALUE = bytes([*BLANKS, *VISIBLE, *range(0x80, 0x100)])
HEXADECIMAL = b"0123456789ABCDEFabcdef"
EXTENSION = bytes(byte for byte in range(0x100) if byte not in b"\r\n")
LENGTH = re.compile(rb"[0-9]{1,10}")
MOST_DIGITS = 16

# To which state each byte leads; one that is not there leads nowhere.
Automaton = dict[str, dict[int, str]]
# A state, some bytes, and the state to which each of them leads.
Rule = tuple[str, bytes, str]
FIRST, LAST = "first", "last"


def automaton(rules: collections.abc.Iterable[Rule]) -> Automaton:
    states: Automaton = {}
    for state, read, following in rules:
        states.setdefault(state, {}).update(dict.fromkeys(read, following))
    return states


def version_rules() -> list[Rule]:
    """The version, which is HTTP/1.0 or HTTP/1.1, from behind the space on."""
    names = ["version", *(f"version {at}" for at in range(7)), "line"]
    reads = [bytes([byte]) for byte in b"HTTP/1."] + [b"01"]
    return list(zip(names, reads, names[1:]))


# Empty lines, the request line, fields, and the empty line behind them. A line ends with CR LF or with LF alone.
HEAD = automaton(
    [
        (FIRST, b"\n", FIRST),
        (FIRST, b"\r", "empty line"),
        ("empty line", b"\n", FIRST),
        (FIRST, TOKEN, "method"),
        ("method", TOKEN, "method"),
        ("method", b" ", "target begins"),
        ("target begins", b"/", "target"),
        ("target", VISIBLE, "target"),
        ("target", b" ", "version"),
        *version_rules(),
        ("line", b"\r", "line ends"),
        ("line", b"\n", "fields"),
        ("line ends", b"\n", "fields"),
        ("fields", TOKEN, "name"),
        ("name", TOKEN, "name"),
        ("name", b":", "value"),
        ("value", VALUE, "value"),
        ("value", b"\r", "line ends"),
        ("value", b"\n", "fields"),
        ("fields", b"\r", "head ends"),
        ("fields", b"\n", LAST),
        ("head ends", b"\n", LAST),
    ]
)


def size_rules() -> list[Rule]:
    """Up to sixteen digits. Behind the first of them the size may end."""
    names = [FIRST, *(f"size {count}" for count in range(1, MOST_DIGITS + 1))]
    digits = [(state, HEXADECIMAL, following) for state, following in zip(names, names[1:])]
    ends = [(BLANKS, "blanks"), (b";", "extension"), (b"\r", "line ends")]
    return digits + [(state, read, following) for state in [*names[1:], "blanks"] for read, following in ends]


# The line before a chunk: its size, blanks, perhaps an extension. It ends with CR LF.
CHUNK_LINE = automaton(
    [
        *size_rules(),
        ("extension", EXTENSION, "extension"),
        ("extension", b"\r", "line ends"),
        ("line ends", b"\n", LAST),
    ]
)
# What follows a chunk, and the last line.
LINE_END = automaton([(FIRST, b"\r", "line ends"), ("line ends", b"\n", LAST)])


class Stopped(Exception):
    """The end behind the last whole request. So many bytes show it; None if only the end of the input does."""

    def __init__(self, end: str, shown_by: int | None = None):
        super().__init__(end)
        self.end = end
        self.shown_by = shown_by


def behind(rules: Automaton, data: bytes, start: int, most: int, refusal: str, too_long: str) -> int:
    """The place behind what begins at the start and has at most so many bytes. It is refused at the first byte that leads nowhere."""
    state = FIRST
    for at in range(start, min(start + most, len(data))):
        if data[at] not in rules[state]:
            raise Stopped(refusal, at + 1)
        state = rules[state][data[at]]
        if state == LAST:
            return at + 1
    raise Stopped(too_long, start + most) if len(data) - start >= most else Stopped("Truncated")


# Heads


@dataclasses.dataclass(frozen=True)
class Head:
    method: str
    target: str
    version: bytes
    fields: list[tuple[bytes, bytes]]  # names in lower case, and values without the blanks round them

    def values(self, name: bytes) -> list[bytes]:
        return [value for named, value in self.fields if named == name]


def head_of(read: bytes) -> Head:
    """The parts of a whole head. A CR stands in it only before a LF."""
    lines = [line.removesuffix(b"\r") for line in read.split(b"\n")]
    request, *fields = filter(None, lines)
    method, target, version = request.split(b" ")
    parts = [field.partition(b":") for field in fields]
    named = [(name.lower(), value.strip(BLANKS)) for name, _, value in parts]
    return Head(method.decode(), target.decode(), version, named)


def has_bad_length(head: Head) -> bool:
    """Whether the length of the body is given in a way that is not valid, or in two ways."""
    lengths = head.values(b"content-length")
    codings = [value.lower() for value in head.values(b"transfer-encoding")]
    is_length = len(lengths) <= 1 and all(map(LENGTH.fullmatch, lengths))
    is_coding = codings in ([], [b"chunked"])
    return not is_length or not is_coding or bool(lengths and codings)


def unquoted(text: str) -> str:
    """The text without the quotes round it, if it has both."""
    return text[1:-1] if len(text) > 1 and text[0] == text[-1] == '"' else text


def expected_by(head: Head) -> str | None:
    """The change vector that the first field of it names; None if there is no such field."""
    values = head.values(b"if-match")
    return unquoted(values[0].decode("utf-8")) if values else None


def is_closing(head: Head) -> bool:
    return head.version == b"HTTP/1.0" or b"close" in map(bytes.lower, head.values(b"connection"))


# Bodies


def sized(data: bytes, start: int, size: int) -> tuple[bytes, int]:
    """So many bytes, and the place behind them."""
    if len(data) - start < size:
        raise Stopped("Truncated")
    return data[start : start + size], start + size


def chunk_size(data: bytes, start: int) -> tuple[int, int]:
    """The size that the line before a chunk states, and the place behind the line."""
    place = behind(CHUNK_LINE, data, start, MAX_CHUNK_LINE, "BadChunk", "BadChunk")
    digits = data[start:place].split(b";")[0].strip(b" \t\r\n")
    return int(digits, 16), place


def line_end(data: bytes, start: int) -> int:
    return behind(LINE_END, data, start, 2, "BadChunk", "BadChunk")


def chunked(data: bytes, start: int) -> tuple[bytes, int]:
    """The bytes of all chunks, and the place behind the last line. No fields may follow the last chunk."""
    chunks, place, total = [], start, 0
    while True:
        size, place = chunk_size(data, place)
        total += size
        if total > MAX_REQUEST_BODY:
            raise Stopped("BodyTooLarge", place)
        if not size:
            return b"".join(chunks), line_end(data, place)
        chunk, place = sized(data, place, size)
        chunks.append(chunk)
        place = line_end(data, place)


def body_of(head: Head, data: bytes, start: int) -> tuple[bytes, int]:
    if head.values(b"transfer-encoding"):
        return chunked(data, start)
    size = int((head.values(b"content-length") or [b"0"])[0])
    if size > MAX_REQUEST_BODY:
        raise Stopped("BodyTooLarge", start)
    return sized(data, start, size)


# Requests


@dataclasses.dataclass(frozen=True)
class HttpRequest:
    method: str
    path: str
    query: str
    expected: str | None
    close: bool
    body: bytes


def next_request(data: bytes, start: int) -> tuple[HttpRequest, int]:
    """The request that begins at this place, and the place behind it."""
    if start == len(data):
        raise Stopped("Ended")
    place = behind(HEAD, data, start, MAX_HEAD, "BadHead", "HeadTooLarge")
    head = head_of(data[start:place])
    try:
        expected = expected_by(head)
    except UnicodeDecodeError:
        raise Stopped("BadHead", place) from None
    if has_bad_length(head):
        raise Stopped("BadHead", place)
    if any(value != b"identity" for value in head.values(b"content-encoding")):
        raise Stopped("Encoded", place)
    body, place = body_of(head, data, place)
    path, _, query = head.target.partition("?")
    return HttpRequest(head.method, path, query, expected, is_closing(head), body), place


@dataclasses.dataclass(frozen=True)
class Reading:
    """The requests of a session, the place behind each, and the end, with how many bytes show it."""

    requests: list[HttpRequest]
    places: list[int]
    end: str
    shown_by: int | None

    @property
    def rest(self) -> int:
        """Where the bytes begin that belong to no request."""
        return self.places[-1] if self.places else 0


def session_of(data: bytes) -> Reading:
    """The requests up to the thousandth, up to one that closes the session, or up to the end that the bytes come to."""
    requests: list[HttpRequest] = []
    places: list[int] = []
    while True:
        try:
            request, place = next_request(data, places[-1] if places else 0)
        except Stopped as stopped:
            return Reading(requests, places, stopped.end, stopped.shown_by)
        requests.append(request)
        places.append(place)
        if len(requests) == MAX_REQUESTS:
            return Reading(requests, places, "Enough", place)
        if request.close:
            return Reading(requests, places, "Closed", place)
