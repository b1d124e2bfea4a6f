"""The responses that bytes of a session are."""

import re
import typing

BEFORE_BODY = re.compile(
    rb"HTTP/1\.1 ([0-9]{3}) [A-Za-z ]+\r\n(Connection: close\r\n)?"
    rb"(?:Content-Length: ([0-9]+)\r\nContent-Type: application/json; charset=utf-8\r\n)?\r\n"
)


class Response(typing.NamedTuple):
    status: int
    closes: bool
    body: bytes


def responses_of(written: bytes) -> list[Response]:
    """All of them. Bytes that are none raise a `ValueError`."""
    found, at = [], 0
    while at < len(written):
        before = BEFORE_BODY.match(written, at)
        if not before:
            raise ValueError(f"not a response: {written[at : at + 200]!r}")
        at = before.end() + int(before[3] or 0)
        found.append(Response(int(before[1]), bool(before[2]), written[before.end() : at]))
    if at > len(written):
        raise ValueError(f"a response is cut off: {written[-200:]!r}")
    return found
