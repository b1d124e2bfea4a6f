"""Recorded sessions over HTTP: the bytes that real clients sent, and what they have to be read as.

A session begins with `== NAME`. Its bytes are those of its lines `| TEXT`, in which `⟨0d0a⟩` are bytes and `⟨3*ab⟩` is `ababab`. Then
each of its requests has a line `request METHOD PATH`, and behind it, as far as they are not empty, the lines `query TEXT`,
`expected VECTOR`, `body TEXT` and `closes`. The last line is `end NAME`. Empty lines, and lines that begin with `#`, are passed over.
"""

import dataclasses

from raven_tools.case_file import written_out
from raven_tools.model.http_reading import HttpRequest


@dataclasses.dataclass
class Recorded:
    name: str
    data: bytes = b""
    requests: list[HttpRequest] = dataclasses.field(default_factory=list)
    end: str = ""

    def say(self, **parts: object) -> None:
        """Says something of the request that was begun last."""
        self.requests[-1] = dataclasses.replace(self.requests[-1], **parts)

    def line(self, word: str, value: str) -> None:
        if word == "|":
            self.data += written_out(value)
        elif word == "request":
            method, path = value.split(" ")
            self.requests.append(HttpRequest(method, path, "", None, False, b""))
        elif word in ("query", "expected"):
            self.say(**{word: value})
        elif word == "body":
            self.say(body=written_out(value))
        elif word == "closes":
            self.say(close=True)
        elif word == "end":
            self.end = value
        else:
            raise ValueError(f"not a line of a session: {word} {value}")


def read(text: str) -> list[Recorded]:
    found: list[Recorded] = []
    for line in text.split("\n"):
        word, _, value = line.partition(" ")
        if word == "==":
            found.append(Recorded(value))
        elif line and not line.startswith("#"):
            found[-1].line(word, value)
    return found
