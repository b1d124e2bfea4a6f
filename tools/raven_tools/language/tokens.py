"""The tokens of a text, and the limits of the language."""

import re
import typing

LONGEST = 65_536
DEEPEST = 64
MOST_OPERATORS = 256
MOST_MEMBERS = 64
LEAST, GREATEST = -(2**63), 2**63 - 1
RESERVED = frozenset(
    "from in docs where let select new results group by into true false null LoadDocument".split()
)
# The binary operators, those that bind less first.
LEVELS = [("||",), ("&&",), ("==", "!="), ("<", "<=", ">", ">="), ("+", "-"), ("*", "/", "%")]
LEVEL_OF = {mark: level for level, marks in enumerate(LEVELS) for mark in marks}


class Refusal(Exception):
    """A text that is none of the language: the kind, and how many bytes are before what is refused."""

    def __init__(self, at: int, kind: str):
        super().__init__(f"{kind} at {at}")
        self.at = at
        self.kind = kind


class Token(typing.NamedTuple):
    kind: str  # name, number, text, mark, bad or end
    value: object
    at: int


BLANKS = re.compile(rb"[ \t\r\n]*")
TOKEN = re.compile(
    rb"""(?P<name>[A-Za-z_][A-Za-z0-9_]*)
    |(?P<number>[0-9]+)
    |(?P<text>"(?:[^"\\\x00-\x1f\x7f]|\\["\\nrt])*")
    |(?P<mark>=>|==|!=|<=|>=|&&|\|\||[{}(),.=?:<>+*/%!-])""",
    re.VERBOSE,
)
ESCAPE = re.compile(r"\\(.)")
ESCAPED = {'"': '"', "\\": "\\", "n": "\n", "r": "\r", "t": "\t"}


def number_of(digits: str) -> int | None:
    """The number of the digits, or None if it is too great."""
    digits = digits.lstrip("0") or "0"
    return int(digits) if len(digits) <= 19 and int(digits) <= GREATEST else None


def token_of(kind: str, spelled: str, at: int) -> Token:
    if kind == "text":
        return Token(kind, ESCAPE.sub(lambda found: ESCAPED[found.group(1)], spelled[1:-1]), at)
    if kind == "number":
        number = number_of(spelled)
        return Token("bad", spelled, at) if number is None else Token(kind, number, at)
    return Token(kind, spelled, at)


def tokens_of(text: str) -> list[Token]:
    """The tokens up to the end, or up to the first bytes that are none, which no rule takes."""
    data = text.encode()
    tokens = []
    at = BLANKS.match(data).end()
    while at < len(data):
        found = TOKEN.match(data, at)
        if not found:
            return [*tokens, Token("bad", data[at:], at)]
        tokens.append(token_of(found.lastgroup, found.group().decode(), at))
        at = BLANKS.match(data, found.end()).end()
    return [*tokens, Token("end", "", at)]
