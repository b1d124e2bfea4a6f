"""The tokens of a query, and the limits of the language."""

import re
import typing

LONGEST = 65_536
DEEPEST = 64
MOST_FIELDS = 64
LEAST, GREATEST = -(2**63), 2**63 - 1
KEY_WORDS = frozenset("from index group by where order select include and or not in between as true false null exact".split())


class Refusal(Exception):
    """A text that is no query: the kind, and how many bytes are before what is refused."""

    def __init__(self, at: int, kind: str):
        super().__init__(f"{kind} at {at}")
        self.at = at
        self.kind = kind


class Token(typing.NamedTuple):
    kind: str  # word (a key word, in lower case), name, number, text, mark, bad, rest or end
    value: object
    at: int


BLANKS = re.compile(rb"[ \t\r\n]*")
TOKEN = re.compile(
    rb"""(?P<name>[A-Za-z_][A-Za-z0-9_]*)
    |(?P<number>-?[0-9]+)
    |(?P<text>'(?:[^'\\\x00-\x1f\x7f]|\\['\\])*'|"(?:[^"\\\x00-\x1f\x7f]|\\["\\])*")
    |(?P<mark><=|>=|==|!=|<>|[<>=(),.$])""",
    re.VERBOSE,
)
GOES_ON = re.compile(rb"[A-Za-z0-9_.]")
ESCAPE = re.compile(r"\\(.)")
SAME = {"==": "=", "<>": "!="}


def token_of(kind: str, spelled: str, at: int, goes_on: bool) -> Token:
    """`goes_on` says if what follows at once would make a number a bad one."""
    if kind == "number":
        is_good = not goes_on and LEAST <= int(spelled) <= GREATEST
        return Token("number", int(spelled), at) if is_good else Token("bad", spelled, at)
    if kind == "text":
        return Token(kind, ESCAPE.sub(r"\1", spelled[1:-1]), at)
    if kind == "name" and spelled.lower() in KEY_WORDS:
        return Token("word", spelled.lower(), at)
    return Token(kind, SAME.get(spelled, spelled), at)


def tokens_of(text: str) -> list[Token]:
    """The tokens up to the end, or up to the first bytes that begin none."""
    data = text.encode()
    tokens = []
    at = BLANKS.match(data).end()
    while at < len(data):
        found = TOKEN.match(data, at)
        if not found:
            return [*tokens, Token("rest", data[at:], at)]
        tokens.append(token_of(found.lastgroup, found.group().decode(), at, bool(GOES_ON.match(data, found.end()))))
        at = BLANKS.match(data, found.end()).end()
    return [*tokens, Token("end", "", at)]
