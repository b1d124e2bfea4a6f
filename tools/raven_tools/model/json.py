"""JSON: what a text stands for, and the compact text of a value."""

import math
import re
import typing

from raven_tools.model.limits import MAX_DEPTH
from raven_tools.model.refused import Refused

Json: typing.TypeAlias = "None | bool | int | str | list[Json] | dict[str, Json]"

WHITE = " \t\n\r"
NUMBER = re.compile(r"-?(?:0|[1-9][0-9]*)(\.[0-9]+)?([eE][+-]?[0-9]+)?")
HEX = re.compile(r"[0-9a-fA-F]{4}")
ESCAPES = {'"': '"', "\\": "\\", "/": "/", "b": "\b", "f": "\f", "n": "\n", "r": "\r", "t": "\t"}
PLAIN = re.compile(r'[^"\\\x00-\x1f]+')


class NotWhole:
    """A number that is written with a fraction, an exponent or as -0, or that does not fit in 64 bits."""


def is_too_deep(data: bytes) -> bool:
    """More than a hundred brackets are open at once outside texts; a closing one with none open is passed over."""
    opened = 0
    in_text = False
    escaped = False
    for byte in data:
        if escaped:
            escaped = False
        elif in_text:
            if byte == 0x5C:
                escaped = True
            elif byte == 0x22:
                in_text = False
        elif byte == 0x22:
            in_text = True
        elif byte in b"{[":
            opened += 1
            if opened > MAX_DEPTH:
                return True
        elif byte in b"}]" and opened > 0:
            opened -= 1
    return False


class Parser:
    """Reads one text from the left."""

    def __init__(self, text: str):
        self.text = text
        self.at = 0

    def peek(self) -> str:
        return self.text[self.at] if self.at < len(self.text) else ""

    def skip_white(self) -> None:
        while self.at < len(self.text) and self.text[self.at] in WHITE:
            self.at += 1

    def expect(self, token: str) -> None:
        if not self.text.startswith(token, self.at):
            raise Refused("NotJson")
        self.at += len(token)

    def whole(self) -> "Json | NotWhole":
        value = self.value()
        self.skip_white()
        if self.at != len(self.text):
            raise Refused("NotJson")
        return value

    def value(self) -> "Json | NotWhole":
        self.skip_white()
        first = self.peek()
        if first == "{":
            return self.object()
        if first == "[":
            return self.array()
        if first == '"':
            return self.string()
        if first == "t":
            self.expect("true")
            return True
        if first == "f":
            self.expect("false")
            return False
        if first == "n":
            self.expect("null")
            return None
        return self.number()

    def number(self) -> int | NotWhole:
        found = NUMBER.match(self.text, self.at)
        if not found:
            raise Refused("NotJson")
        self.at = found.end()
        digits = found.group()
        # `float` gives the nearest double; a number whose nearest double is infinite is no JSON here.
        if math.isinf(float(digits)):
            raise Refused("NotJson")
        if found.group(1) or found.group(2) or digits == "-0":
            return NotWhole()
        number = int(digits)
        return number if -(2**63) <= number < 2**63 else NotWhole()

    def string(self) -> str:
        self.expect('"')
        parts = []
        while True:
            plain = PLAIN.match(self.text, self.at)
            if plain:
                parts.append(plain.group())
                self.at = plain.end()
            mark = self.peek()
            if mark == '"':
                self.at += 1
                return "".join(parts)
            if mark != "\\":
                raise Refused("NotJson")
            self.at += 1
            parts.append(self.escape())

    def escape(self) -> str:
        mark = self.peek()
        self.at += 1
        if mark in ESCAPES and mark:
            return ESCAPES[mark]
        if mark != "u":
            raise Refused("NotJson")
        unit = self.unit()
        if 0xDC00 <= unit <= 0xDFFF:
            raise Refused("NotJson")
        if not 0xD800 <= unit <= 0xDBFF:
            return chr(unit)
        self.expect("\\u")
        low = self.unit()
        if not 0xDC00 <= low <= 0xDFFF:
            raise Refused("NotJson")
        return chr(0x10000 + ((unit - 0xD800) << 10) + (low - 0xDC00))

    def unit(self) -> int:
        found = HEX.match(self.text, self.at)
        if not found:
            raise Refused("NotJson")
        self.at = found.end()
        return int(found.group(), 16)

    def array(self) -> list:
        self.expect("[")
        items = []
        self.skip_white()
        if self.peek() == "]":
            self.at += 1
            return items
        while True:
            items.append(self.value())
            self.skip_white()
            if self.peek() == "]":
                self.at += 1
                return items
            self.expect(",")

    def object(self) -> dict:
        self.expect("{")
        members = {}
        self.skip_white()
        if self.peek() == "}":
            self.at += 1
            return members
        while True:
            self.skip_white()
            name = self.string()
            self.skip_white()
            self.expect(":")
            members[name] = self.value()
            self.skip_white()
            if self.peek() == "}":
                self.at += 1
                return members
            self.expect(",")


def is_whole(value: "Json | NotWhole") -> bool:
    if isinstance(value, NotWhole):
        return False
    if isinstance(value, list):
        return all(is_whole(item) for item in value)
    if isinstance(value, dict):
        return all(is_whole(item) for item in value.values())
    return True


def read_json(data: bytes) -> Json:
    """The value of the bytes. The three tests are made in this order; of members of one name the last counts."""
    if is_too_deep(data):
        raise Refused("TooDeep")
    try:
        text = data.decode("utf-8")
    except UnicodeDecodeError:
        raise Refused("NotJson") from None
    value = Parser(text).whole()
    if not is_whole(value):
        raise Refused("NumberNotWhole")
    return value


SHORT = {'"': '\\"', "\\": "\\\\", "\b": "\\b", "\t": "\\t", "\n": "\\n", "\f": "\\f", "\r": "\\r"}
SPECIAL = re.compile(r'["\\\x00-\x1f]')


def quoted(text: str) -> str:
    def escape(found: re.Match[str]) -> str:
        mark = found.group()
        return SHORT[mark] if mark in SHORT else f"\\u{ord(mark):04x}"

    return '"' + SPECIAL.sub(escape, text) + '"'


def write_json(value: Json) -> str:
    """The compact text. Members are in the order of the bytes of their names, which is that of their characters."""
    if value is None:
        return "null"
    if value is True:
        return "true"
    if value is False:
        return "false"
    if isinstance(value, int):
        return str(value)
    if isinstance(value, str):
        return quoted(value)
    if isinstance(value, list):
        return "[" + ",".join(write_json(item) for item in value) + "]"
    return "{" + ",".join(quoted(name) + ":" + write_json(value[name]) for name in sorted(value)) + "}"
