"""What the program says of malformed arguments: whose help it shows, and what is wrong."""

import collections.abc
import re

from raven_tools.model import messages
from raven_tools.model.outside import BASE, NAME, NUMBER


def a_path(_: str) -> None:
    """Each value is a path."""


def a_base(value: str) -> str | None:
    return None if BASE.fullmatch(value) else "22 letters or digits"


def a_name(value: str) -> str | None:
    return None if NAME.fullmatch(value) else "1 to 64 letters, digits, _ or -"


def within(least: int, most: int) -> collections.abc.Callable[[str], str | None]:
    def wrong(value: str) -> str | None:
        return None if NUMBER.fullmatch(value) and least <= int(value) <= most else f"from {least} to {most}"

    return wrong


STORED = {"--data": a_path, "--id": a_base}
# The options of each command, each with what says what is wrong with a value.
OPTIONS: dict[str, dict[str, collections.abc.Callable[[str], str | None]]] = {
    "run": STORED,
    "serve": {
        **STORED,
        "--db": a_name,
        "--port": within(0, 65_535),
        "--workers": within(1, 64),
        "--pumps": within(1, 16),
        "--connections": within(1, 1_000_000),
    },
    "http": {**STORED, "--db": a_name, "--pump": within(0, 65_536)},
    "measure": {"--seed": within(1, 2_147_483_646), "--docs": within(1, 200_000), "--batch": within(1, 65_536)},
}


def shown(word: str) -> str:
    """An argument as it is shown: between quotes, unless it has visible signs of ASCII alone."""
    return word if re.fullmatch(r"[!-~]+", word) else messages.quoted(word)


def unknown(command: str, word: str) -> str:
    """What is wrong with a word that is no option of the command."""
    option, mark, value = word.partition("=")
    if mark and value and option in OPTIONS[command]:
        return f"{option}={shown(value)}: write {option} {shown(value)}"
    return f"{shown(word)}: {command} has no such option"


def wrong_value(command: str, option: str, value: str) -> str | None:
    if not value or value.startswith("-"):
        return f"{option} {shown(value)}: a value is not empty, and does not begin with -"
    wrong = OPTIONS[command][option](value)
    return f"{option} {shown(value)}: {wrong}" if wrong else None


def mistake(arguments: collections.abc.Sequence[str | bytes]) -> str | None:
    """The first thing that is wrong with the arguments, if anything is."""
    texts = [word for word in arguments if isinstance(word, str)]
    if len(texts) < len(arguments):
        return "an argument is not UTF-8"
    if not texts:
        return "no command: it is run, serve, http or measure"
    command, *words = texts
    if command not in OPTIONS:
        return f"{shown(command)}: the commands are run, serve, http and measure"
    for at in range(0, len(words), 2):
        option, values = words[at], words[at + 1 : at + 2]
        if option not in OPTIONS[command]:
            return unknown(command, option)
        if not values:
            return f"{option}: its value is missing"
        wrong = wrong_value(command, option, values[0])
        if wrong:
            return wrong
        if option in words[at + 2 :: 2]:
            return f"{option}: it is given twice"
    return None


def command_of(arguments: collections.abc.Sequence[str | bytes]) -> str | None:
    """The command whose help is shown, or None if it is that of the program."""
    first = arguments[0] if arguments and all(isinstance(word, str) for word in arguments) else None
    return first if first in OPTIONS else None
