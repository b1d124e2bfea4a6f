"""Compares the table of `crates/text_cases` with a second reading of the rules of both languages."""

import collections.abc
import difflib
import re
import sys

from raven_tools import language, queries
from raven_tools.language import definitions, reduces
from raven_tools.making import worked, worked_queries
from raven_tools.places import CRATES

CRATE = CRATES / "text_cases"

MARK = re.compile("⟨(?:([0-9]+)\\*([^⟩]*)|([0-9a-f]+))⟩")


def written_out(line: str) -> str:
    """The line with what its marks mean."""
    return MARK.sub(lambda m: m[2] * int(m[1]) if m[1] else bytes.fromhex(m[3]).decode(), line)


class Table:
    """What the lines so far have said: the text of the last map, and the definitions that were read."""

    def __init__(self):
        self.map = ""
        self.definitions: list[definitions.Static | definitions.Auto] = []

    def answer(self, line: str) -> str | None:
        """What is printed after the line, or None if nothing is."""
        word, _, text = line.partition(" ")
        if word in ("", "#"):
            return None
        if word == "map":
            self.map = text
            return self.read(None)
        if word == "reduce":
            return self.read(text)
        if word == "query":
            return query(text)
        if word == "auto":
            collection, *paths = text.split(" ")
            self.definitions.append(definitions.Auto(collection, tuple(path.split(".") for path in paths)))
            return None
        if word == "same":
            return "yes" if self.definitions[-2] == self.definitions[-1] else "no"
        last = self.definitions[-1]
        return definitions.json_of({"reads": last.scope, "fields": last.fields, "row": last.row}[word]())

    def read(self, reduce: str | None) -> str:
        try:
            definition = definitions.parse(self.map, reduce)
        except definitions.Refusal as refusal:
            return f"refused {refusal.part} {refusal.at} {refusal.kind}"
        self.definitions.append(definition)
        if definition.reduce:
            return "reduce " + reduces.printed(definition.reduce)
        return "map " + language.printed(definition.map)


def query(text: str) -> str:
    try:
        return "query " + queries.printed(queries.parse(text))
    except queries.Refusal as refusal:
        return refused("Query", refusal.at, refusal.kind)


def answers(lines: collections.abc.Iterable[str]) -> list[str | None]:
    table = Table()
    return [table.answer(line) for line in lines]


def output(lines: list[str]) -> str:
    """What the program has to print for the lines."""
    written = []
    for line, answer in zip(lines, answers(map(written_out, lines))):
        written += [line] if answer is None else [line, "    " + answer]
    return "".join(line + "\n" for line in written)


def line_of(word: str, text: str) -> str:
    return f"{word} {text}" if text else word


def refused(part: str, at: int, kind: str) -> str:
    return f"refused {part} {at} {kind}"


def by_hand() -> collections.abc.Iterator[tuple[list[str], str]]:
    """Lines, and the answer to the last of them that was worked out by hand, or how it begins."""
    for text, at, kind in worked.REFUSED:
        yield [line_of("map", text)], refused("Map", at, kind) if kind else "map "
    for text, printed in worked.PRINTED:
        yield [f"map {worked.AROUND}{text} }}"], f"map {worked.AROUND}{printed} }}"
    for text, printed in worked.PRINTED_REDUCES:
        yield ["map " + worked.REDUCED_MAP, "reduce " + text], "reduce " + printed
    for text, *refusal in worked.REDUCED:
        yield ["map " + worked.REDUCED_MAP, line_of("reduce", text)], refused(*refusal)
    for text, printed in worked.PRINTED_MEANS:
        yield ["map " + worked.MEAN_MAP, "reduce " + text], "reduce " + printed
    head = len(worked.SUMMED)
    for text, at, kind in worked.MEANS:
        yield ["map " + worked.MEAN_MAP, "reduce " + worked.SUMMED + text], refused("Reduce", head + at, kind)
    for map_text, reduce_text, *refusal in worked.BOTH:
        yield ["map " + map_text, "reduce " + reduce_text], refused(*refusal)
    for text, printed in worked_queries.PRINTED:
        yield ["query " + text], "query " + printed
    for text, at, kind in worked_queries.REFUSED:
        yield [line_of("query", text)], refused("Query", at, kind)


def disagreements(lines: list[str]) -> collections.abc.Iterator[str]:
    there = set(map(written_out, lines))
    for asked, expected in by_hand():
        answer = answers(asked)[-1]
        if not answer.startswith(expected):
            yield f"{asked[-1][:100]}\n  by hand: {expected}\n  by rule: {answer[:100]}"
        yield from (f"not in the table: {line[:100]}" for line in asked if line not in there)


def main() -> int:
    lines = (CRATE / "stdin").read_text().split("\n")[:-1]
    wanted = output(lines)
    if "--write" in sys.argv[1:]:
        (CRATE / "stdout").write_text(wanted)
    stored = (CRATE / "stdout").read_text()
    wrong = [*disagreements(lines)]
    wrong += difflib.unified_diff(stored.splitlines(), wanted.splitlines(), "stored", "by rule", lineterm="", n=1)
    print("\n".join(wrong) or f"holds  {len(lines)} lines")
    return 1 if wrong else 0
