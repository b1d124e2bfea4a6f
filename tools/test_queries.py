#!/usr/bin/env python3
"""Tests of `raven_tools.queries`: cases worked out by hand, of texts and of what they find, and that what is printed says the same.

    tools/test_queries.py [ROUNDS]

It needs no program. It ends with 0 if every test holds, and otherwise at the first assertion that does not.
"""

import random
import sys

sys.dont_write_bytecode = True
from raven_tools import language, queries
from raven_tools.language import definitions
from raven_tools.making import worked_answers, worked_queries
from raven_tools.queries import answers, binding
from raven_tools.scalars import is_scalar

WORDS = (
    "from index group by where order select include and or not in between as true false null exact count sum exists "
    "startsWith long desc A B C ( ) , . $ = != < 1 -2 'x' 'a.b' ''"
).split()


def answer(text):
    """What it says, or the place and the kind."""
    try:
        return queries.parse(text)
    except queries.Refusal as refusal:
        return refusal.at, refusal.kind


def test_by_hand():
    for text, printed in worked_queries.PRINTED:
        found = answer(text)
        assert isinstance(found, queries.Query) and queries.printed(found) == printed, (text, found)
    for text, at, kind in worked_queries.REFUSED:
        assert answer(text) == (at, kind), (text[:100], answer(text))


def test_printed():
    """What is printed says the same, and is printed as it is."""
    for text, _ in worked_queries.PRINTED:
        query = queries.parse(text)
        printed = queries.printed(query)
        assert queries.parse(printed) == query and queries.printed(queries.parse(printed)) == printed, text


def test_limits():
    """Each limit is reached."""
    for text in (
        "from C select " + "A, " * 63 + "A",
        "from C where " + "(" * 64 + "A = 1" + ")" * 64,
        "from C where " + "not " * 64 + "A = 1",
        "from C" + " " * 65_530,
    ):
        assert isinstance(answer(text), queries.Query), text[:100]


def test_prefixes(rounds):
    """Words in any order. What is read is read again from its canonical text; what stands before a refused token is refused nowhere but
    at its own end, if at all."""
    chance = random.Random(1)
    for _ in range(rounds):
        text = "from " + " ".join(chance.choice(WORDS) for _ in range(chance.randrange(12)))
        found = answer(text)
        if isinstance(found, queries.Query):
            assert answer(queries.printed(found)) == found, text
        else:
            before = answer(text[: found[0]])
            assert isinstance(before, queries.Query) or before[0] == found[0], (text, found, before)


def values_of(row):
    return lambda path: row[".".join(path)]


def found(text, parameters, rows):
    return answers.found(queries.parse(text), rows, values_of, parameters)


def test_conditions():
    """Which values meet each condition, and their order by each key."""
    values = [(letter, worked_answers.VALUES.get(letter)) for letter in worked_answers.LETTERS]
    rows = [{"F": value if is_scalar(value) else None, "Letter": letter} for letter, value in values]
    for text, parameters, letters in worked_answers.CONDITIONS:
        met = "".join(row["Letter"] for row in found(f"from index 'V' where {text}", parameters, rows))
        assert met == letters, (text, met)
    for text, letters in worked_answers.SORTS:
        ordered = "".join(row["Letter"] for row in found(f"from index 'V' order by {text}", {}, rows))
        assert ordered == letters, (text, ordered)


def test_rows_of_reduces():
    names = ["Team", "Sum", "Low", "High", "Count"]
    teams = [(team if is_scalar(team) else None, number) for team, number in worked_answers.TOTALLED]
    entries = [dict(zip(names, [team, number, number, number, 1])) for team, number in teams]
    reduce = definitions.parse(worked_answers.TOTALS_MAP, worked_answers.TOTALS_REDUCE).reduce
    expected = [dict(zip(names, row)) for row in worked_answers.TOTALS]
    for order in (entries, entries[::-1]):
        rows = language.rows_of(reduce, order)
        assert list(map(repr, map(sorted_members, rows))) == list(map(repr, map(sorted_members, expected))), rows
    for text, places in worked_answers.ON_TOTALS:
        met = found(f"from index 'T' {text}", {}, rows)
        assert [rows.index(row) for row in met] == places, (text, met)


def sorted_members(row):
    """With their kinds, since a flag is equal to a number."""
    return sorted(row.items())


def refusal_of(test, *arguments):
    try:
        test(*arguments)
    except binding.Unbound as unbound:
        return unbound.error, unbound.name
    return None


def test_binding():
    for text, parameters, refusal in worked_answers.CHECKED:
        answer = refusal_of(binding.check, queries.parse(text), parameters, 0, None)
        assert answer == refusal, (text, answer)
    for start, size, is_good in [(0, 0, True), (2**31 - 1, 2**31 - 1, True), (2**31, 0, False), (0, 2**31, False), (-1, 1, False)]:
        answer = refusal_of(binding.check, queries.parse("from C"), {}, start, size)
        assert answer == (None if is_good else ("BadPage", None)), (start, size)
    ways = [(worked_answers.FIELDS, ["F", "Letter"], False)]
    ways += [(worked_answers.ROW_FIELDS, ["Team", "Sum", "Low", "High", "Count"], True)]
    for cases, fields, has_rows in ways:
        for text, name in cases:
            query = queries.parse(f"from index 'V' {text}")
            answer = refusal_of(binding.check_fields, query, fields, has_rows)
            assert answer == (name and ("NoField", name)), (text, answer)


def main():
    test_by_hand()
    test_conditions()
    test_rows_of_reduces()
    test_binding()
    test_printed()
    test_limits()
    test_prefixes(int(sys.argv[1]) if len(sys.argv) > 1 else 3_000)
    print("the language of queries holds")


if __name__ == "__main__":
    main()
