#!/usr/bin/env python3
"""Tests of `raven_tools.language`: cases worked out by hand, and the grammar read in quite another way.

    tools/test_language.py [ROUNDS]

It needs no program. It ends with 0 if every test holds, and otherwise at the first assertion that does not.
"""

import collections
import itertools
import random
import sys

sys.dont_write_bytecode = True
from raven_tools import language
from raven_tools.language import dates, definitions, groups, reduces
from raven_tools.making import limit_maps, maps, worked
from raven_tools.making import reduces as making_reduces


def answer(text):
    """The tree, or the place and the kind."""
    try:
        return language.parse(text)
    except language.Refusal as refusal:
        return refusal.at, refusal.kind


# Tokens


def test_tokens():
    for text, kinds, places in worked.TOKENS:
        tokens = language.tokens_of(text)
        assert [token.kind for token in tokens] == kinds.split(), (text, tokens)
        assert [token.at for token in tokens] == places, (text, tokens)
    (text, _) = language.tokens_of('"\\"\\\\\\n\\r\\té"')
    assert text.value == '"\\\n\r\té'


# Refusals


def test_refusals():
    for text, at, kind in worked.REFUSED:
        found = answer(text)
        assert isinstance(found, language.Map) if at is None else found == (at, kind), (text[:100], at, kind, found)


def test_limits():
    """Each limit is reached, and then passed at its own token."""
    kinds = collections.Counter()
    for name, text in limit_maps.at_the_limits():
        found = answer(text)
        kind = "read" if isinstance(found, language.Map) else found[1]
        kinds[kind] += 1
        assert kind != "TooLarge" or not name.endswith("-1"), name
    assert all(kinds[kind] > 10 for kind in ("read", "TooLarge")), kinds
    chain = "u ? 1 : " * 65 + "2"
    assert answer(limit_maps.with_member(chain)) == (34 + 64 * 8 + 2, "TooLarge")
    assert isinstance(answer(limit_maps.with_member("(u ? 1 : 2) ? 1 : " * 32 + "2")), language.Map)


# The grammar, read by all its rules at once. It is written here as people read it.

GRAMMAR = """
map = from VAR in docs . NAME clauses select new { members END
clauses = | clause clauses
clause = where expr | let VAR = expr
members = member } | member , } | member , members
member = NAME = expr | VAR points
points = | . NAME points
expr = or | or ? expr : expr
or = and | or || and
and = equal | and && equal
equal = order | equal == order | equal != order
order = sum | order < sum | order <= sum | order > sum | order >= sum
sum = product | sum + product | sum - product
product = unary | product * unary | product / unary | product % unary
unary = post | ! unary | - unary
post = primary points
primary = NUMBER | TEXT | true | false | null | VAR | ( expr ) | LoadDocument ( expr , TEXT )
"""


def rules_of(grammar):
    """By each left side its right sides; a part before `|` alone is no sign of the language."""
    rules = {}
    for line in grammar.strip().split("\n"):
        name, _, rest = line.partition(" = ")
        sides = [side.split() for side in (" " + rest).replace(" || ", " OR ").split(" |")]
        rules[name] = [tuple("||" if sign == "OR" else sign for sign in side) for side in sides]
    return rules


RULES = rules_of(GRAMMAR)
# What can be empty.
EMPTY = {name for name, sides in RULES.items() if () in sides}


def fits(sign, token):
    if sign == "VAR":
        return token.kind == "name" and token.value not in language.RESERVED
    if sign in ("NAME", "NUMBER", "TEXT", "END"):
        return token.kind == sign.lower()
    return token.kind in ("name", "mark") and token.value == sign


def closed(items, columns):
    """All that follows at one place from what is there: an item is a rule, how far it has come, and where it began."""
    here = len(columns)
    found, waiting = set(items), list(items)
    while waiting:
        name, side, at, began = waiting.pop()
        more = []
        if at == len(side):
            before = found if began == here else columns[began]
            more = [(n, s, a + 1, b) for n, s, a, b in before if a < len(s) and s[a] == name]
        elif side[at] in RULES:
            more = [(side[at], other, 0, here) for other in RULES[side[at]]]
            if side[at] in EMPTY:
                more.append((name, side, at + 1, began))
        for item in more:
            if item not in found:
                found.add(item)
                waiting.append(item)
    return found


def first_unexpected(tokens):
    """The place of the first token with which no text of the grammar goes on, or None if the tokens are one."""
    columns = []
    items = {("map", side, 0, 0) for side in RULES["map"]}
    for token in tokens:
        column = closed(items, columns)
        columns.append(column)
        items = {(n, s, a + 1, b) for n, s, a, b in column if a < len(s) and fits(s[a], token)}
        if not items:
            return token.at
    return None


def test_grammar(rounds=400):
    """What is read at random is what the grammar has, and what is refused is refused at the same place."""
    kinds = collections.Counter()
    for seed in range(rounds):
        maker = maps.Maps(random.Random(seed))
        tree = maker.tree()
        assert first_unexpected(language.tokens_of(maker.text_of(tree))) is None
        text = maker.broken(tree)
        found = answer(text)
        kind = "read" if isinstance(found, language.Map) else found[1]
        kinds[kind] += 1
        expected = found[0] if kind == "Unexpected" else None
        assert first_unexpected(language.tokens_of(text)) == expected, (seed, text, found)
    for text, at, kind in worked.REFUSED:
        if kind != "TooLarge":
            assert first_unexpected(language.tokens_of(text)) == (at if kind == "Unexpected" else None), text
    assert all(kinds[kind] > rounds // 100 for kind in ("read", "Unexpected", "UnknownName", "DuplicateField")), kinds


# Spellings


def test_spellings():
    for text, printed in worked.PRINTED:
        assert language.printed(language.parse(worked.AROUND + text + " }")) == worked.AROUND + printed + " }", text
    first = 'from u in docs.Users where u.Age >= 18 select new { u.Name, Old = u.Age > 64 ? "yes" : "no" }'
    spelled = 'from u in docs.Users where u.Age >= 18 select new { Name = u.Name, Old = (u.Age > 64) ? "yes" : "no" }'
    assert language.printed(language.parse(first)) == spelled
    member = "from o in docs.O where ((o == 1)) select new { o.Company.Name, }"
    assert language.printed(language.parse(member)) == "from o in docs.O where o == 1 select new { Name = o.Company.Name }"


def test_round_trips(rounds=400):
    """Each spelling of a tree is read as that tree, and so is what is printed of it."""
    for seed in range(rounds):
        maker = maps.Maps(random.Random(seed))
        tree = maker.tree()
        assert language.parse(maker.text_of(tree)) == tree == language.parse(maker.text_of(tree)), seed
        try:
            assert language.parse(language.printed(tree)) == tree, seed
        except language.Refusal as refusal:
            assert refusal.kind == "TooLarge", seed


def test_reduces(rounds=400):
    """Each spelling of a reduce is read as that reduce, and so is what is printed of it. Changed ones are refused for each cause of a reduce."""
    kinds = collections.Counter()
    for seed in range(rounds):
        maker = making_reduces.Reduces(random.Random(seed))
        fields = maker.random.sample(["A", "B", "Count", "Key", "from"], maker.random.randint(1, 4))
        text = "from u in docs.U select new { " + ", ".join(f"u.{field}" for field in fields) + " }"
        tree = maker.reduce_of(fields)
        for spelled in (maker.joined(maker.reduce_tokens(tree)), reduces.printed(tree)):
            assert definitions.parse(text, spelled).reduce == tree, (seed, spelled)
        other = maker.other_reduce(tree)
        try:
            definitions.parse(text, reduces.printed(other))
            kinds["read"] += 1
        except definitions.Refusal as refusal:
            assert refusal.part == "Reduce", seed
            kinds[refusal.kind] += 1
    assert all(kinds[kind] > rounds // 100 for kind in ("read", "DuplicateField", "FieldsDiffer", "NotReducible")), kinds


def refusal_of_texts(text, reduce_text):
    """The part, the place and the kind, or None."""
    try:
        definitions.parse(text, reduce_text)
    except definitions.Refusal as refusal:
        return refusal.part, refusal.at, refusal.kind
    return None


def test_quotients():
    """What texts with a quotient say, and what it comes to."""
    for text, printed in worked.PRINTED_MEANS:
        for spelled in (text, printed):
            assert reduces.printed(definitions.parse(worked.MEAN_MAP, spelled).reduce) == printed, spelled
    head = len(worked.SUMMED)
    for text, at, kind in worked.MEANS:
        refused = refusal_of_texts(worked.MEAN_MAP, worked.SUMMED + text)
        assert refused == ("Reduce", head + at, kind), (text, refused, refused[1] - head)
    # A quotient may not be what another one divides, nor the minimum of a field, nor the sum of another field than that of its name.
    for total in ("g.Min(x => x.Total)", "g.Sum(x => x.Count)", "g.Sum(x => x.Total) / g.Sum(x => x.Count)"):
        text = worked.FROM + f"Company = g.Key, Mean = g.Sum(x => x.Total) / g.Sum(x => x.Count), Count = g.Sum(x => x.Count), Total = {total} }}"
        at = text.index("Mean")
        assert refusal_of_texts(worked.MEAN_MAP, text) == ("Reduce", at, "NotReducible"), total
    tree = definitions.parse(worked.MEAN_MAP, worked.PRINTED_MEANS[0][0]).reduce
    for totals, counts, quotient in worked.QUOTIENTS:
        both = itertools.zip_longest(totals, counts, fillvalue=None)
        entries = [{"Company": "c", "Total": total, "Count": count, "Mean": 7} for total, count in both]
        means = [row["Mean"] for row in groups.rows_of(tree, entries)]
        assert means == ([quotient] if entries else []), (totals, counts, means)


def test_rows_reduce_again(rounds=400):
    """The rows of several lists of entries, reduced once more, are the rows of all entries together."""
    texts = [worked.PRINTED_MEANS[0][0], worked.PRINTED_MEANS[2][0]]
    texts += [worked.FROM + "Company = g.Key, Total = g.Min(x => x.Total), Count = g.Max(x => x.Count), Mean = g.Sum(x => x.Mean) }"]
    trees = [definitions.parse(worked.MEAN_MAP, text).reduce for text in texts]
    for seed in range(rounds):
        source = random.Random(seed)
        values = [None, False, True, -(2**63), -3, 0, 2, 2**63 - 1, "", "a", "A", "b"]
        entry = lambda: {name: source.choice(values) for name in ("Company", "Total", "Count", "Mean")}
        parts = [[entry() for _ in range(source.randint(0, 4))] for _ in range(source.randint(0, 8))]
        for tree in trees:
            rows = [row for part in parts for row in groups.rows_of(tree, part)]
            assert groups.rows_of(tree, rows) == groups.rows_of(tree, [one for part in parts for one in part]), seed


def test_scopes():
    clauses = 'where LoadDocument(1, "A") let v = LoadDocument(LoadDocument(2, "B"), "")'
    text = f'from u in docs.U {clauses} select new {{ Z = -LoadDocument(3, "U") }}'
    assert language.scope_of(language.parse(text)) == {"U", "A", "B", ""}


# The meaning


def test_meaning():
    for text, value in worked.MEANING:
        tree = language.parse(limit_maps.with_member(text))
        try:
            (found,) = language.entry_of(tree, worked.BODY, None).values()
        except language.Failed:
            found = worked.FAILS
        assert type(found) is type(value) and found == value, (text, found, value)


def entry(rest, asked=None):
    """The entry of a document by a map, with what was asked for of other documents."""
    documents = {"a": ("C", {"Name": "Ada"}), "b": ("D", {"Name": "Bo"})}

    def load(name, collection):
        if asked is not None:
            asked.append((name, collection))
        found = documents.get(name)
        return found[1] if found and found[0] == collection else None

    return language.entry_of(language.parse("from u in docs.U " + rest), worked.BODY, load)


def fails(rest, asked=None):
    try:
        entry(rest, asked)
    except language.Failed:
        return True
    return False


def test_clauses():
    """Clauses run in order: what fails after a `where` that leaves the document out does not count."""
    assert entry("where u.T select new { u.N }") == {"N": 7}
    assert entry("where u.N select new { u.N }") is None
    assert entry("where u.Gone select new { u.N }") is None
    assert entry("where u.F where u.N / 0 select new { u.N }") is None
    assert entry("where u.F let v = u.N / 0 select new { u.N }") is None
    assert fails("let v = u.N / 0 select new { u.N }")
    assert fails("let v = u.N / 0 where u.F select new { u.N }")
    assert fails("where u.N / 0 select new { u.N }")
    assert fails("select new { u.N, X = u.N / 0 }")
    assert entry("let v = u.N let w = v + v select new { w, v, X = w * v }") == {"v": 7, "w": 14, "X": 98}
    assert entry("let v = u.A select new { v.B.C, v }") == {"C": 5, "v": None}


def test_loads():
    """Only what is computed is asked for, and only of texts."""
    asked = []
    loads = 'let a = LoadDocument("a", "C") let b = LoadDocument("b", "C") let c = LoadDocument(u.N, "C") '
    assert entry(loads + "select new { A = a.Name, B = b.Name, C = c }", asked) == {"A": "Ada", "B": None, "C": None}
    assert asked == [("a", "C"), ("b", "C")]
    asked = []
    lazy = 'select new { A = u.F && LoadDocument("a", "C"), B = u.T ? 1 : LoadDocument("b", "C") }'
    assert entry(lazy, asked) == {"A": False, "B": 1}
    assert asked == []
    assert fails('let a = LoadDocument("a", "C") select new { A = 1 / 0, B = LoadDocument("b", "C") }', asked)
    assert asked == [("a", "C")]
    both = 'select new { LoadDocument = LoadDocument("a", "C").Name + LoadDocument("b", "D").Name }'
    assert entry(both) == {"LoadDocument": "AdaBo"}


# Dates


def test_dates():
    for text in worked.LEAP_DAYS:
        assert dates.date_of(text) == (2020, 2, 29), text
    for text in worked.NO_DATES:
        assert dates.date_of(text) is None, text
    for text, year in worked.YEARS:
        assert dates.date_of(text)[0] == year, text
    assert dates.date_of("1997-09-19T10:11") == (1997, 9, 19)


def main():
    sys.setrecursionlimit(10_000)
    rounds = int(sys.argv[1]) if len(sys.argv) > 1 else 400
    for name, test in [(name, test) for name, test in globals().items() if name.startswith("test_")]:
        test(*([rounds] if test.__defaults__ else []))
        print(f"holds  {name}")
    return 0


if __name__ == "__main__":
    sys.exit(main())
