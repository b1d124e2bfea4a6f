"""Scripts of maps and their definitions at each limit, and of each case that was worked out by hand."""

import collections.abc

from raven_tools import language, model
from raven_tools.making import limit_maps, limit_scripts, maps, worked, worked_answers, worked_queries
from raven_tools.making.lines import ask, definition, put
from raven_tools.making.random_scripts import INDEX_NAMES, ODD_NAMES

Named = collections.abc.Iterator[tuple[str, str]]


def limits() -> Named:
    """Scripts at the limits of the language. Each text that is read makes an index of its own."""
    found = {}
    for name, text in limit_maps.at_the_limits():
        found.setdefault(name.rsplit(" ", 1)[1], []).append((name, text))
    for extra, texts in found.items():
        lines = [definition(f"{number} {name}", text) for number, (name, text) in enumerate(texts)]
        yield f"maps at the limits {extra}", "\n".join(["PUT u " + limit_scripts.of("U"), *lines, "PUMP 64", "INDEXES"])


def refusals() -> Named:
    yield "maps that are refused", "\n".join(definition("N", text) for text, *_ in worked.REFUSED)
    tokens = [text for text, *_ in worked.TOKENS] + maps.STRANGE
    before = "from u in docs.U select new { "
    prefixes = ["", "from ", before, before + "A = ", before + "A = u"]
    lines = [definition("N", prefix + token) for token in tokens for prefix in prefixes]
    lines += [definition("N", f"from u in docs.U select new {{ A = u {token} u }}") for token in tokens]
    yield "each token at each place", "\n".join(lines)


def words() -> Named:
    """Each word as each kind of name."""
    ways = ["from {w} in docs.U select new { A = 1 }", "from u in docs.{w} select new { u.A }"]
    ways += ["from u in docs.U let {w} = 1 select new { u.A }", "from u in docs.U where {w} select new { u }"]
    ways += [f"from u in docs.U select new {{ {member} }}" for member in ("{w}", "{w} = 1", "u.{w}", "A = {w}", "A = u.{w}.A")]
    every = sorted(language.RESERVED | {"Key", "Sum", "Min", "Max", "_", "a1", "From", "load", "LoadDocuments"})
    lines = []
    for word in every:
        lines += [definition(f"{word} {at}", way.replace("{w}", word)) for at, way in enumerate(ways)]
        lines += [f"DROP {word} {at}" for at in range(len(ways))]
    yield "each word as each name", "\n".join([*lines, "INDEXES"])


def meanings() -> Named:
    """An index for each expression, which says by a text whether it gives what it has to, and another text of what it gives."""
    body = {**worked.BODY, "@metadata": {"@collection": "U"}}
    lines = ["PUT u " + model.write_json(body)]
    for number, (text, value) in enumerate(worked.MEANING):
        expected = "null" if value == worked.FAILS else language.printed_expression(maps.literal(value))
        tested = f'X = ({text}) == ({expected}) ? "same" : "other"'
        lines.append(definition(f"M{number}", f"from u in docs.U select new {{ {tested}, Y = {text} }}"))
    lines.append("PUMP 1")
    for number, (_, value) in enumerate(worked.MEANING):
        lines.append(f"FIND M{number} X same")
        if isinstance(value, str):
            lines.append(f"FIND M{number} Y {value}")
    yield "what each expression gives", "\n".join([*lines, "INDEXES"])


def dates() -> Named:
    """A document for each text, and what an index makes of its parts."""
    texts = [*((text, 20200229) for text in worked.LEAP_DAYS), *((text, None) for text in worked.NO_DATES)]
    texts += [(text, year) for text, year in worked.YEARS]
    lines = []
    for number, (text, value) in enumerate(texts):
        body = {"Text": text, "Value": value, "@metadata": {"@collection": "D"}}
        lines.append(f"PUT d/{number} " + model.write_json(body))
    whole = "d.Text.Year * 10000 + d.Text.Month * 100 + d.Text.Day"
    kind = f'{whole} == d.Value ? "same" : d.Text.Year == d.Value ? "year" : "other"'
    lines.append(definition("Dates", f"from d in docs.D select new {{ X = {kind} }}"))
    found = [f"FIND Dates X {kind}" for kind in ("same", "year", "other")]
    yield "each date", "\n".join([*lines, "PUMP 512", *found, "INDEXES"])


def members() -> Named:
    """Definitions with several faults, of which the first in order has to be reported."""
    names = ['"Name":7', '"Name":null', "", '"Name":""', '"Name":"a\\tb"', f'"Name":"{"n" * 215}"', f'"Name":"{"n" * 201}"']
    names += ['"Name":"auto/x"', f'"Name":"ReplacementOf/{"n" * 200}"', '"Name":"Live"', '"Name":"N"']
    good, bad, long = "from u in docs.U select new { u.A }", "from u in docs.U select new { v.A }", " " * 65_537
    texts = ["", '"Map":7', '"Map":null', '"Maps":"from"', '"Maps":[]', '"Maps":[7]', f'"Maps":["{good}","{good}"]']
    texts += [f'"Map":"{good}","Maps":null', f'"Map":7,"Maps":["{good}"]', f'"Maps":["{bad}"],"Map":"{good}"']
    texts += [f'"Map":"{text}"' for text in (good, bad, long)]
    reduces = ["", '"Reduce":null', '"Reduce":7', '"Reduce":""', '"Reduce":"from r in results"']
    reduces += [f'"Reduce":"from r in results group r by r.{field} into g select new {{ {field} = g.Key }}"' for field in "AC"]
    lines = [definition("Live", "from u in docs.U select new { u.B }")]
    for name in names:
        for text in texts:
            tried = reduces[:1] if long in text else reduces
            lines += ["INDEX {" + ",".join(part for part in (reduce, text, name) if part) + "}" for reduce in tried]
            lines.append("DROP N")
    yield "faults of a definition", "\n".join([*lines, "INDEXES", "STATS"])
    whole = ["[" * 101, "[", "1.5", "[]", "7", "{}", '{"Name":"N"}', "null", '"text"']
    yield "definitions that are no objects", "\n".join(f"INDEX {text}" for text in whole)


def names() -> Named:
    """Each line of a name, with names at each limit, and definitions that come again in another spelling."""
    lines = []
    good = "from u in docs.U select new { u.A }"
    for name in [*INDEX_NAMES, *ODD_NAMES]:
        for given in (name, name.upper(), name.lower()):
            lines += [definition(given, good), f"PUMP 64 {given}", f"STALE {given}", f"FIND {given} A x", f"GET @index/{given}"]
        lines += [definition(name, good.replace("A", "B")), f"DROP {name.upper()}", f"DROP {name}"]
        lines += [definition(name.upper(), good), f"PUMP 1 {name}", "INDEXES", f"GET @index/{name}", f"DROP {name}", "STATS"]
    yield "each name in each line", "\n".join(lines)
    full = [definition(f"N{number}", good) for number in range(model.MAX_SLOTS - 1)] + ["AUTO C F"]
    more = [definition("n7", good), definition("N7", good.replace("A", "B")), definition("More", good)]
    more += ["AUTO D F", "AUTO C G", "AUTO C F"]
    more += ["AUTO D " + "f" * model.MAX_BODY, definition("auto/x", good), definition("n" * 201, good), "DROP Auto/C/ByF"]
    more += ["AUTO D F", "AUTO E F", "DROP N9", definition("More", good), "AUTO E F", "STATS"]
    yield "more indexes by text than may be", "\n".join([*full, *more])


def reduces() -> Named:
    """Reduces that are read and that are refused, and what is answered of the indexes of those that are read."""
    lines = [definition("N", worked.REDUCED_MAP, text) for text, *_ in worked.REDUCED]
    lines += [definition("N", map_text, text) for map_text, text, *_ in worked.BOTH]
    yield "reduces that are refused", "\n".join([*lines, "INDEXES"])
    companies = ["a", "b", "a", None, 7, "A"]
    lines = []
    for number, (text, _) in enumerate(worked.PRINTED_REDUCES):
        lines.append(definition(f"Sums{number}", worked.REDUCED_MAP, text))
    for number, company in enumerate(companies):
        body = {"Cents": number, "Company": company, "@metadata": {"@collection": "Orders"}}
        lines.append(f"PUT orders/{number} " + model.write_json(body))
    lines += [definition("Plain", worked.REDUCED_MAP), "STALE Sums0", "PUMP 4", "INDEXES"]
    for name in ("Sums0", "Plain", "sums1", "Sums2"):
        lines += [f"FIND {name} Company a", f"FIND {name} Company x", f"FIND {name} Total a", f"FIND {name} Gone a"]
    lines += ["DEL orders/0", "STALE Sums0", "PUMP 64 Sums0", "FIND Sums0 Company a", "FIND Plain Company a", "INDEXES"]
    # The same trees in another spelling, and other trees under a name that serves.
    for number, (_, printed) in enumerate(worked.PRINTED_REDUCES):
        lines += [definition(f"sums{number}", worked.REDUCED_MAP, text) for text in (printed, printed.replace("g", "h"))]
    lines += [definition("Plain", worked.REDUCED_MAP, worked.PRINTED_REDUCES[0][1]), definition("Sums0", worked.REDUCED_MAP)]
    lines += ["GET @index/Sums0", "DROP Sums0", "GET @index/Sums0", "FIND Sums0 Company a", "INDEXES", "STATS"]
    yield "what reduces answer", "\n".join(lines)


def of_values() -> list[str]:
    """The index `Values` of a document for each letter, and the index `Totals`, which has a reduce."""
    lines = [definition("Values", worked_answers.MAP)]
    lines.append(definition("Totals", worked_answers.TOTALS_MAP, worked_answers.TOTALS_REDUCE))
    for letter in worked_answers.LETTERS:
        value = {"F": worked_answers.VALUES[letter]} if letter in worked_answers.VALUES else {}
        lines.append(put(f"v/{letter}", model.write_json({**value, "Letter": letter, "@metadata": {"@collection": "V"}})))
    for number, (team, value) in enumerate(worked_answers.TOTALLED):
        body = {"Team": team, "N": value, "@metadata": {"@collection": "T"}}
        lines.append(put(f"t/{number}", model.write_json(body)))
    return [*lines, "PUMP 64"]


def answered() -> Named:
    """What each condition finds, and the order by each key."""
    lines = of_values()
    for text, parameters, _ in worked_answers.CONDITIONS:
        lines.append(ask(f"from index 'Values' where {text} select Letter", QueryParameters=parameters))
    lines += [f"QUERY from index 'values' order by {text} select Letter, F" for text, _ in worked_answers.SORTS]
    lines += [ask("from index 'Values' order by F select Letter", Start=start, PageSize=4) for start in (0, 3, 17, 20)]
    yield "what each condition finds", "\n".join(lines)
    lines = of_values()
    lines += [f"QUERY from index 'Totals' {text} select Team, Sum" for text, _ in worked_answers.ON_TOTALS]
    lines += [ask("from index 'Totals'", Start=start, PageSize=3) for start in (0, 8, 10)]
    yield "what is found of the rows of a reduce", "\n".join(lines)


# Values of one kind, with null or without it, and of several kinds.
ORDERED = {
    "Numbers": [5, -3, 12, 5, 0, 7, -3, 100, 7, 2**62, -(2**62), 10],
    "Texts": ["b", "A", "aa", "a", "", "B", "c", "A", "\u00e4", "10"],
    "NumbersOrNull": [7, None, -1, 7, 0, None, 12],
    "TextsOrNull": ["x", None, "X", "", None, "y"],
    "Several": [3, None, "3", True, "x", -1, "-1", False, 3, "X"],
}
SPANS = ["", "F > 0", "F >= -3", "F < 7", "F <= 7", "F between -3 and 7", "F between 7 and 5", "F > 'A'", "F <= 'b'", "F between 'a' and 'B'", "exists(F)"]
OTHERS = ["F = 7", "F != 7", "F in (7, 'a')", "startsWith(F, 'a')", "exact(F >= 'a')", "Number > 3", "F > 0 and Number > 3", "not F < 7"]
# Conditions of several tests on one field, with and without other values between those that meet them.
JOINED = ["F >= -3 and F < 10", "F > 0 and not F >= 12", "F >= 'a' and F < 'c'", "F < 5 or F >= 7", "F <= 5 or F = 7", "F = 5 or F between 6 and 12"]
JOINED += ["not (F < 0 or F > 10)", "not (F >= 'aa' and F < 'c')", "not exists(F)", "F = null or F <= 7", "F > 0 and F > 'a'", "F > 7 and F < 5"]
JOINED += ["F in (5, 7, 10) and F != 7", "F in ('a', 'aa') or F = 'A'", "startsWith(F, 'A') and F > 'a'"]
JOINED += ["startsWith(F, '') or F = null", "exact(F > 0 and F < 10)"]


# Tests on a field. Of two of them a condition is made.
TESTS = ["F = 7", "F != 'ada'", "F < 10", "F >= -1", "F > 'a'", "F between 'A' and 'b'", "F in (7, 'Ada', null)", "startsWith(F, 'AD')", "exists(F)"]
TESTS += ["exact(F = 'ada')", "true"]


def totals() -> Named:
    """How many documents meet each condition, and short pages of them: of worked conditions, and of two tests on one field or on two."""
    lines = of_values()
    conditions = [(text, parameters) for text, parameters, _ in worked_answers.CONDITIONS]
    for one in TESTS:
        for other in TESTS:
            joined = [f"{one} and {other}", f"{one} or {other}", f"not ({one}) and {other}", f"not ({one} or not {other})"]
            conditions += [(text, {}) for text in [*joined, f"exact({one} or {other})", f"{one} or {other.replace('F', 'Letter')}"]]
    for text, parameters in conditions:
        pages = ((0, 0), (0, 1), (2, 2))
        lines += [ask(f"from index 'Values' where {text}", QueryParameters=parameters, Start=start, PageSize=size) for start, size in pages]
    yield "how many meet each condition", "\n".join(lines)


def in_order() -> Named:
    """Pages in the order of a field, of conditions on that field and of others."""
    for name, values in ORDERED.items():
        lines = [definition(name, f"from d in docs.{name} select new {{ d.F, d.Number }}")]
        for number, value in enumerate(values):
            # Ids are not in the order in which they are put.
            body = {"F": value, "Number": number, "@metadata": {"@collection": name}}
            lines.append(put(f"d/{len(values) - number}", model.write_json(body)))
        lines.append("PUMP 64")
        for condition in [*SPANS, *OTHERS, *JOINED]:
            source = f"from index '{name}'" + (f" where {condition}" if condition else "")
            for key in ("F", "F desc", "F as long", "F as long desc", "F as long, Number desc", "Number as long desc"):
                text = f"{source} order by {key} select F, Number"
                lines += [f"QUERY {text}", *(ask(text, Start=start, PageSize=size) for start, size in ((0, 2), (1, 3), (3, 1), (4, 20), (0, 0)))]
        yield f"pages in order, {name}", "\n".join(lines)


def unanswered() -> Named:
    """Each refusal of a query, also of one with several faults."""
    lines = of_values()
    lines += ["QUERY " + text for text in ("from C", *(text for text, *_ in worked_queries.REFUSED)) if text]
    lines += ["QUERY " + text for text, _ in worked_queries.PRINTED]
    for text, parameters, _ in worked_answers.CHECKED:
        for page in ({}, {"Start": -1}, {"PageSize": 2**31}):
            lines += [ask(text.replace("'V'", name), QueryParameters=parameters, **page) for name in ("'V'", "'Values'")]
    lines += [f"QUERY from index 'Values' {text}" for text, _ in worked_answers.FIELDS]
    lines += [f"QUERY from index 'Totals' {text}" for text, _ in worked_answers.ROW_FIELDS]
    yield "queries that are refused", "\n".join(lines)
    good = {"Query": "from V", "QueryParameters": {}, "Start": 0, "PageSize": 1, "CutoffEtag": 0}
    good |= {"WaitForNonStaleResults": True, "Looks": 64}
    wrong = [None, True, 7, -1, 0, 65, 2**31, "from", "1", "", [], [7], {}]
    whole = ["null", "[]", "7", "{}", '{"query":"from V"}', '{"Query":"from V","Start":1.5}', "{", "[" * 101]
    lines = ["PUT v {}", *(f"ASK {text}" for text in whole)]
    for name in good:
        lines.append("ASK " + model.write_json({other: value for other, value in good.items() if other != name}))
        for value in wrong:
            lines.append("ASK " + model.write_json({**good, name: value}))
            # The first of several faults counts.
            lines += ["ASK " + model.write_json({**good, name: value, other: "x"}) for other in good if other != name]
    yield "members of a question", "\n".join(lines)


def longest() -> Named:
    """Queries at the limits of the language."""
    lines = of_values()
    before = "from index 'Values' where "
    lines.append("QUERY " + before + " or ".join(["true"] * 8_000))
    lines.append("QUERY " + before + " and ".join(["true"] * 7_000))
    conditions = ["(" * 64 + "F = 7" + ")" * 64, "not " * 64 + "F = 7", "exact(" * 64 + "F = 'ada'" + ")" * 64]
    conditions += ["not (" * 32 + "exact(F = 7)" + ")" * 32, "not (" * 32 + "F = 7" + ")" * 32, *(" or ".join(["F = 7"] * count) for count in (63, 64))]
    conditions += [f"F in ({', '.join(map(str, range(9_000)))})", "F = '" + "x" * 65_000 + "'"]
    lines += [f"QUERY {before}{condition} select Letter" for condition in conditions]
    lines.append("QUERY from index 'Values' select " + ", ".join(f"Letter as L{number}" for number in range(64)))
    lines.append("QUERY from index 'Values' order by " + ", ".join(["F", "Letter desc"] * 32))
    lines += [f"QUERY from V include {', '.join(['Letter'] * count)}" for count in (64, 65)]
    for length in (65_535, 65_536, 65_537):
        lines.append("QUERY " + "from V".ljust(length))
    yield "queries at the limits", "\n".join(lines)


def at_the_limits() -> collections.abc.Iterator[tuple[str, bytes]]:
    for scripts_of in (limits, refusals, words, meanings, dates, members, names, reduces, answered, totals, in_order, unanswered, longest):
        for name, script in scripts_of():
            yield name, script.encode() + b"\n"
