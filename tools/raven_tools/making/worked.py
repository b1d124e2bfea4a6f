"""Cases of the language of definitions that were worked out by hand. `tools/test_language.py` compares the language with them,
`tools/check-text-cases.py` the table of `crates/text_cases`, and `case_scripts` makes scripts of them."""

from raven_tools import language

BEFORE = "from u in docs.U select new { A = "
# Before an expression in which `a`, `b` and `c` are bound.
AROUND = "from a in docs.U let b = 1 let c = 2 select new { X = "

# Texts, the kinds of their tokens, and the places of these.
TOKENS = [
    ("a.b==1", "name mark name mark number end", [0, 1, 2, 3, 5, 6]),
    ("", "end", [0]),
    ("from o", "name name end", [0, 5, 6]),
    ("<==", "mark mark end", [0, 2, 3]),
    ("===>", "mark mark end", [0, 2, 4]),
    ("= =", "mark mark end", [0, 2, 3]),
    ("!==", "mark mark end", [0, 2, 3]),
    ("12ab", "number name end", [0, 2, 4]),
    ("a1", "name end", [0, 2]),
    ("007", "number end", [0, 3]),
    ("1.5", "number mark number end", [0, 1, 2, 3]),
    ('"a""b"', "text text end", [0, 3, 6]),
    ('"é" x', "text name end", [0, 5, 6]),
    ('x "open', "name bad", [0, 2]),
    ('"a\\x"', "bad", [0]),
    ('"a\tb"', "bad", [0]),
    ('"a\x7f"', "bad", [0]),
    ('"\\"', "bad", [0]),
    ("a & b", "name bad", [0, 2]),
    ("a && b", "name mark name end", [0, 2, 5, 6]),
    ("&&&", "mark bad", [0, 2]),
    ("9223372036854775807 x", "number name end", [0, 20, 21]),
    ("9223372036854775808 x", "bad name end", [0, 20, 21]),
    ("0000000000000000000000009", "number end", [0, 25]),
    ("9" * 5000, "bad end", [0, 5000]),
    ("'a'", "bad", [0]),
    ("a\u00a0b", "name bad", [0, 1]),
    (" \t\r\n", "end", [4]),
    ("a\x0bb", "name bad", [0, 1]),
    ("//", "mark mark end", [0, 1, 2]),
]

# Texts, with the place and the kind of their refusal, or with none.
REFUSED = [
    ("from u in docs.Users select new { v.Name }", 34, "UnknownName"),
    ("from u in docs.Users where u.Age > select new { u.Name }", 35, "Unexpected"),
    ("from u in docs.Users select new { from }", 39, "Unexpected"),
    ("from u in docs.Users select new { u.Name, Name = 1 }", 42, "DuplicateField"),
    ("from u in docs.Users let u = 1 select new { u.Name }", 25, "UnknownName"),
    ("", 0, "Unexpected"),
    ("from", 4, "Unexpected"),
    ("from  ", 6, "Unexpected"),
    ("From u in docs.U select new { u }", 0, "Unexpected"),
    ("from in in docs.U select new { u }", 5, "Unexpected"),
    ("from u in doc.U select new { u }", 10, "Unexpected"),
    ("from u in docs.@empty select new { u }", 15, "Unexpected"),
    ("from u in docs where u select new { u }", 15, "Unexpected"),
    ("from u in docs.U select { u }", 24, "Unexpected"),
    ("from u in docs.U select new { }", 30, "Unexpected"),
    ("from u in docs.U select new { u,, }", 32, "Unexpected"),
    ("from u in docs.U select new { u } x", 34, "Unexpected"),
    ("from u in docs.U select new { u };", 33, "Unexpected"),
    ("from u in docs.U select new { u", 31, "Unexpected"),
    ("from u in docs.U select new { u.A.1 }", 34, "Unexpected"),
    ("from u in docs.U select new { u + 1 }", 32, "Unexpected"),
    ("from u in docs.U select new { (u) }", 30, "Unexpected"),
    ("from u in docs.U select new { true }", 35, "Unexpected"),
    ("from u in docs.U let v 1 select new { u }", 23, "Unexpected"),
    ("from u in docs.U let where = 1 select new { u }", 21, "Unexpected"),
    ("from u in docs.U where u where select new { u }", 31, "Unexpected"),
    # Of names the first in the text counts. The name of a `let` is bound after its value.
    ("from u in docs.U let v = v select new { u }", 25, "UnknownName"),
    ("from u in docs.U let u = x select new { u }", 21, "UnknownName"),
    ("from u in docs.U let v = x let u = 1 select new { u }", 25, "UnknownName"),
    ("from u in docs.U let v = 1 let v = 2 select new { v }", 31, "UnknownName"),
    ("from u in docs.U where v let v = 2 select new { v }", 23, "UnknownName"),
    ("from u in docs.U select new { A = U.B }", 34, "UnknownName"),
    # A member that is there twice is reported after any name, and before both what no rule takes.
    ("from u in docs.U select new { u.A, A = 1, B = v }", 46, "UnknownName"),
    ("from u in docs.U select new { u.A, A = v, B = ; }", 46, "Unexpected"),
    ("from u in docs.U select new { u.A, A = 1, B = 2, B = 3 }", 35, "DuplicateField"),
    ("from u in docs.U select new { u, A = 1, u.u }", 40, "DuplicateField"),
    # Places are counted in bytes.
    ('from u in docs.U where u == "é" select new { v }', 46, "UnknownName"),
    # Expressions.
    (BEFORE + "a b }", 36, "Unexpected"),
    (BEFORE + "12ab }", 36, "Unexpected"),
    (BEFORE + "1 = 2 }", 36, "Unexpected"),
    (BEFORE + "1 => 2 }", 36, "Unexpected"),
    (BEFORE + "! = 2 }", 36, "Unexpected"),
    (BEFORE + "+ 1 }", 34, "Unexpected"),
    (BEFORE + "u ? 1 }", 40, "Unexpected"),
    (BEFORE + "u ? 1, }", 39, "Unexpected"),
    (BEFORE + "u : 1 }", 36, "Unexpected"),
    (BEFORE + "() }", 35, "Unexpected"),
    (BEFORE + "(1, 2) }", 36, "Unexpected"),
    (BEFORE + "LoadDocument }", 47, "Unexpected"),
    (BEFORE + 'LoadDocument("C") }', 50, "Unexpected"),
    (BEFORE + 'LoadDocument(u, u) }', 50, "Unexpected"),
    (BEFORE + 'LoadDocument(u, "C" + "D") }', 54, "Unexpected"),
    (BEFORE + 'LoadDocument(u, "C", "D") }', 53, "Unexpected"),
    (BEFORE + "LoadDocument.A }", 46, "Unexpected"),
    (BEFORE + "select }", 34, "Unexpected"),
    (BEFORE + "true.false.v }", None, None),
    (BEFORE + '"a".Year }', None, None),
    (BEFORE + "-9223372036854775808 }", 35, "Unexpected"),
    (BEFORE + "- - !-u.from ? -1 : - 1 }", None, None),
    ("from u in docs.from select new { from = 1, LoadDocument = 2, u.select }", None, None),
    # The length comes first, and of the other limits a token that no rule takes.
    (" " * 65_536, 65_536, "Unexpected"),
    (" " * 65_537, 65_536, "TooLarge"),
    ("é" * 32_769, 65_536, "TooLarge"),
    (BEFORE + "(" * 65 + "; }", 98, "TooLarge"),
    (BEFORE + "(" * 64 + "; }", 98, "Unexpected"),
    (BEFORE + "(" * 64 + "v.(", 100, "Unexpected"),
    (BEFORE + "v" + "(" * 65, 35, "Unexpected"),
    (BEFORE + "1" + " + 1" * 256 + " ; }", 34 + 1 + 4 * 256 + 1, "Unexpected"),
    (BEFORE + "1" + " + 1" * 256 + " + ; }", 34 + 1 + 4 * 256 + 1, "TooLarge"),
]

# Expressions, and how they are printed, behind AROUND.
PRINTED = [
    ("a-b-c", "(a - b) - c"),
    ("a-(b-c)", "a - (b - c)"),
    ("1 + 2 * 3", "1 + (2 * 3)"),
    ("(1 + 2) * 3", "(1 + 2) * 3"),
    ("a / b % c * 4", "((a / b) % c) * 4"),
    ("1 < 2 + 3", "1 < (2 + 3)"),
    ("1 < 2 <= 3 > 4 >= 5", "(((1 < 2) <= 3) > 4) >= 5"),
    ("a == b < c != 4", "(a == (b < c)) != 4"),
    ("a || b && c == 4", "a || (b && (c == 4))"),
    ("a && b || c", "(a && b) || c"),
    ("a||b&&c==1<2+3*-4", "a || (b && (c == (1 < (2 + (3 * (-4))))))"),
    ("a*b+c>1!=c||b", "((((a * b) + c) > 1) != c) || b"),
    ("(((a || b) && c) != 4) == 7", "(((a || b) && c) != 4) == 7"),
    ("- -a", "-(-a)"),
    ("!!a", "!(!a)"),
    ("!a.B", "!a.B"),
    ("(-a).B", "(-a).B"),
    ("a - -b", "a - (-b)"),
    ("!a.b && -c * 4", "(!a.b) && ((-c) * 4)"),
    ("a ? 1 : b ? 2 : 3", "a ? 1 : (b ? 2 : 3)"),
    ("a ? b ? 1 : 2 : 3", "a ? (b ? 1 : 2) : 3"),
    ("a || b ? 1 : 2", "(a || b) ? 1 : 2"),
    ("(a ? b : c) ? 4 : 5", "(a ? b : c) ? 4 : 5"),
    ("a ? b ? c ? 4 : 5 : 6 ? 7 : 8 : 9", "a ? (b ? (c ? 4 : 5) : (6 ? 7 : 8)) : 9"),
    ("(a ? b : c).D", "(a ? b : c).D"),
    ("((a)).B", "a.B"),
    ("(a + b).C", "(a + b).C"),
    ("a.from.select", "a.from.select"),
    ("1.x", "1.x"),
    ("007", "7"),
    ("9223372036854775807", "9223372036854775807"),
    ("00000000000000000000009223372036854775807", "9223372036854775807"),
    ("true?null:false", "true ? null : false"),
    ("false == null", "false == null"),
    ('"x"+true', '"x" + true'),
    ('""', '""'),
    ('"a\\"\\\\\\n\\r\\té/"', '"a\\"\\\\\\n\\r\\té/"'),
    ('"é€𝄞"', '"é€𝄞"'),
    ('"// no \'end\'"', '"// no \'end\'"'),
    ('LoadDocument ( a.B + "/" , "C" ) .D', 'LoadDocument(a.B + "/", "C").D'),
    ('!LoadDocument(a ? b : c, "C\\"")', '!LoadDocument(a ? b : c, "C\\"")'),
    ('LoadDocument(LoadDocument(a, "").B, "C")', 'LoadDocument(LoadDocument(a, "").B, "C")'),
]

# The map of the reduces below.
REDUCED_MAP = "from o in docs.Orders select new { o.Company, Total = o.Cents }"
FROM = "from r in results group r by r.Company into g select new { "

# Reduces, and how they are printed.
PRINTED_REDUCES = [
    (FROM + "Company = g.Key, Total = g.Sum(x => x.Total) }", FROM + "Company = g.Key, Total = g.Sum(x => x.Total) }"),
    (
        "from r in results group r by new{r.Company}into g select new{g.Key.Company,Total=g.Min(x=>x.Total),}",
        FROM + "Company = g.Key, Total = g.Min(x => x.Total) }",
    ),
    (
        "from by1 in results group by1 by new { by1.Total, by1.Company } into all select new { Total = all.Key.Total, all.Key.Company }",
        "from by1 in results group by1 by new { by1.Total, by1.Company } into all select new { Total = all.Key.Total, Company = all.Key.Company }",
    ),
    (
        "from r in results group r by new { r.Company, r.Company } into g select new { g.Key.Company, Total = g.Max(r1 => r1.Total) }",
        "from r in results group r by new { r.Company, r.Company } into g select new { Company = g.Key.Company, Total = g.Max(r1 => r1.Total) }",
    ),
]

# Reduces, with the part, the place and the kind of their refusal behind REDUCED_MAP.
REDUCED = [
    (FROM + "Company = g.Key }", "Reduce", 0, "FieldsDiffer"),
    (FROM + "Company = g.Key, Total = g.Sum(x => x.Total), Count = g.Sum(x => x.Count) }", "Reduce", 0, "FieldsDiffer"),
    (FROM + "Company = g.Key, Total = g.Sum(x => x.Cents) }", "Reduce", 76, "NotReducible"),
    (FROM + "Company = g.Key, Total = g.Key }", "Reduce", 76, "NotReducible"),
    (FROM + "Company = g.Min(x => x.Company), Total = g.Sum(x => x.Total) }", "Reduce", 29, "NotReducible"),
    # A member comes before the key, though the key is first in the text.
    (FROM + "Total = g.Key, Company = g.Min(x => x.Company) }", "Reduce", 59, "NotReducible"),
    (
        "from r in results group r by new { r.Company, r.Total } into g select new { g.Key.Company, Total = g.Max(x => x.Total) }",
        "Reduce",
        29,
        "NotReducible",
    ),
    (
        "from r in results group r by new { r.Company } into g select new { g.Key.Company, g.Key.Total }",
        "Reduce",
        82,
        "NotReducible",
    ),
    (FROM + "Company = g.Key, Total = g.Sum(x => y.Total) }", "Reduce", 95, "UnknownName"),
    (FROM + "Company = g.Key, Total = g.Sum(g => g.Total) }", "Reduce", 90, "UnknownName"),
    (FROM + "Company = g.Key, Total = g.Sum(r => r.Total) }", "Reduce", 90, "UnknownName"),
    (FROM + "Company = g.Key, Total = g.Sum(x => g.Total) }", "Reduce", 95, "UnknownName"),
    ("from r in results group r by q.Company into g select new { Company = g.Key }", "Reduce", 29, "UnknownName"),
    ("from r in results group r by new { r.Company, g.Total } into g select new { Company = g.Key.Company }", "Reduce", 46, "UnknownName"),
    ("from r in results group q by q.Company into r select new { Company = r.Key }", "Reduce", 24, "UnknownName"),
    ("from r in results group r by r.Company into r select new { Company = r.Key }", "Reduce", 44, "UnknownName"),
    (FROM + "Company = g.Key, Company = g.Key }", "Reduce", 76, "DuplicateField"),
    (FROM + "Company = r.Key }", "Reduce", 69, "Unexpected"),
    (FROM + "Company = g.Key, Total }", "Reduce", 82, "Unexpected"),
    ("", "Reduce", 0, "Unexpected"),
    ("from r", "Reduce", 6, "Unexpected"),
    ("From r", "Reduce", 0, "Unexpected"),
    ("from by in results", "Reduce", 5, "Unexpected"),
    ("from o in docs.Orders", "Reduce", 10, "Unexpected"),
    ("from r in results group r by r into g", "Reduce", 31, "Unexpected"),
    ("from r in results group r by r.A.B into g", "Reduce", 32, "Unexpected"),
    ("from r in results group r by select.A into g", "Reduce", 29, "Unexpected"),
    ("from r in results group r by new r.A", "Reduce", 33, "Unexpected"),
    ("from r in results group r by new {}", "Reduce", 34, "Unexpected"),
    ("from r in results group r by new {r.A,}", "Reduce", 38, "Unexpected"),
    ("from r in results group r by new {r.A r.B}", "Reduce", 38, "Unexpected"),
    ("from r in results group r by r.A, r.B into g", "Reduce", 32, "Unexpected"),
    ("from r in results group r by r.A into select", "Reduce", 38, "Unexpected"),
    ("from r in results group r by r.A into g where", "Reduce", 40, "Unexpected"),
]

# Members of reduces by their keys, with the places and the kinds, counted from the first member.
KEYED = {
    "from r in results group r by r.A into g select new {": [
        ("g=g.Key}", None, "FieldsDiffer"),
        ("from=g.Max(e=>e.new)}", None, "FieldsDiffer"),
        ("X=g.Min(e=>f.P)}", 11, "UnknownName"),
        ("X=g.Sum(e=>e.P),Y=g.Sum(e=>e.Q)}", None, "FieldsDiffer"),
        ("X=g.Key.A}", 7, "Unexpected"),
        ("g.Key.A}", 1, "Unexpected"),
        ("r.Key}", 1, "Unexpected"),
        ("X=r.Key}", 2, "Unexpected"),
        ("X=G.Key}", 2, "Unexpected"),
        ("X=g.key}", 4, "Unexpected"),
        ("X=g.sum(e=>e.P)}", 4, "Unexpected"),
        ("X=g.Count(e=>e.P)}", 4, "Unexpected"),
        ("X=g.Sum(in=>e.P)}", 8, "Unexpected"),
        ("X=g.Sum(e=>by.P)}", 11, "Unexpected"),
        ("X=g.Sum(e=>e)}", 12, "Unexpected"),
        ("X=g.Sum(e=>e.P.Q)}", 14, "Unexpected"),
        ("X=g.Sum()}", 8, "Unexpected"),
        ("X=g.Sum.P}", 7, "Unexpected"),
        ("X=g.Key(e=>e.P)}", 7, "Unexpected"),
        ("X=g}", 3, "Unexpected"),
        ("X==g.Key}", 1, "Unexpected"),
        ("X=1}", 2, "Unexpected"),
        ("1=g.Key}", 0, "Unexpected"),
        ("}", 0, "Unexpected"),
        ("X=g.Key Y=g.Key}", 8, "Unexpected"),
        ("X=g.Key,,}", 8, "Unexpected"),
        ("X=g.Key", 7, "Unexpected"),
        ("X=g.Key}x", 8, "Unexpected"),
        # Behind 64 members of eight bytes each.
        ("a=g.Key," * 64 + "}", 8, "DuplicateField"),
        ("a=g.Key," * 64 + "b=g.Key}", 512, "TooLarge"),
        ("a=g.Key," * 64 + "b", 512, "TooLarge"),
        ("a=g.Key," * 64 + "1", 512, "Unexpected"),
        ("a=g.Key," * 64, 512, "Unexpected"),
    ],
    "from r in results group r by new{r.A} into g select new {": [
        ("X=g.Key,Y=g.Key.A,g.Key.A}", None, "FieldsDiffer"),
        ("g.Key.Z,}", None, "FieldsDiffer"),
        ("X=g.Key.in}", None, "FieldsDiffer"),
        ("g=g.Key}", None, "FieldsDiffer"),
        ("g.Key}", 5, "Unexpected"),
        ("g.Sum(e=>e.P)}", 2, "Unexpected"),
        ("r.Key.A}", 1, "Unexpected"),
        ("g.Key.A.B}", 7, "Unexpected"),
    ],
    "from r in results group r by new{r.A,r.B} into g select new {": [
        ("X=g.Key.B,g.Key.A}", None, "FieldsDiffer"),
        ("X=g.Key,}", 7, "Unexpected"),
        ("X=g.Key}", 7, "Unexpected"),
    ],
}
for _head, _members in KEYED.items():
    REDUCED += [(_head + text, "Reduce", 0 if at is None else len(_head) + at, kind) for text, at, kind in _members]

# The map of the reduces below, which have a quotient.
MEAN_MAP = "from o in docs.Orders select new { o.Company, Total = o.Cents, Count = 1, Mean = 0 }"
SUMMED = FROM + "Company = g.Key, Total = g.Sum(x => x.Total), Count = g.Sum(x => x.Count), Mean = "

# Such reduces, and how they are printed.
PRINTED_MEANS = [
    (SUMMED + "g.Sum(x => x.Total) / g.Sum(x => x.Count) }", SUMMED + "g.Sum(x => x.Total) / g.Sum(x => x.Count) }"),
    (SUMMED + "g.Sum(x=>x.Count)/g.Sum(y=>y.Count),}", SUMMED + "g.Sum(x => x.Count) / g.Sum(y => y.Count) }"),
    (
        "from r in results group r by new { r.Company } into g select new { Mean = g.Sum(a => a.Total) / g . Sum ( b => b . Count ), "
        "g.Key.Company, Count = g.Sum(x => x.Count), Total = g.Sum(x => x.Total) }",
        FROM + "Mean = g.Sum(a => a.Total) / g.Sum(b => b.Count), Company = g.Key, Count = g.Sum(x => x.Count), Total = g.Sum(x => x.Total) }",
    ),
]

# Behind `Mean = ` of such a reduce: the places, counted from there, and the kinds.
MEANS = [
    ("g.Sum(x => x.Total) / g.Sum(x => x.Mean) }", -7, "NotReducible"),
    ("g.Sum(x => x.Mean) / g.Sum(x => x.Count) }", -7, "NotReducible"),
    ("g.Sum(x => x.Total) / g.Sum(x => x.Company) }", -7, "NotReducible"),
    ("g.Sum(x => x.Total) / g.Sum(x => x.Other) }", -7, "NotReducible"),
    ("g.Sum(x => x.Total) }", -7, "NotReducible"),
    ("g.Sum(x => y.Total) / g.Sum(x => x.Count) }", 11, "UnknownName"),
    ("g.Sum(x => x.Total) / g.Sum(x => y.Count) }", 33, "UnknownName"),
    ("g.Sum(x => x.Total) / g.Sum(r => r.Count) }", 28, "UnknownName"),
    ("g.Sum(x => x.Total) / g.Sum(g => g.Count) }", 28, "UnknownName"),
    ("g.Min(x => x.Total) / g.Sum(x => x.Count) }", 20, "Unexpected"),
    ("g.Sum(x => x.Total) / g.Max(x => x.Count) }", 24, "Unexpected"),
    ("g.Sum(x => x.Total) / g.Key }", 24, "Unexpected"),
    ("g.Key / g.Sum(x => x.Count) }", 6, "Unexpected"),
    ("g.Sum(x => x.Total) / r.Sum(x => x.Count) }", 22, "Unexpected"),
    ("g.Sum(x => x.Total) / 2 }", 22, "Unexpected"),
    ("g.Sum(x => x.Total) / }", 22, "Unexpected"),
    ("g.Sum(x => x.Total) * g.Sum(x => x.Count) }", 20, "Unexpected"),
    ("g.Sum(x => x.Total) / g.Sum(x => x.Count) / g.Sum(x => x.Count) }", 42, "Unexpected"),
    ("(g.Sum(x => x.Total) / g.Sum(x => x.Count)) }", 0, "Unexpected"),
    ("g.Sum(x => x.Total) /", 21, "Unexpected"),
]

# Totals and counts of entries, and the quotient of their sums.
QUOTIENTS = [
    ([-4, -3], [1, 1], -3), ([7], [2], 3), ([7], [-2], -3), ([-7], [2], -3), ([-7], [-2], 3), ([1], [2], 0), ([-1], [2], 0), ([6], [3], 2),
    ([0], [5], 0), ([5], [0], None), ([0], [0], None), ([5, 1], [1, -1], None), ([], [], None), ([None, "7", True], [1], 0), ([9], [None, "2", True], None),
    ([2**63 - 1] * 3, [1], 3 * (2**63 - 1)), ([-(2**63)] * 2, [-1], 2**64), ([-(2**63)], [-1], 2**63),
]

# A map and a reduce, each of which is refused by itself.
BOTH = [
    ("from o in docs.Orders select new { x.Company, Total = o.Cents }", FROM + "Company = g.Key, Total }", "Reduce", 82, "Unexpected"),
    ("from o in docs.Orders select new { x.Company, Total = x.Cents }", FROM + "Company = q.Key }", "Reduce", 69, "Unexpected"),
    ("from o in docs.Orders select { x }", FROM + "Company = q.Key }", "Map", 29, "Unexpected"),
    ("from o in docs.Orders select new { x.Company }", "from r in results group q by r.A into g select new { A = g.Key }", "Map", 35, "UnknownName"),
    ("from o in docs.Orders select new { o.A, A = 1 }", "from r in results group q by r.A into g select new { A = g.Key }", "Reduce", 24, "UnknownName"),
    ("from o in docs.Orders select new { o.A, A = 1 }", "from r in results group r by r.A into g select new { A = g.Key, A = g.Key }", "Map", 40, "DuplicateField"),
    ("from o in docs.Orders select new { o.A }", "from r in results group r by r.B into g select new { B = g.Key, B = g.Key }", "Reduce", 64, "DuplicateField"),
    ("from o in docs.Orders select new { o.A }", "from r in results group r by r.B into g select new { C = g.Key }", "Reduce", 0, "FieldsDiffer"),
    (";", " " * 65_537, "Reduce", 65_536, "TooLarge"),
    (" " * 65_537, " " * 65_537, "Map", 65_536, "TooLarge"),
]

# A document, and what expressions over it give. A member that is a list or an object is null.
BODY = {
    "@metadata": {},
    "A": {"B": {"C": 5}, "L": [1, True, {"X": None}]},
    "D": "1997-09-19T10:11:12Z",
    "E": "",
    "F": False,
    "L": [1, 1, {"X": None}],
    "M": [1, True, {"X": None}],
    "N": 7,
    "P": "é",
    "S": "Ada",
    "T": True,
    "Z": 0,
}
GREATEST, FAILS = language.GREATEST, "fails"
MEANING = [
    ("u.N + 1", 8), ("u.N - 8", -1), ("u.N * -2", -14), ("u.N / 2", 3), ("-u.N / 2", -3), ("u.N / -2", -3), ("-7 / -2", 3),
    ("u.N % 2", 1), ("-u.N % 2", -1), ("u.N % -2", 1), ("-7 % -2", -1), ("0 / 5", 0), ("-1 / 2", 0),
    ("9223372036854775807 + 0", GREATEST), ("9223372036854775807 + 1", FAILS), ("-9223372036854775807 - 1", -(2**63)),
    ("-9223372036854775807 - 2", FAILS), ("-(-9223372036854775807 - 1)", FAILS), ("(-9223372036854775807 - 1) / -1", FAILS),
    ("(-9223372036854775807 - 1) % -1", 0), ("(-9223372036854775807 - 1) * -1", FAILS), ("4294967296 * 4294967296", FAILS),
    ("u.N / 0", FAILS), ("u.N % 0", FAILS), ("u.N / u.Z", FAILS), ("u.N / u.Gone", None), ("u.S / 0", None),
    ("u.Gone % 0", None), ("u.S + u.P", "Adaé"), ("u.S + 1", None), ("1 + u.S", None), ("u.S - u.S", None), ("u.T + 1", None),
    ("u.T * u.T", None), ("null + null", None), ("-u.S", None), ("-u.T", None), ("-u.Gone", None), ("- -u.N", 7),
    ("!u.T", False), ("!u.F", True), ("!u.N", True), ("!u.Gone", True), ("!!u.N", False), ("u.N == 7", True),
    ("u.N != 7", False), ("u.T == 1", False), ("u.F == 0", False), ("u.S == \"ada\"", False), ("u.S == \"Ada\"", True),
    ("u.Gone == null", True), ("u.Z == null", False), ("u.E == null", False), ("u == u", True), ("u.A == u", False),
    ("u.L == u.L", True), ("u.L == u.M", False), ("u.A.L == u.M", True), ("u.A.L != u.L", True), ("u.L == null", False),
    ("u.N < 8", True), ("u.N <= 7", True), ("u.N > 7", False), ("u.N >= 7", True), ("-1 < 0", True), ("u.S < \"B\"", True),
    ("u.S < u.P", True), ("u.S < \"a\"", True), ("u.S >= \"Ada\"", True), ("u.E < u.S", True),
    ("\"\U0001f426\" > \"\uffff\"", True), ("u.N < u.S", False), ("u.N >= u.S", False), ("u.T <= u.T", False),
    ("u.Gone <= 1", False), ("u.Gone >= u.Gone", False), ("u.F < u.T", False), ("u.L <= u.L", False), ("u.T && u.T", True),
    ("u.T && u.N", False), ("u.N && u.T", False), ("u.F || u.T", True), ("u.N || u.S", False), ("u.T || u.N / 0 == 1", True),
    ("u.F && u.N / 0 == 1", False), ("u.N && u.N / 0 == 1", False), ("u.T && u.N / 0 == 1", FAILS),
    ("u.F || u.N / 0 == 1", FAILS), ("u.T ? 1 : u.N / 0", 1), ("u.T ? u.N / 0 : 1", FAILS), ("u.N ? 1 : 2", 2),
    ("u.Gone ? 1 : 2", 2), ("u.N / 0 ? 1 : 2", FAILS), ("u.F ? 1 : u.T ? 2 : 3", 2), ("u.A.B.C", 5), ("u.A.B", None),
    ("u.A.X.Y", None), ("u.N.X", None), ("u.L.X", None), ("u.S.Name", None), ("u.A", None), ("u.L", None), ("u", None),
    ("u.D.Year", 1997), ("u.D.Month", 9), ("u.D.Day", 19), ("u.D.Hour", None), ("u.D.year", None), ("u.S.Year", None),
    ("u.N.Year", None), ("\"1815-12-10\".Year", 1815), ("(\"1815-12\" + \"-10\").Month", 12), ("u.A.Year", None),
    ("1 + u.N / 0 * 0", FAILS), ("null == (u.N / 0)", FAILS), ("true", True), ("false", False), ("null", None),
    ("\"a\"", "a"), ("1 < 2 == true", True), ("1 + 2 * 3", 7), ("(1 + 2) * 3", 9), ("10 - 2 - 3", 5), ("100 / 10 / 2", 5),
    ("2 * 7 % 4", 2),
]

# Texts that are the last day of February 2020, and texts that are no date.
LEAP_DAYS = """
2020-02-29 | 20200229 | 2020-02-29Z | 2020-02-29T10 | 2020-02-29t10 | 2020-02-29 10 | 2020-02-29T10:11 | 2020-02-29T1011
2020-02-29T10:11:12 | 2020-02-29T101112 | 20200229T10:11:12 | 2020-02-29T10:11:60 | 2020-02-29T10:11:12.1
2020-02-29T10:11:12,123456789 | 2020-02-29T101112.1 | 2020-02-29T10:11Z | 2020-02-29T10Z | 2020-02-29T00:00:00.0000000Z
2020-02-29T23:59:59.999999999Z | 2020-02-29T10+05 | 2020-02-29T10:11-05:30 | 2020-02-29T10:11+0530 | 2020-02-29T10:11+05:30:15
2020-02-29T10:11+053015.5 | 2020-02-29T10:11+25:59:59 | 2020-02-29T10:11-00:00 | 2020-02-29T10:11+05:30Z
2020-02-29[Europe/Paris] | 2020-02-29T10:11[Europe/Paris] | 2020-02-29T10:11+01:00[Europe/Paris] | 2020-02-29[!Europe/Paris]
2020-02-29[u-ca=hebrew] | 2020-02-29T10:11[UTC][u-ca=hebrew] | 2020-02-29T10:11[u-ca=hebrew][_a=b-c-1]
2020-02-29T10:11[+05:30] | 2020-02-29T10:11[-05] | 2020-02-29T10:11[+0530] | 2020-02-29T10:11[Etc/GMT+5]
2020-02-29T10:11[_a.b/_c] | 2020-02-29T10:11[UTC]Z | 2020-02-29T10:11[Z] | +002020-02-29 | +0020200229
"""
NO_DATES = """
Z | T10 | 10:11 | 2020 | 2020-02 | 202002 | 2020-02-9 | 2020-2-29 | 2020-02-30 | 2019-02-29 | 2020-00-01 | 2020-13-01
2020-01-00 | 2020-01-32 | 2020-04-31 | 1900-02-29 | 2020-0229 | 202002-29 | 2020/02/29 | 2020-02-29ZZ | 2020-02-29z
2020-02-29zZ | 2020-02-29T | 2020-02-29T1 | 2020-02-29T24 | 2020-02-29T10: | 2020-02-29T10:1 | 2020-02-29T10:60
2020-02-29T101 | 2020-02-29T10:1112 | 2020-02-29T1011:12 | 2020-02-29T10:11:61 | 2020-02-29T10:11: | 2020-02-29T10:11:12.
2020-02-29T10:11:12.1234567890 | 2020-02-29T10:11.5 | 2020-02-29T10:11ZZ | 2020-02-29T10:11z | 2020-02-29T10:11zZ
2020-02-29T10:11Z[UTC] | 1997-09-19T10:11Z[UTC] | 2020-02-29+05:00 | 2020-02-29-05 | 2020-02-29T10:11+5 | 2020-02-29T10:11+26
2020-02-29T10:11+05:60 | 2020-02-29T10:11+05: | 2020-02-29T10:11+ | 2020-02-29T10:11+05:3015 | 2020-02-29T10:11+0530:15
2020-02-29T10:11+05.5 | 2020-02-29[] | 2020-02-29[!u-ca=x] | 2020-02-29[u-ca=] | 2020-02-29[u-ca=x-] | 2020-02-29[U-ca=x]
2020-02-29[UTC][UTC] | 2020-02-29[u-ca=x][UTC] | 2020-02-29[UTC | 2020-02-29[Europe/] | 2020-02-29[/Paris] | 2020-02-29[1]
2020-02-29[+5] | 2020-02-29[+05:30:15] | 2020-02-29[+26] | -000000-01-01 | +2020-02-29 | 002020-02-29 | +012020-02-29
2020-02-29T10:11 Z | 2020-02-29x | x2020-02-29 | 2020-02-29  10 | 2020-02-29TT10 | 2020-02-29T-10 | 2020-02-29T10:11[a b]
2020–02–29
"""


def texts_of(table: str) -> list[str]:
    return [text for line in table.strip().split("\n") for text in line.split(" | ")]


LEAP_DAYS, NO_DATES = texts_of(LEAP_DAYS), texts_of(NO_DATES)
NO_DATES += ["", " 2020-02-29", "2020-02-29 ", "2020-02-29\n", "٢٠٢٠-02-29", "2020-02-29T10:11Z\n", "-000001-02-29"]
# Other years, whose sign counts.
YEARS = [("0000-01-01", 0), ("0000-02-29", 0), ("9999-12-31", 9999), ("+009999-12-31", 9999), ("-009999-12-31", -9999)]
YEARS += [("-000004-02-29", -4), ("+000000-01-01", 0), ("1997-09-19T10:11", 1997)]
