"""Maps at each limit of the language."""

import collections.abc

from raven_tools import language

Named = collections.abc.Iterator[tuple[str, str]]


def with_member(value: str) -> str:
    return f"from u in docs.U select new {{ A = {value} }}"


def nested(depth: int) -> Named:
    """Maps with so many parts open within one another, with the names of their kinds."""
    half = depth // 2
    yield "parentheses", with_member("(" * depth + "u" + ")" * depth)
    yield "minus signs", with_member("- " * depth + "u.A.B")
    yield "exclamation marks", with_member("!" * depth + "u")
    yield "conditionals on the left", with_member("u ? " * depth + "1" + " : 2" * depth)
    yield "conditionals on the right", with_member("u ? 1 : " * depth + "2")
    yield "loads", with_member("LoadDocument(" * depth + "u" + ', "C")' * depth)
    yield "mixed parts", with_member("-(" * half + ("!" * (depth % 2)) + "u" + ")" * half)
    yield "parts one after the other", with_member(" + ".join(["(-u)"] * depth))
    yield "a part behind those that are closed", with_member(f"{'(' * depth}u{')' * depth} ? -u : {'(' * depth}u{')' * depth}")
    yield "parts of a where", f"from u in docs.U where {'(' * depth}u{')' * depth} select new {{ u }}"


def counted(count: int) -> Named:
    """Maps with so many operators and points in one clause or member."""
    points, half = ".A" * count, count // 2
    yield "operators", with_member("1" + " + 1" * count)
    yield "points", with_member("u" + points)
    yield "points of a path", f"from u in docs.U select new {{ u{points} }}"
    yield "operators and points", with_member("u" + ".A" * half + " == 1" * (count - half))
    yield "operators of a where", f"from u in docs.U where u{' && u' * count} select new {{ u }}"
    yield "operators of a let", f"from u in docs.U let v = u{' < u' * count} select new {{ u }}"
    two = f"1{' - 1' * count}"
    clauses = f"where {two} let v = {two} let w = {two}"
    yield "operators of each part", f"from u in docs.U {clauses} select new {{ A = {two}, B = {two} }}"
    yield "operators within parts", with_member("(" * 60 + "u" + ".A)" * 60 + " * 1" * (count - 60))
    yield "other marks do not count", with_member("u ? " * 30 + "- 1" + " : 2" * 30 + " * 1" * count)


def of_members(count: int) -> Named:
    names = [f"A{number} = 1" for number in range(count)]
    yield "members", f"from u in docs.U select new {{ {', '.join(names)} }}"
    yield "members and a comma", f"from u in docs.U select new {{ {', '.join(names)}, }}"
    yield "members and two commas", f"from u in docs.U select new {{ {', '.join(names)},, }}"
    yield "members and a mark", f"from u in docs.U select new {{ {', '.join(names)}, = 1 }}"
    yield "members of one name", f"from u in docs.U select new {{ {', '.join(['u'] * count)} }}"


def of_length(length: int) -> Named:
    good = "from u in docs.U select new { u.A }"
    yield "blanks", good + " " * (length - len(good))
    yield "a text", with_member('"' + "x" * (length - len(with_member('""'))) + '"')
    room = length - len(with_member('""'))
    yield "letters of two bytes", with_member('"' + "é" * (room // 2) + '"' + " " * (room % 2))
    yield "nothing of the language", "x" * length


def at_the_limits() -> Named:
    """Texts of maps that are at, below or past a limit, with their names."""
    for extra in (-1, 0, 1, 2):
        cases = [*nested(language.DEEPEST + extra), *counted(language.MOST_OPERATORS + extra)]
        cases += [*of_members(language.MOST_MEMBERS + extra), *of_length(language.LONGEST + extra)]
        for name, text in cases:
            yield f"{name} {extra:+}", text
