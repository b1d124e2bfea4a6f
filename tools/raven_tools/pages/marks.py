"""The parts of a page that are made, each between two comments with its name."""


def begin(name: str) -> str:
    return f"<!-- {name}: made, see tools/pages.py -->"


def end(name: str) -> str:
    return f"<!-- {name}: end -->"


def cut(page: str, name: str) -> tuple[str, str, str]:
    """What stands before the part of this name, in it, and after it."""
    before, first, rest = page.partition(begin(name))
    part, last, after = rest.partition(end(name))
    if not first or not last:
        raise ValueError(f"the page lacks the line {begin(name)} or the line {end(name)}")
    return before, part, after


def replaced(page: str, name: str, part: str) -> str:
    before, _, after = cut(page, name)
    return f"{before}{begin(name)}\n\n{part.strip()}\n\n{end(name)}{after}"
