"""docs/laws.md: the laws of all crates, with the names of their clauses."""

from raven_tools.crates_file import rows_of
from raven_tools.pages.sources import Item, offer_of
from raven_tools.places import TOP

HEAD = """# The laws

A law is a function without a body: its contract is a theorem about the definitions, and it holds of all code that follows them. Each stands
here in the words of the comment above it, and in brackets are the names of its clauses, if they have names. [map.md](map.md) says what each crate is, and
[guarantees.md](guarantees.md) what all of this is worth together. What a crate can be asked is what `src/lib.rt` of it exports; the
clauses of a call stand at the function. `tools/pages.py --write` makes this page."""


def line_of(item: Item) -> str:
    """A law in words. Of clauses without a name it is enough that there are some."""
    named = [f"`{name}`" for name in item.clauses if name != "-"]
    return f"- `{item.name}`: {item.comment}" + (f" [{', '.join(named)}]" if named else "")


def laws_of(offer: list[Item]) -> list[str]:
    return [line_of(item) for item in offer if item.is_law]


def page(_: str) -> str:
    crates = [row.name for row in reversed(rows_of(TOP / "crates.txt")[0])]
    # The laws of the server come first, as they are what all others serve.
    ranked = sorted(crates, key=lambda crate: crate != "raven_laws")
    found = {crate: laws_of(offer_of(crate)) for crate in ranked}
    return "\n\n".join([HEAD, *(f"## Laws of `{crate}`\n\n" + "\n".join(laws) for crate, laws in found.items() if laws)]) + "\n"
