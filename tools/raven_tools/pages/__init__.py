"""The pages of docs/ that are made from the sources, whole or between marks: each module makes one of them."""

import collections.abc
import pathlib

from raven_tools.pages import believed, crate_map, figures, gate, house, laws
from raven_tools.places import TOP

# Each page with what makes its text anew from its text as it stands.
PAGES: dict[pathlib.Path, collections.abc.Callable[[str], str]] = {
    TOP / "docs" / name: made
    for name, made in {
        "believed.md": believed.page,
        "gate.md": gate.page,
        "house.svg": house.page,
        "laws.md": laws.page,
        "map.md": crate_map.page,
        "performance.md": figures.page,
    }.items()
}


def differing() -> dict[pathlib.Path, str]:
    """The pages that are not what is made, with what is."""
    found = {}
    for file, made in PAGES.items():
        text = file.read_text() if file.exists() else ""
        new = made(text)
        if new != text:
            found[file] = new
    return found
