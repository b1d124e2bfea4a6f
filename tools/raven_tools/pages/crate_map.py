"""The made parts of docs/map.md: the crates by subject and by floor, and the pages."""

import pathlib
import re

from raven_tools.crates_file import floors_of, rows_of, subjects_of
from raven_tools.pages import marks
from raven_tools.pages.sources import purpose_of
from raven_tools.places import TOP

CRATES_FILE = TOP / "crates.txt"
# The pages in the order in which to read them, by why they are read.
READING = {
    "To use it": "tour serving http documents queries index-language replacing operating studio messages script reliability measure",
    "To judge it": "glossary guarantees definitions values json query-language index-text http-rules server-inside keeping laws believed performance DECISIONS",
    "To change it": "map adding desk turn indexes paged-map exact-parsing cases gate",
}


def subjects() -> str:
    """Each subject with its crates and what they are."""
    parts = [
        f"**{subject}**\n\n" + "\n".join(f"- `{name}`: {purpose_of(name)}" for name in names)
        for subject, names in subjects_of(CRATES_FILE).items()
    ]
    return "\n\n".join(parts)


def floors() -> str:
    """The floors, the highest first, each with its crates."""
    rows, titles = rows_of(CRATES_FILE)
    found, _ = floors_of(rows)
    return "\n".join(
        f"- {floor}, {titles.get(floor, '')}: {', '.join(f'`{row.name}`' for row in rows if found[row.name] == floor)}"
        for floor in range(max(found.values()), 0, -1)
    )


def title_of(page: pathlib.Path) -> str:
    head = re.search(r"^# (.*)$", page.read_text(), re.MULTILINE)
    return head[1] if head else ""


def pages() -> str:
    """Each page with its title. Those without a place in the order come last."""
    titles = {file.stem: title_of(file) for file in sorted((TOP / "docs").glob("*.md"))}
    ordered = {why: [name for name in names.split() if name in titles] for why, names in READING.items()}
    placed = {name for names in ordered.values() for name in names}
    ordered["Without a place in this order"] = [name for name in titles if name not in placed]
    parts = {why: "\n".join(f"- [{name}.md]({name}.md): {titles[name]}" for name in names) for why, names in ordered.items() if names}
    return "\n\n".join(f"**{why}**\n\n{lines}" for why, lines in parts.items())


PARTS = {"subjects": subjects, "floors": floors, "pages": pages}


def page(text: str) -> str:
    for name, made in PARTS.items():
        text = marks.replaced(text, name, made())
    return text
