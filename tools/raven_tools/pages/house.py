"""docs/house.svg: the crates, their subjects across and their floors up, with the longest chain as a thick line."""

import collections.abc
import html
import textwrap

from raven_tools.crates_file import Row, floors_of, longest_chain, rows_of, subjects_of
from raven_tools.places import TOP

# In pixels: a column, a box in it, from a box to the next in its cell, the space between floors, and what is left of and above all cells.
COLUMN, BOX, HEIGHT, STEP, GAP, LEFT, TOP_EDGE = 138, 118, 18, 22, 24, 34, 48
STYLE = """text { font: 11px sans-serif; fill: #222; text-anchor: middle }
.name { font-family: monospace }
.box { fill: #fff; stroke: #888 }
.floor { stroke: #e4e4e4 }
.rests { stroke: #ccd3da; fill: none }
.chain { stroke: #b5382a; stroke-width: 3; fill: none }
.chained { fill: #fbe9e6; stroke: #b5382a }"""


class House:
    """Where each crate stands."""

    def __init__(self, rows: list[Row], subjects: dict[str, list[str]]):
        self.rows, self.subjects = rows, list(subjects)
        self.floors, _ = floors_of(rows)
        self.chain = longest_chain(rows, self.floors)
        column_of = {name: column for column, names in enumerate(subjects.values()) for name in names}
        self.cells: dict[tuple[int, int], list[str]] = {}
        for row in rows:
            self.cells.setdefault((self.floors[row.name], column_of[row.name]), []).append(row.name)
        self.tops = self._tops()
        self.corners = {
            name: (LEFT + column * COLUMN, self.tops[floor] + at * STEP)
            for (floor, column), names in self.cells.items()
            for at, name in enumerate(names)
        }

    def _tops(self) -> dict[int, int]:
        """The upper edge of each floor, and that of the ground as floor 0."""
        tops, edge = {}, TOP_EDGE
        for floor in range(max(self.floors.values()), 0, -1):
            tops[floor] = edge
            edge += STEP * max(len(names) for (at, _), names in self.cells.items() if at == floor) + GAP
        return {**tops, 0: edge}

    def frame(self) -> collections.abc.Iterator[str]:
        """The subjects above, and the floors with their numbers."""
        width = LEFT + COLUMN * len(self.subjects)
        for column, subject in enumerate(self.subjects):
            for at, line in enumerate(textwrap.wrap(subject, 20)):
                yield f'<text x="{LEFT + column * COLUMN + BOX // 2}" y="{14 + at * 13}">{html.escape(line)}</text>'
        for floor, edge in self.tops.items():
            line = edge - GAP // 2
            yield f'<path class="floor" d="M0 {line}H{width}"/>'
            if floor:
                yield f'<text x="14" y="{edge + 13}">{floor}</text>'

    def line(self, kind: str, low: str, high: str) -> str:
        """A line from the upper edge of a crate to the lower edge of one that stands on it."""
        (x, y), (above, upper) = self.corners[low], self.corners[high]
        return f'<path class="{kind}" d="M{x + BOX // 2} {y}L{above + BOX // 2} {upper + HEIGHT}"/>'

    def rests(self) -> collections.abc.Iterator[str]:
        """From each crate to those of the floor below that it lists: these decide where it stands."""
        for row in self.rows:
            for dep in row.deps:
                if self.floors.get(dep) == self.floors[row.name] - 1:
                    yield self.line("rests", dep, row.name)

    def boxes(self) -> collections.abc.Iterator[str]:
        for name, (x, y) in self.corners.items():
            kind = "box chained" if name in self.chain else "box"
            yield f'<rect class="{kind}" x="{x}" y="{y}" width="{BOX}" height="{HEIGHT}" rx="3"/>'
            yield f'<text class="name" x="{x + BOX // 2}" y="{y + 13}">{name}</text>'

    def drawn(self) -> str:
        width, height = LEFT + COLUMN * len(self.subjects), self.tops[0]
        chain = [self.line("chain", low, high) for low, high in zip(self.chain, self.chain[1:])]
        return "\n".join(
            [
                f'<svg xmlns="http://www.w3.org/2000/svg" viewBox="0 0 {width} {height}" width="{width}" height="{height}">',
                "<title>The crates: subjects across, floors up, and the longest chain</title>",
                f"<style>{STYLE}</style>",
                f'<rect width="{width}" height="{height}" fill="#fff"/>',
                *self.frame(),
                *self.rests(),
                *chain,
                *self.boxes(),
                "</svg>\n",
            ]
        )


def page(_: str) -> str:
    file = TOP / "crates.txt"
    return House(rows_of(file)[0], subjects_of(file)).drawn()
