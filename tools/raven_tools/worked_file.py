"""Cases of runs with what has to be printed of them, in one file: behind the lines of a case stands `prints`, and then what is printed.

There too lines may have marks, and be there several times, as in `<3 LINE`.
"""

import dataclasses

from raven_tools import case_file


@dataclasses.dataclass
class Worked:
    """The lines of a case, and what has to be printed of it."""

    lines: list[str] = dataclasses.field(default_factory=list)
    printed: str = ""


class Reader:
    """Reads the cases line by line."""

    def __init__(self):
        self.cases: list[Worked] = []
        self.is_printed = False
        self.written = b""

    def line(self, line: str) -> None:
        if line.startswith("== "):
            self.end()
            self.cases.append(Worked([line], f"{line}\n"))
            self.is_printed = False
        elif line == "prints":
            self.is_printed = True
        elif self.is_printed:
            self.printed_line(line)
        elif self.cases:
            self.cases[-1].lines.append(line)

    def printed_line(self, line: str) -> None:
        """What is written is put together first, since its lines may be there several times."""
        if not line or line.startswith("#"):
            return
        if line.startswith(("<", ">", "| ")):
            self.written += case_file.part_of(line)
        else:
            self.put_together()
            self.cases[-1].printed += f"{line}\n"

    def put_together(self) -> None:
        if self.cases:
            self.cases[-1].printed += case_file.printed_output(self.written)
        self.written = b""

    def end(self) -> None:
        self.put_together()
        if self.cases:
            self.cases[-1].printed += "\n"


def read(text: str) -> list[Worked]:
    reader = Reader()
    for line in text.split("\n"):
        reader.line(line)
    reader.end()
    return reader.cases


def stdin_of(cases: list[Worked]) -> str:
    """The cases as the program `raven_cases` reads them."""
    return "".join(line + "\n" for case in cases for line in case.lines)


def stdout_of(cases: list[Worked]) -> str:
    """What it has to print of them."""
    return "".join(case.printed for case in cases)
