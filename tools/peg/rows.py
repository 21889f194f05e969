"""Rows: runs of `gqltool`, each with what is to come of it (docs/NOTATION.md, "Rows")."""
from dataclasses import dataclass, field

from peg import CRATES, TOP


@dataclass
class Row:
    title: str
    place: str
    words: list = field(default_factory=list)
    given: str = ""
    output: str = ""
    errors: str = ""
    status: int = 0


def read(path):
    """The rows of a file. A carriage return and what else ends lines elsewhere are parts of a text."""
    row = None
    for number, line in enumerate(path.read_bytes().decode().split("\n"), 1):
        mark, text = line[:1], line[2:]
        if mark == "*":
            row = Row(text, f"{path.relative_to(TOP)}:{number}")
            yield row
        elif mark == "$":
            row.words.append(text)
        elif mark == "<":
            row.given += text + "\n"
        elif mark == "\\":
            row.given = row.given[:-1]
        elif mark == ">":
            row.output += text + "\n"
        elif mark == "!":
            row.errors += text + "\n"
        elif mark == "?":
            row.status = int(text)


def worked():
    """The rows of all files that `gqlrows` reads."""
    return [row for path in sorted((CRATES / "gqlrows/data").glob("*.rows")) for row in read(path)]
