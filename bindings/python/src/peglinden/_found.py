"""What calls find, as they say it in JSON: docs/JSON.md."""

from __future__ import annotations

import dataclasses
import json
from typing import Any, Iterable, Mapping, Optional, Tuple


@dataclasses.dataclass(frozen=True)
class Root:
    """A definition of a document. The name of an anonymous operation is None."""

    kind: str
    name: Optional[str]


@dataclasses.dataclass(frozen=True)
class Path:
    """Where a selection stands: in which definition, and below which response keys."""

    root: Root
    keys: Tuple[str, ...]


@dataclasses.dataclass(frozen=True)
class Fault:
    """What is wrong, and where. Lines and columns count from 1, and `end_column` is the first behind it. What isn't known, or isn't
    there, is None. `details` has what else is known of this kind."""

    kind: str
    message: str
    file: Optional[str]
    line: Optional[int]
    column: Optional[int]
    end_line: Optional[int]
    end_column: Optional[int]
    path: Optional[Path]
    details: Mapping[str, Any] = dataclasses.field(default_factory=dict, hash=False)

    def __str__(self) -> str:
        return f"{self.file}:{self.line}:{self.column}: {self.message}" if self.line else self.message


@dataclasses.dataclass(frozen=True)
class FieldUsage:
    """A field that an operation reaches, how often it stands there, and where it is defined."""

    operation: Root
    coordinate: str
    field_type: str
    count: int
    file: Optional[str]
    line: Optional[int]
    column: Optional[int]
    end_line: Optional[int]
    end_column: Optional[int]


@dataclasses.dataclass(frozen=True)
class Definition:
    """What a coordinate points to, as GraphQL text, and where it stands."""

    coordinate: str
    text: str
    file: Optional[str]
    line: Optional[int]
    column: Optional[int]
    end_line: Optional[int]
    end_column: Optional[int]


class Refused(Exception):
    """Files that are no GraphQL text. `refusals` says of each which one it is, where, and why."""

    def __init__(self, refusals: Iterable[Fault]):
        self.refusals = tuple(refusals)
        super().__init__("\n".join(map(str, self.refusals)))


class NoCoordinate(ValueError):
    """A text that is no schema coordinate."""


def path_of(told: Optional[Mapping[str, Any]]) -> Optional[Path]:
    return told and Path(Root(**told["root"]), tuple(told["keys"]))


def fault_of(told: Mapping[str, Any]) -> Fault:
    names = [field.name for field in dataclasses.fields(Fault)][:-1]
    known = {name: told[name] for name in names} | {"path": path_of(told["path"])}
    return Fault(**known, details={name: value for name, value in told.items() if name not in (*names, "type")})


def made_of(kind: type, told: Mapping[str, Any]) -> Any:
    """One of these dataclasses, of what is told of it."""
    values = {field.name: told[field.name] for field in dataclasses.fields(kind)}
    return kind(**values | ({"operation": Root(**told["operation"])} if "operation" in values else {}))


MADE_BY = {
    "fault": fault_of,
    "refusal": fault_of,
    "field": lambda told: made_of(FieldUsage, told),
    "definition": lambda told: made_of(Definition, told),
    "text": lambda told: told["text"],
    "changed": lambda told: told["file"],
    "summary": lambda told: told,
}


def found_in(output: bytes) -> dict[str, list[Any]]:
    """What is told in lines of JSON, by its sort."""
    found: dict[str, list[Any]] = {sort: [] for sort in MADE_BY}
    for line in output.splitlines():
        told = json.loads(line)
        found[told["type"]].append(MADE_BY[told["type"]](told))
    return found
