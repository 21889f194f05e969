"""GraphQL schemas and documents: read, checked and printed, by a library that is proved.

    schema = peglinden.Schema.from_text("type Query { book: String }")
    for fault in schema.check("{ book pages }"):
        print(fault.line, fault.column, fault.message)

A document is a text, or a file: a `pathlib.Path` that is read, or a `File` in memory. Calls may run on any threads at once, and run
without the interpreter's lock. They raise `Refused` where a file is no GraphQL text, and `MemoryError`.
"""

from __future__ import annotations

import dataclasses
import os
import pathlib
from typing import Any, List, Optional, Sequence, Tuple, Union

from peglinden import _library
from peglinden._found import Definition, Fault, FieldUsage, NoCoordinate, Path, Refused, Root, found_in
from peglinden._library import version

__all__ = [
    "Definition", "Document", "Fault", "FieldUsage", "File", "NoCoordinate", "Path", "Printed", "Refused", "Root", "Schema", "format",
    "version",
]  # fmt: skip


@dataclasses.dataclass(frozen=True)
class File:
    """A file in memory. The path is only a name, for what is said of it."""

    path: str
    text: Union[str, bytes]

    @classmethod
    def read(cls, path: Union[str, "os.PathLike[str]"]) -> File:
        return cls(os.fspath(path), pathlib.Path(path).read_bytes())


Document = Union[str, File, "os.PathLike[str]"]


@dataclasses.dataclass(frozen=True)
class Printed:
    """GraphQL text, and what is at fault beside it."""

    text: str
    faults: Tuple[Fault, ...]


def _file(document: Document, number: int) -> File:
    if isinstance(document, str):
        return File(f"document{number}.graphql", document)
    return document if isinstance(document, File) else File.read(document)


def _files(documents: Sequence[Document]) -> List[Tuple[bytes, bytes]]:
    """Files as the library takes them. A path that is no text can't be given."""
    files = [_file(document, number) for number, document in enumerate(documents, 1)]
    texts = [file.text.encode() if isinstance(file.text, str) else file.text for file in files]
    return [(file.path.encode(), text) for file, text in zip(files, texts)]


def _asked(name: str, *given: Any, flags: int = 0, limit: Optional[int] = None) -> dict[str, List[Any]]:
    answered = _library.ask(name, *given, flags=_library.JSON | flags, limit=limit)
    found = found_in(answered.output)
    if found["refusal"]:
        raise Refused(found["refusal"])
    if answered.status == 2:
        raise NoCoordinate(answered.errors.decode().removeprefix("error: ").rstrip("\n"))
    return found


class Schema:
    """The schema of some files. Each call reads them anew; they are kept in memory."""

    def __init__(self, files: Sequence[File]):
        self._files = _files(files)

    @classmethod
    def from_files(cls, *paths: Union[str, "os.PathLike[str]"]) -> Schema:
        """The schema of files that are read now."""
        return cls([File.read(path) for path in paths])

    @classmethod
    def from_text(cls, text: Union[str, bytes], path: str = "schema.graphql") -> Schema:
        return cls([File(path, text)])

    def build(self, *, adopt: bool = False, ignore_builtin: bool = False, max_faults: Optional[int] = None) -> Printed:
        """The schema as text, and its faults. With `adopt` what has extensions and no definition is taken as defined, and with
        `ignore_builtin` further definitions of built-in types are passed over."""
        flags = _library.ADOPT * adopt | _library.IGNORE_BUILTIN * ignore_builtin
        found = _asked("peg_schema", self._files, flags=flags, limit=max_faults)
        return Printed("".join(found["text"]), tuple(found["fault"]))

    def check(self, *documents: Document, max_faults: Optional[int] = None) -> List[Fault]:
        """The faults of the schema, and of these documents over it."""
        return _asked("peg_check", self._files, _files(documents), limit=max_faults)["fault"]

    def typed(self, *documents: Document, max_faults: Optional[int] = None) -> Printed:
        """These documents, typed over the schema, as text, and the faults of both."""
        found = _asked("peg_typed", self._files, _files(documents), limit=max_faults)
        return Printed("".join(found["text"]), tuple(found["fault"]))

    def fields(self, *documents: Document) -> List[FieldUsage]:
        """The fields that each operation of these documents reaches."""
        return _asked("peg_fields", self._files, _files(documents))["field"]

    def lookup(self, coordinate: str) -> Optional[Definition]:
        """What a schema coordinate, as `Book.title`, points to. None where that is nothing; `NoCoordinate` is raised where it is no
        coordinate."""
        found = _asked("peg_lookup", coordinate.encode(), self._files)["definition"]
        return found[0] if found else None


def format(document: Document) -> str:
    """A document in the usual layout, without its comments."""
    return "".join(_asked("peg_format", _files([document]))["text"])
