"""The cases of `peglinden` as calls of the library: what their words ask for, over the files that these name."""
import contextlib
import importlib
import io
import sys
from typing import NamedTuple
from unittest import mock

from peg import TOP, bindings

CASES = TOP / "tools/cases"


class Call(NamedTuple):
    """A call: its command, flags, limit (None for none) and coordinate, and its lists of files, each a path and a text."""

    name: str
    command: str
    flags: int
    limit: int | None
    coordinate: bytes
    lists: list

    def parts(self):
        """What peg/library_calls.c reads of it."""
        first, second = [*self.lists, []][:2]
        texts = [self.command.encode(), b"%d" % self.flags, b"" if self.limit is None else b"%d" % self.limit, self.coordinate]
        texts += [b"%d" % len(first), b"%d" % len(second), *(part for file in [*first, *second] for part in file)]
        return b"".join(b"%d\n%s" % (len(text), text) for text in texts)


def program():
    """Python's own reading of the words of a command line, from the sources. It loads no library."""
    sys.path.insert(0, str(bindings.PYTHON))
    try:
        return importlib.import_module("peglinden.__main__")
    finally:
        sys.path.pop(0)


def folders():
    return sorted(path for path in CASES.iterdir() if (path / "words").is_file())


def stored(folder):
    """The exit status that is stored of a case, and both outputs."""
    parts = [(folder / name).read_bytes() if (folder / name).is_file() else b"" for name in ("status", "output", "errors")]
    return int(parts[0] or b"0"), parts[1], parts[2]


def words_of(folder):
    return (folder / "words").read_text().splitlines()


def parsed(words):
    """What words ask for, or None where they call for help or are a mistake."""
    with contextlib.redirect_stderr(io.StringIO()), contextlib.redirect_stdout(io.StringIO()):
        try:
            return program().parser().parse_args(words)
        except SystemExit:
            return None


def call_of(folder):
    """The call of a case, or None where it isn't one: words that ask for nothing, files that can't be read or are named again."""
    given = parsed(words_of(folder))
    if not given or given.json and given.github:
        return None
    main, reasons = program(), {}
    own_input = io.TextIOWrapper(io.BytesIO((folder / "input").read_bytes() if (folder / "input").is_file() else b""))
    with contextlib.chdir(folder), mock.patch.object(sys, "stdin", own_input):
        lists = [main.read(words, reasons) for words in (getattr(given, "schema", None), given.files) if words]
    if reasons or any(again for _, again in lists) or [*getattr(given, "schema", []), *given.files].count("-") > 1:
        return None
    flags = sum(flag for name, (flag, _) in main.FLAGS.items() if getattr(given, name.replace("-", "_"), False))
    coordinate = given.coordinate.encode() if given.command == "lookup" else b""
    return Call(folder.name, given.command, flags, given.max_faults, coordinate, [files for files, _ in lists])


def calls():
    """Each case that is a call, by its folder."""
    return {folder: call for folder in folders() if (call := call_of(folder))}


def small():
    """A small call of each command, of which each request for memory is refused in turn."""
    schema, document = (b"a.graphql", b"type Query { a: Int }"), (b"b.graphql", b"{ a b }")
    typed = [Call(name, name, 0, None, b"", [[schema], [document]]) for name in ("check", "typed", "fields")]
    return [
        Call("schema", "schema", 1, None, b"", [[schema]]),
        *typed,
        Call("lookup", "lookup", 0, None, b"Query.a", [[schema]]),
        Call("format", "format", 0, None, b"", [[document]]),
    ]
