"""`python -m peglinden`: what the program does, but for `format --write`."""

from __future__ import annotations

import argparse
import json
import os
import re
import sys
from typing import Dict, List, NoReturn, Sequence, Tuple

from peglinden import _library, _named

STATUSES = "Exit status: 0 nothing is at fault, 1 something is, 2 a file, a text or the words are refused, 3 out of memory, 4 the output can't be written"
ABOUT = {
    "schema": "Build the schema of files, and print it",
    "check": "Report the faults of a schema and of documents over it",
    "typed": "Print documents as they are typed over a schema",
    "fields": "Print the fields that each operation reaches, and how often they stand there",
    "lookup": "Print the definition that a schema coordinate points to, and where it stands",
    "format": "Print files in the usual layout, without their comments",
}
FLAGS = {
    "json": (_library.JSON, "write JSON, one object a line"),
    "github": (_library.GITHUB, "write workflow commands of GitHub"),
    "adopt": (_library.ADOPT, "take what is extended and not defined as defined"),
    "ignore-builtin": (_library.IGNORE_BUILTIN, "pass over further definitions of built-in types"),
    "check": (_library.CHECK, "print only the names of the files whose text differs"),
}
OWN_FLAGS = {"schema": ["adopt", "ignore-builtin"], "format": ["check"]}


class Once(argparse.Action):
    """An option that is given once at most."""

    def __call__(self, parser, namespace, value, option=None):
        if getattr(namespace, self.dest) is not self.default:
            parser.error(f"{option} is given more than once")
        setattr(namespace, self.dest, value if self.nargs is None else True)


def number(text: str) -> int:
    if not re.fullmatch(r"\+?[0-9]+", text) or int(text) > _library.NO_LIMIT:
        raise argparse.ArgumentTypeError(f"{text!r} is no number from 0 to {_library.NO_LIMIT}")
    return int(text)


def parser() -> argparse.ArgumentParser:
    whole = argparse.ArgumentParser("peglinden", description="Work on files of GraphQL text.", epilog=STATUSES, allow_abbrev=False)
    whole.add_argument("--version", action="version", version="peglinden 0.1.0")
    commands = whole.add_subparsers(dest="command", required=True)
    for name, about in ABOUT.items():
        command = commands.add_parser(name, help=about, description=about, epilog=STATUSES, allow_abbrev=False)
        for flag in [*OWN_FLAGS.get(name, []), "json", "github"]:
            command.add_argument(f"--{flag}", action=Once, nargs=0, default=False, help=FLAGS[flag][1])
        command.add_argument("--max-faults", action=Once, type=number, metavar="N", help="report N faults at most")
        if name == "lookup":
            command.add_argument("coordinate")
        if name in ("check", "typed", "fields"):
            command.add_argument("--schema", action="append", required=True, metavar="FILE", help="a file of the schema")
        command.add_argument("files", nargs="+", metavar="FILE", help="a file, a folder or a pattern; - is standard input")
    return whole


def visible(text: str) -> str:
    return re.sub(r"[\0-\x08\n-\x1f\x7f-\x9f]", "\ufffd", text)


def refused(sentence: str) -> NoReturn:
    print(f"error: {sentence}", file=sys.stderr)
    sys.exit(2)


def read(words: Sequence[str], reasons: Dict[str, str]) -> Tuple[List[Tuple[bytes, bytes]], List[str]]:
    """The files that words name, and those that are named again. It notes why one can't be read."""
    ones, again = _named.named(words)
    texts = [_named.text_of(one) for one in ones]
    reasons.update({one.path: why for one, (_, why) in zip(ones, texts) if why})
    return [(one.path.encode(), text) for one, (text, _) in zip(ones, texts)], again


def with_reasons(printed: bytes, reasons: Dict[str, str]) -> bytes:
    """What is printed, with the reason for each file that can't be read in the place of that its text is none."""
    for path, why in reasons.items():
        in_json = f'"message":"not UTF-8","file":{json.dumps(path, ensure_ascii=False)}'
        pairs = [(f"`{shown}`: not UTF-8", f"`{shown}`: {why}") for shown in (path, visible(path))]
        pairs.append((in_json, in_json.replace("not UTF-8", why, 1)))
        for old, new in pairs:
            printed = printed.replace(old.encode(), new.encode())
    return printed


def asked(given: argparse.Namespace) -> Tuple[_library.Answered, List[str]]:
    """What the words ask for, and the files that they name more than once."""
    words, reasons = [*getattr(given, "schema", []), *given.files], {}
    if words.count("-") > 1:
        refused("standard input (`-`) can be named once")
    if given.json and given.github:
        refused("`--json` and `--github` can't be given together")
    flags = sum(flag for name, (flag, _) in FLAGS.items() if getattr(given, name.replace("-", "_"), False))
    lists = [read(names, reasons) for names in (getattr(given, "schema", None), given.files) if names]
    coordinate = [given.coordinate.encode()] if given.command == "lookup" else []
    answered = _library.ask(f"peg_{given.command}", *coordinate, *(files for files, _ in lists), flags=flags, limit=given.max_faults)
    printed = (with_reasons(text, reasons) for text in answered[1:])
    return _library.Answered(answered.status, *printed), [path for _, again in lists for path in again]


def main() -> NoReturn:
    try:
        for word in sys.argv[1:]:
            word.encode()
    except UnicodeEncodeError:
        refused("a word of the command line is not UTF-8")
    try:
        words = sys.argv[1:]
        answered, again = asked(parser().parse_args([*words[1:2], "--help"] if words[:1] == ["help"] else words))
    except MemoryError:
        print("error: out of memory", file=sys.stderr)
        sys.exit(3)
    for path in again:
        print(f"warning: `{visible(path)}` is named more than once, and read once", file=sys.stderr)
    sys.exit(end(answered))


def end(answered: _library.Answered) -> int:
    """Writes what is printed, and answers the exit status."""
    try:
        sys.stdout.buffer.write(answered.output)
        sys.stdout.buffer.flush()
    except OSError as wrong:
        if not isinstance(wrong, BrokenPipeError):
            print(f"error: cannot write output: {_named.reason(wrong)}", file=sys.stderr)
        # That it can't be written once more, at the end, is no matter.
        os.dup2(os.open(os.devnull, os.O_WRONLY), sys.stdout.fileno())
        return 4
    sys.stderr.flush()
    sys.stderr.buffer.write(answered.errors)
    return answered.status


if __name__ == "__main__":
    main()
