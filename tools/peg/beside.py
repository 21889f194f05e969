"""What `peglinden` writes of GraphQL texts, beside graphql-js: what `format` prints of each, or the report of why it is refused,
and the types of the schema that `schema` prints of some.

Differences that are known are those of `peg.texts`, and those of `EXPLAINED`, which are counted. Any other one is wrong.
"""
import collections
import itertools
import json
import os
import pathlib
import random
import re
import subprocess
import tempfile

from peg import Usage, programs, texts
from peg.schemas import SchemaMaker

PROGRAM = programs.path("peglinden")
SCRIPT = pathlib.Path(__file__).with_name("beside.js")
EXPLAINED = {
    "unbuilt": "schemas that graphql-js can't build",
    "faulty": "schemas that both refuse",
    "orphan": "extensions of a schema that isn't there",
}
explained = collections.Counter()
SORTS = ["document", "schema"]
# The parts of a report of a text on standard input.
REPORT = re.compile(r"error: (.*)\n +--> -:(\d+):(\d+)\n.*\n.*\n[\t |]*(\^+)\n\n1 fault\n")
# How many characters a line has that is shown whole; of a longer one so many are shown before the marks, and from them on.
WHOLE_LINE, BEFORE_MARKS, FROM_MARKS = 160, 60, 100
CONTROL = re.compile(r"[\x00-\x08\n-\x1f\x7f-\x9f]")
LINE = re.compile(r"(?<=\n)|(?<=\r)(?!\n)")
ESCAPED = re.compile(r"""[^ -~]|["'\\]""")
SHORT = {"\t": r"\t", "\n": r"\n", "\r": r"\r", '"': r"\"", "'": r"\'", "\\": r"\\"}


def escaped(text):
    """A text as `gqltext` shows it."""
    return '"' + ESCAPED.sub(lambda it: SHORT.get(it[0]) or r"\u{%x}" % ord(it[0]), text) + '"'


def shown(line, at):
    """What is shown of a line before a place, and from it on: all of it, or of a long one a part."""
    first, last = (max(at - BEFORE_MARKS, 0), at + FROM_MARKS) if len(line) > WHOLE_LINE else (0, len(line))
    before = "..." * (first > 0) + line[first:at]
    behind = line[at:last] + "..." * (last < len(line))
    return CONTROL.sub("\ufffd", before), CONTROL.sub("\ufffd", behind)


def report(said, number, column, marks, line):
    """A report as it is to be, over the line that it shows, without its end."""
    width = " " * len(number)
    before, behind = shown(line, int(column) - 1)
    under = re.sub(r"[^\t]", " ", before)
    excerpt = f" {width}--> -:{number}:{column}\n {width} |\n {number} | {before}{behind}\n {width} | {under}{marks}\n"
    return f"error: {said}\n{excerpt}\n1 fault\n"


def refusal(text, told):
    """Where a report says that a text is refused, and why, in the words of `gqltext`; or the report itself, where it isn't as it is
    to be."""
    found = REPORT.fullmatch(told)
    if not found:
        return told
    said, number, column, marks = found.groups()
    lines = LINE.split(text)
    line, at = lines[int(number) - 1], int(column) - 1
    if told != report(said, number, column, marks, line.rstrip("\r\n")):
        return told
    start = len("".join([*lines[: int(number) - 1], line[:at]]).encode())
    return f"refused {start} {start + len(line[at:][: len(marks)].encode())} {said}"


def formatted(text):
    """What `format` answers to a text, in the words of `gqltext print`."""
    ended = programs.run(PROGRAM, [b"format", b"-"], text.encode())
    written, told = ended.output.decode(), ended.errors.decode()
    if (ended.status, told) == (0, "") and written.endswith("\n"):
        return f"text {escaped(written[:-1])} again"
    return refusal(text, told) if (ended.status, written) == (2, "") else f"{ended}"


def of_documents(named):
    """What is wrong with what `format` answers to each text."""
    theirs = texts.theirs(["print", "document"], [text for _, text in named])
    for (name, text), peer in itertools.zip_longest(named, theirs):
        yield name, texts.wrong_of(formatted(text), peer or "nothing"), [text]


def written_schema(files):
    """The run of `schema` over files of these texts. graphql-js passes over built-in definitions."""
    with tempfile.TemporaryDirectory() as folder:
        paths = [pathlib.Path(folder, f"{number}.graphql") for number in range(len(files))]
        for path, text in zip(paths, files):
            path.write_bytes(text.encode())
        return programs.run(PROGRAM, [b"schema", b"--ignore-builtin", *map(os.fsencode, paths)], b"")


def wrong_of_schema(ended, peer):
    """What is wrong with a run of `schema`, of which graphql-js says so much."""
    if ended.status == 0 and not peer.get("unbuilt"):
        return peer["differences"]
    faults = {*re.findall(rb"^error: (.*)", ended.errors, re.MULTILINE)}
    if ended.status == 0:
        explained["unbuilt"] += 1
    elif not peer["accepted"]:
        explained["faulty"] += 1
    elif faults == {b"schema extension without a schema definition"}:
        explained["orphan"] += 1
    else:
        return [f"accepted by graphql-js: {ended}"]
    return []


def of_schemas(named):
    """What is wrong with the schema that `schema` prints of the texts of each name."""
    runs = [written_schema(files) for _, files in named]
    asked = json.dumps([[files, ended.output.decode()] for (_, files), ended in zip(named, runs)])
    answers = json.loads(subprocess.run(["node", SCRIPT], input=asked.encode(), stdout=subprocess.PIPE).stdout or "[]")
    for (name, files), ended, peer in itertools.zip_longest(named, runs, answers):
        yield name, wrong_of_schema(ended, peer) if peer else ["graphql-js has ended"], files


def schema_of_name(name):
    """The texts of the files of a random schema."""
    chance = random.Random(name)
    parts = [texts.laid_out(chance, item) for item in SchemaMaker(chance).schema()]
    files = [[] for _ in range(chance.randint(1, 3))]
    for part in parts:
        chance.choice(files).append(part)
    return ["\n".join(file) for file in files if file]


def trials(names):
    documents = [(name, text) for it in names if it.startswith("document") for name, _, text in texts.of_name(it)]
    schemas = [(name, schema_of_name(name)) for name in names if name.startswith("schema")]
    yield from of_documents([*documents, *((name, text) for name, files in schemas for text in files)])
    yield from of_schemas(schemas)


def of_files(paths):
    """What is wrong with files, each by itself, and with the schema of each."""
    try:
        named = [(path, pathlib.Path(path).read_bytes().decode()) for path in paths]
    except OSError as error:
        raise Usage(f"{error.filename}: {error.strerror}") from error
    yield from of_documents(named)
    yield from of_schemas([(path, [text]) for path, text in named])


def told():
    return [*texts.told(), *(f"explained: {EXPLAINED[reason]}: {count}" for reason, count in sorted(explained.items()))]
