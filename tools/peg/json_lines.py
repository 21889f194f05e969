"""What `peglinden` writes with --json, whatever it reads: each line is one JSON object, and a summary comes last."""
import json
import os
import pathlib
import random
import tempfile

from peg import beside, programs, texts

PROGRAM = programs.path("peglinden")
COMMANDS = [
    ["schema"], ["schema", "--adopt"], ["check"], ["typed"], ["fields"], ["lookup", "Query"], ["lookup", "@skip(if:)"],
    ["lookup", "A.b(c:)"], ["format"], ["format", "--check"], ["format", "--write"], ["format", "--write", "--drop-comments"],
]  # fmt: skip
# What takes a schema beside its files.
ON_DOCUMENTS = {"check", "typed", "fields"}
KINDS = {"fault", "refusal", "field", "definition", "text", "changed", "summary"}
# Names of files, and bytes that are no text of GraphQL.
NAMES = ["a.graphql", "b c.graphql", "\u2603.graphql", 'q"uote.graphql', "back\\slash.graphql", "line\nend.graphql", "\x1b[31m.graphql"]
ODD = [b"", b"\xff\xfe", b"{a", b'"""', b"\0", b"type A", b"{ a }", b"extend schema @a", "\ufeff# \u2028".encode(), b'"\\uD800"']


def bytes_of(chance, number):
    """The bytes of a random file: a document, a part of a schema, one of these with something changed, or what is neither."""
    sort = chance.randrange(4)
    if sort == 0:
        return chance.choice(ODD) + chance.randbytes(chance.choice([0, 0, 3]))
    if sort == 1:
        return chance.choice(beside.schema_of_name(f"schema {number}")).encode()
    return chance.choice(list(texts.of_name(f"document {number}")))[2].encode()


def words_of(chance, paths):
    command = chance.choice(COMMANDS)
    if command[0] not in ON_DOCUMENTS:
        return [*command, *chance.choice([paths, [str(pathlib.Path(paths[0]).parent)]])]
    at = chance.randint(1, len(paths) - 1)
    return [*command, *(word for path in paths[:at] for word in ("--schema", path)), *paths[at:]]


def wrong_of(ended):
    """What is wrong with a run."""
    if ended.status not in (0, 1, 2):
        yield f"status {ended.status}"
    if ended.errors:
        yield f"on standard error: {ended.errors[:200]!r}"
    if not ended.output.endswith(b"\n"):
        yield f"no line end: {ended.output[-200:]!r}"
    kinds = []
    for line in ended.output.decode().split("\n")[:-1]:
        try:
            kinds.append(json.loads(line)["type"])
        except (ValueError, TypeError, KeyError) as error:
            yield f"no object with a type: {line[:200]!r}: {error!r}"
    if not {*kinds} <= KINDS or kinds.count("summary") != 1 or kinds[-1] != "summary":
        yield f"types {kinds[:20]}"
    elif json.loads(ended.output.splitlines()[-1])["faults"] < kinds.count("fault"):
        yield "more faults than the summary has"


def trials(count, seed):
    """Of each random run: its name, what is wrong, and its words and files."""
    for number in range(count):
        chance = random.Random(f"json {seed} {number}")
        files = {name: bytes_of(chance, f"{number} of seed {seed}") for name in chance.sample(NAMES, chance.randint(2, 4))}
        with tempfile.TemporaryDirectory() as folder:
            paths = [str(pathlib.Path(folder, name)) for name in files]
            for path, text in zip(paths, files.values()):
                if chance.randrange(12):
                    pathlib.Path(path).write_bytes(text)
            words = [*words_of(chance, paths), "--json"]
            ended = programs.run(PROGRAM, [os.fsencode(word) for word in words], b"")
        yield f"run {number} of seed {seed}", list(wrong_of(ended)), [f"peglinden {words}", *map(repr, files.items())]
