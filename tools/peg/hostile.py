"""Large and strange inputs, each at two sizes: what comes of them, and that the time grows as what is read, said and walked.

Texts of coordinates longer than a command line may have are run as rows, by `gqlrows`, and GraphQL texts are read by `gqltext`
and `peglinden`.
"""
import re
from typing import Callable, NamedTuple

from peg import programs

QUERY = b"def object Query\nfield q Query\nfield a Int\n===\n"
# A larger size may take so many times the time for each byte or turn; times below this many seconds say nothing.
AT_MOST, SECONDS = 3, 0.1


class Hostile(NamedTuple):
    """The words of a run, its input of any size, whether a run is right, two sizes, and the program."""

    words: list
    text: Callable
    is_right: Callable
    sizes: tuple = (250_000, 1_000_000)
    program: str = "gqltool"


def ends(status, output=b"", errors=b""):
    """Whether a run ends so, whatever its size."""
    return lambda size, run: run.answer == (status, output, errors)


def twice_defined(size, run):
    faults = b"".join(b"fault %d the type `T` is defined multiple times in the schema\n" % line for line in range(2, size + 1))
    return run.answer == (1, b"def object T\n" + faults, b"")


def twice_named(size, run):
    fault = b"fault %d the operation `Q` is defined multiple times in the document\n"
    faults = b"".join(fault % line for line in range(7, 5 + 2 * size, 2))
    return run.answer == (1, b"operation query Q\nsel 0 field a\n" + faults, b"")


def ring(size):
    """Fragments that spread one another in a ring; one of them has a field."""
    fragments = [b"fragment F%d Query\nsel 0 spread F%d\n" % (at, (at + 1) % size) for at in range(size)]
    return QUERY + b"operation query Q\nsel 0 spread F0\n" + b"".join(fragments) + b"sel 0 field a\n"


def is_ring_walked(size, run):
    """Each walk opens each fragment once, and the one it starts in once more."""
    turns = [int(it) for it in re.findall(rb"(?m)^all-turns ([0-9]+)$", run.output)]
    walks = run.output.count(b"\nwalk fragment ")
    return run.status == 0 and walks == size and len(turns) == size + 1 and max(turns) <= 2 * (size + 3) + 1


def nested(size):
    """So many aliases of one field, each with that field nested under them so deep."""
    chain = b"".join(b"sel %d field q a%d\n" % (depth, depth) for depth in range(1, size))
    chains = [b"sel 0 field q a%d\n%ssel %d field a\n" % (alias, chain, size) for alias in range(size)]
    return QUERY + b"operation query -\n" + b"".join(chains)


def coordinate(text, answer):
    """A row: a text of this size, and what is to come of it."""

    def row(size):
        return b"* a long text\n$ coord\n$ %s\n%s\n" % (text(size), answer(size))

    return Hostile([], row, ends(0, b"1 rows, 0 differ\n"), program="gqlrows")


def unknown(size):
    name = b"T" * size
    return b"> attribute %s.%s\n> missing type `%s` does not exist\n? 1" % (name, name, name)


def lines(line):
    return lambda size: line * size


def framed(text):
    return b"%d\n%s" % (len(text), text)


def read(text, told, sizes=(250_000, 1_000_000)):
    """A value that is read: its text, and the tree behind its place."""

    def is_right(size, run):
        return run.answer == (0, b"tree 0..%d %s \n" % (len(text(size)), told(size)), b"")

    return Hostile([b"value"], lambda size: framed(text(size)), is_right, sizes, "gqltext")


def listed(size, step, length, told):
    """A list of so many values of this length, each so far behind the one before."""
    return b"list [ %s]" % b"".join(b"%d..%d %b " % (at, at + length, told) for at in range(1, 1 + step * size, step))


def refused(words, part, answer):
    """So many times the same, as a text that is refused so."""
    return Hostile(words.split(), lambda size: framed(part * size), ends(0, b"refused %s\n" % answer), program="gqltext")


def unended(size):
    """A block string of this many escaped quotes, without its end."""
    return b'"""' + b'\\"""' * size


def is_unended(size, run):
    end = len(unended(size))
    return run.answer == (0, b"refused %d %d unterminated string\n" % (end, end), b"")


def is_nested(size, run):
    """Brackets are read where no more of them are open than may be."""
    lists = b"".join(b"%d..%d list [ " % (at, 2 * size - at) for at in range(size))
    answer = b"tree " + lists + b"] " * size if size <= AT_ONCE else b"refused %d %d nested too deeply" % (AT_ONCE, AT_ONCE + 1)
    return run.answer == (0, answer + b"\n", b"")


def letters(size):
    return b"def object " + b"T" * size + b"\n"


def scalars(size, between=b"\n"):
    return between.join(b"scalar T%d" % at for at in range(size)) + b"\n"


def braces(size, run):
    """A report of the second one, which shows the first hundred behind it of the line that they are."""
    shown = b"  --> -:1:2\n   |\n 1 | %b...\n   |  ^\n" % (b"{" * 101)
    return run.answer == (2, b"", b"error: expected a selection, found `{`\n%b\n1 fault\n" % shown)


def defined_again(size, run):
    """A report of each definition but the first, which shows no long line, and how many there are."""
    reports = run.errors.count(b"error: the type `T` is defined multiple times in the schema\n")
    longest = max(len(line) for line in run.errors.split(b"\n"))
    are_counted = run.errors.endswith(b"\n%d faults\n" % (size - 1))
    return (run.status, run.output, reports) == (1, b"scalar T\n", size - 1) and are_counted and longest < 200


IS_UNKNOWN = ends(2, errors=b"line 1: unknown line\n")
# How many signs may be open at once in a GraphQL text.
AT_ONCE = 200
LONG = (2_500_000, 10_000_000)
SCHEMA, DOC, WALK = [b"schema"], [b"doc"], [b"walk"]
CASES = {
    "definitions of one name": Hostile(SCHEMA, lines(b"def object T\n"), twice_defined, (25_000, 100_000)),
    "operations of one name": Hostile(
        DOC, lambda size: QUERY + b"operation query Q\nsel 0 field a\n" * size, twice_named, (10_000, 40_000)
    ),
    "fragments in a ring, walked from each": Hostile(WALK, ring, is_ring_walked, (1_000, 4_000)),
    "aliases, and levels below each": Hostile(
        DOC, nested, lambda size, run: run.answer == (0, nested(size)[len(QUERY) :], b""), (75, 150)
    ),
    "the same, walked": Hostile(
        WALK, nested, lambda size, run: run.status == 0 and run.output.count(b"\nall ") == size * (size + 1), (75, 150)
    ),
    "letters of a name": Hostile(SCHEMA, letters, lambda size, run: run.answer == (0, letters(size), b"")),
    "letters of an unknown word": Hostile(SCHEMA, lines(b"T"), IS_UNKNOWN),
    "NUL bytes": Hostile(SCHEMA, lines(b"\0"), IS_UNKNOWN),
    "spaces at the end of a line": Hostile(
        SCHEMA, lambda size: b"def object T" + b" " * size, ends(2, errors=b"line 1: wrong number of words\n")
    ),
    "brackets of a type": Hostile(
        SCHEMA, lambda size: b"def object T\nfield a " + b"[" * size, ends(2, errors=b"line 2: bad word\n")
    ),
    "line feeds": Hostile(DOC, lines(b"\n"), ends(2, errors=b"missing ===\n")),
    "ends of documents": Hostile(SCHEMA, lines(b"---\n"), ends(0)),
    "letters of each part of a coordinate": coordinate(lambda size: b"T" * size + b"." + b"T" * size, unknown),
    "dots of a coordinate": coordinate(
        lines(b"T."), lambda size: b"! `%s` is not a valid GraphQL name\n? 2" % (b"T." * size)
    ),
    "characters of a string": read(lambda size: b'"%s"' % (b"s" * size), lambda size: b'"%s"' % (b"s" * size), LONG),
    "digits of a number": read(lines(b"7"), lambda size: b"int " + b"7" * size, LONG),
    "letters of a GraphQL name": read(lines(b"n"), lambda size: b"enum %s 0..%d" % (b"n" * size, size), LONG),
    "characters of a comment": read(lambda size: b"[#%s\n]" % (b"#" * size), lambda size: b"list [ ]", LONG),
    "escapes of a string": read(
        lambda size: b'"%s"' % (b"\\\\" * size), lambda size: b'"%s"' % (b"\\\\" * size)
    ),
    "escaped quotes of a block string": read(
        lambda size: b'"""%s"""' % (b'\\"""' * size), lambda size: b'"%s"' % (b'\\"\\"\\"' * size)
    ),
    "lines of a block string": read(
        lambda size: b'"""%s"""' % (b"\n  s" * size), lambda size: b'"s%s"' % (b"\\ns" * (size - 1))
    ),
    "block strings": read(
        lambda size: b"[%s]" % (b'""""""' * size), lambda size: listed(size, 6, 6, b'""'), (50_000, 200_000)
    ),
    "quotes": refused(b"value", b'"', b"6 12 expected the end of the text, found a block string"),
    "quotes of a block string without its end": Hostile(
        [b"value"], lambda size: framed(unended(size)), is_unended, (50_000, 200_000), "gqltext"
    ),
    "tokens": read(lambda size: b"[%s]" % (b"0 " * size), lambda size: listed(size, 2, 1, b"int 0")),
    "tokens above the limit": refused(b"value --max-tokens 7", b"[", b"7 8 too many tokens"),
    "brackets around one another": Hostile(
        [b"value"], lambda size: framed(b"[" * size + b"]" * size), is_nested, (AT_ONCE, AT_ONCE + 1), "gqltext"
    ),
    "opening braces": refused(b"document", b"{", b"1 2 expected a selection, found `{`"),
    "opening brackets": refused(b"value", b"[", b"200 201 nested too deeply"),
    "backslashes": refused(b"value", b"\\", b"0 0 unexpected character `\\`"),
    "GraphQL texts": Hostile(
        [b"value"],
        lines(framed(b"0")),
        lambda size, run: run.answer == (0, b"tree 0..1 int 0 \n" * size, b""),
        program="gqltext",
    ),
    "scalars of a file": Hostile(
        [b"schema", b"-"],
        scalars,
        lambda size, run: run.answer == (0, scalars(size, b"\n\n"), b""),
        (50_000, 200_000),
        "peglinden",
    ),
    "letters of a name in a file": Hostile(
        [b"format", b"-"],
        lambda size: b"scalar " + b"T" * size + b"\n",
        lambda size, run: run.answer == (0, b"scalar " + b"T" * size + b"\n", b""),
        LONG,
        "peglinden",
    ),
    "opening braces of a file": Hostile([b"format", b"-"], lines(b"{"), braces, program="peglinden"),
    "faults of a file": Hostile([b"schema", b"-"], lines(b"scalar T\n"), defined_again, (10_000, 40_000), "peglinden"),
    "faults of a line": Hostile([b"schema", b"-"], lines(b"scalar T "), defined_again, (10_000, 40_000), "peglinden"),
}


def work(text, run):
    """What a run has to do: what it reads and says, and the turns of its walks."""
    turns = sum(int(it) for it in re.findall(rb"(?m)^(?:root|all)-turns ([0-9]+)$", run.output))
    return len(text) + len(run.output) + len(run.errors) + turns


def is_slow(texts, runs):
    """Whether the larger run takes more than its share of time."""
    rates = [max(run.seconds, SECONDS) / work(text, run) for text, run in zip(texts, runs)]
    return runs[1].seconds > SECONDS and rates[1] > AT_MOST * rates[0]


def findings():
    """Runs all cases, prints a table of their times, and answers what is wrong with each."""
    print("| input | size | s | size | s |\n|---|---|---|---|---|")
    for name, case in CASES.items():
        program = programs.path(case.program)
        texts = [case.text(size) for size in case.sizes]
        runs = [programs.run(program, case.words, text) for text in texts]
        if is_slow(texts, runs):
            # What else the machine does may have taken its caches: the second try counts.
            runs = [programs.run(program, case.words, text) for text in texts]
        cells = [f"{size:,} | {run.seconds:.2f}" for size, run in zip(case.sizes, runs)]
        print(" | ".join([f"| {name}", *cells]) + " |", flush=True)
        wrong = [
            f"{name}, {size:,}: status {run.status}, {run.output[:200]!r}, {run.errors[:200]!r}"
            for size, run in zip(case.sizes, runs)
            if not case.is_right(size, run)
        ]
        if is_slow(texts, runs):
            wrong.append(f"{name}: {case.sizes[1]:,} take more than their share of time")
        yield "\n".join(wrong) or None
