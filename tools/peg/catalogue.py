"""The page `docs/FAULTS.md`: each fault and each refusal, from the cases of `tools/cases` and the sentences
of its file `mends`."""
import functools
import re
from typing import NamedTuple

from peg import CRATES, TOP, declared, layout
from peg.contents import linked

CASES = TOP / "tools/cases"
WIDTH = 150
PLACE = re.compile(r"^ *--> (.+):(\d+):\d+$", re.MULTILINE)


# What the names of fields are called in headings.
CALLED = {
    "0": "name",
    "describe": "what it is",
    "describe_def": "another kind",
    "describe_ext": "an extension of a kind",
    "field_name": "field",
    "fragment_name": "fragment",
    "name_at_previous_location": "name",
    "operation_type": "operation",
    "shown": "character",
    "type_name": "type",
}


class Kind(NamedTuple):
    """A section of the page: its heading, what is said below it, and the enum whose variants stand there,
    with its file."""

    heading: str
    said: str
    enum: str
    file: str


KINDS = [
    Kind(
        "Faults of a schema",
        "`peglinden schema` and `check` report them. The schema has all but what is left out.",
        "BuildError",
        "apollo_meaning/src/build_error.rt",
    ),
    Kind(
        "Faults of a document",
        "`peglinden check`, `typed` and `fields` report them. The typed document has all but what is left out.",
        "BuildError",
        "apollo_document/src/build_error.rt",
    ),
    Kind(
        "Faults of leaf fields", "`peglinden check` reports them.", "LeafKind", "leafcheck/src/leaf_fault.rt"
    ),
    Kind(
        "Text that is refused",
        "Reading stops at the first thing that is wrong, and the program ends with status 2.",
        "ParseErrorKind",
        "graphql_text/src/parse_error.rt",
    ),
    Kind(
        "Coordinates that point to nothing",
        "`peglinden lookup` reports them.",
        "SchemaLookupError",
        "apollo_coordinate/src/lookup_answers.rt",
    ),
]


class Report(NamedTuple):
    """What a case reports of one thing: the case, its first line without `error: `, and all its lines."""

    case: str
    sentence: str
    text: str

    @property
    def folder(self):
        return CASES / self.case


def rank(report):
    """Which report of a fault is shown: one of whole lines, with an earlier place of its own, and short."""
    pieces, places = shown(report), PLACE.findall(report.text)
    is_plain = all(piece.strip() and piece == visible(piece) for piece in pieces)
    return not is_plain, len(places) > len({*places}), sum(map(len, pieces)), report.case


@functools.cache
def reports():
    """The reports of all cases, those first that are good to read."""
    found = []
    for file in sorted(CASES.glob("*/errors")):
        whole = file.read_text(errors="replace").rstrip("\n") + "\n"
        for text in re.split(r"\n\n(?=error: |\d+ faults?\n)", whole):
            if text.startswith("error: "):
                sentence, _, _ = text.removeprefix("error: ").partition("\n")
                found.append(Report(file.parent.name, sentence, text.rstrip("\n")))
    return sorted(found, key=rank)


@functools.cache
def mends():
    """The entries of the file `mends`: of each the parts, by their names."""
    text = re.sub(r"^#.*\n", "", (CASES / "mends").read_text(), flags=re.MULTILINE)
    entries = (entry.split("\n") for entry in text.strip().split("\n\n"))
    return {name: dict(line.split(": ", 1) for line in lines) for name, *lines in entries}


def shown(report):
    """The pieces of GraphQL that a report is about: those lines around each of its places that no empty
    line divides."""
    found = {}
    for name, number in PLACE.findall(report.text):
        file = report.folder / ("input" if name == "-" else name)
        lines = file.read_bytes().decode(errors="replace").split("\n")
        at = min(int(number), len(lines)) - 1
        while at > 0 and not lines[at].strip():
            at -= 1
        first = last = at
        while first > 0 and lines[first - 1].strip():
            first -= 1
        while last + 1 < len(lines) and lines[last + 1].strip():
            last += 1
        found.setdefault((name, first), "\n".join(lines[first : last + 1]))
    return [text for _, text in sorted(found.items())]


def visible(text):
    """A text with its control characters as pictures, and long lines cut."""
    text = re.sub(r"[\x00-\x08\x0b-\x1f]", lambda it: chr(0x2400 + ord(it[0])), text)
    return "\n".join(line if len(line) <= WIDTH else f"{line[:WIDTH]} .." for line in text.split("\n"))


def variants(kind):
    """The variants of an enum that say something, with the sentence of each."""
    item = next(it for it in declared.items(CRATES / kind.file) if it.name == kind.enum)
    for part in item.members:
        said = re.search(r'#\[error\("((?:[^"\\]|\\.)*)"', " ".join(part.attributes))
        if said:
            yield part, said[1]


def called(sentence):
    return re.sub(r"\{(\w+)\}", lambda it: f"{{{CALLED.get(it[1], it[1])}}}", sentence)


def pattern(sentence):
    """What a report of this sentence says: anything where a name stands, and what it is said of before."""
    like = re.sub(r"\\\{[^}]*\\\}", ".+", re.escape(sentence))
    return re.compile(f"(?:`.*`:? (?:points to nothing: )?)?{like}")


def report_of(sentence, case=""):
    """The report that is shown of a fault, in this case if one is named."""
    like = pattern(sentence)
    its = (report for report in reports() if like.fullmatch(report.sentence))
    return next((report for report in its if not case or report.case == case), None)


def example(report):
    """A report with the GraphQL that it is about, or else with the words that it answers to."""
    pieces = shown(report)
    if pieces:
        yield from layout.fenced([visible("\n\n".join(pieces))], "graphql")
    else:
        words = (report.folder / "words").read_text().split()
        yield from layout.fenced([f"peglinden {' '.join(words)}"], "text")
    yield from layout.fenced([visible(report.text)], "text")
    schemas = re.findall(r"^--schema\n(.*)$", (report.folder / "words").read_text(), re.MULTILINE)
    paths = [(report.folder / path).resolve().relative_to(TOP) for path in schemas]
    over = " and ".join(f"[{path.name}](../{path})" for path in paths)
    case = f"[{report.case}](../tools/cases/{report.case})"
    yield from (f"The case: {case}, over {over}." if over else f"The case: {case}.", "")


def entry(heading, said, report, mend):
    """An entry of the page: what is said of a fault, a report of it if there is one, and the sentences of
    `mends`."""
    yield from (f"### {heading}", "", *layout.listed([said] if said else []))
    yield from example(report) if report else ()
    yield from (f"{name}: {sentence}\n" for name, sentence in mend.items() if name != "Case")


def index(lines):
    """A list of the headings of these lines, each with a link to it."""
    headings = (re.match(r"##(#?) (.*)", line) for line in lines)
    links = ((found[1], found[2]) for found in headings if found)
    return [f"{'  ' if inner else ''}- [{said}](#{layout.slug(said)})" for inner, said in links]


def page():
    lines = list(entries())
    yield from ("# Faults and refusals", "", layout.MADE, "", layout.head("faults"), "")
    yield from (*index(lines), "", *lines)


def entries():
    """The sections of the page, entry by entry."""
    for kind in KINDS:
        yield from (f"## {kind.heading}", "", kind.said, "")
        crate = kind.file.split("/")[0]
        for part, sentence in variants(kind):
            name = f"{kind.enum}::{part.name}"
            said = linked(f"[`{name}`]. {part.comment}", ".", crate)
            mend = mends().get(name, {})
            yield from entry(called(sentence), said, report_of(sentence, mend.get("Case", "")), mend)
    yield from ("## What else is refused", "")
    for name, mend in mends().items():
        if name.startswith("case "):
            report = next(it for it in reports() if it.case == name.removeprefix("case "))
            yield from entry(report.sentence, "", report, mend)


def pages():
    """The page, by its path below `docs/`."""
    yield "FAULTS.md", page()


def findings():
    """None for each variant that has an entry, and a case or a reason why there is none, and else what is
    wanting."""
    known = set()
    for kind in KINDS:
        for part, sentence in variants(kind):
            name = f"{kind.enum}::{part.name}"
            known.add(name)
            mend = mends().get(name)
            if mend is None:
                yield f"tools/cases/mends: no entry for {name}"
            elif (report_of(sentence, mend.get("Case", "")) is None) != ("Not shown" in mend):
                yield f"tools/cases: {name} has to have a case or a line `Not shown` in mends, and not both"
            else:
                yield None
    others = (name for name in mends() if name not in known and not name.startswith("case "))
    yield from (f"tools/cases/mends: nothing is called {name}" for name in others)
