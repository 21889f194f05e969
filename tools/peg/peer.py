"""What `gqltool` makes of random documents, beside what graphql-js makes of them as GraphQL text.

Where the two differ for a reason that is known, the difference is counted under that reason, one of `EXPLAINED`;
docs/DIFFERENCES.md says more of each. Any other difference is wrong.
"""
import collections
import itertools
import json
import pathlib
import random
import re
import shutil
import subprocess

from peg import notation, whole
from peg.notation import as_graphql, described
from peg.promises import answered

SCRIPT = pathlib.Path(__file__).with_name("peer.js")
EXPLAINED = {
    "order": "types whose components are written out in another order",
    "implied": "faults of roots beside an implied schema definition",
    "strange": "types that are no interfaces, implemented twice",
    "below": "errors below what fell",
    "leaves": "fields asked of a scalar, an enum or an input object",
    "emptied": "selections that all fell",
    "rootless": "anonymous operations beside an operation without a root",
}
explained = collections.Counter()


def asked(requests):
    """What graphql-js answers to each of these, or a text that says why it doesn't."""
    given = "".join(json.dumps(request) + "\n" for request in requests)
    ended = subprocess.run(["node", SCRIPT], input=given, capture_output=True, text=True)
    return [json.loads(line) for line in ended.stdout.splitlines()] if ended.returncode == 0 else []


def missing():
    """What stands in the way of a comparison, or an empty text."""
    version = asked([{"sort": "version"}]) if shutil.which("node") else []
    if not version:
        return "graphql-js is not installed (Debian: apt-get install nodejs node-graphql)"
    return "" if version[0].startswith("16.") else f"graphql-js {version[0]} is installed, and 16 is wanted"


def told():
    return [f"explained: {EXPLAINED[reason]}: {count}" for reason, count in sorted(explained.items()) if count]


def compare_lines(lines, back):
    """What is wrong with the lines that graphql-js has from a text that says these in GraphQL."""
    return [] if back == lines else [f"lines: {lines}", f"peer's lines: {back}"]


def ordered(said):
    """The same, with the components of each type in the order of their names."""
    for ty in said["types"].values():
        for part in ("directives", "implements", "members", "values"):
            ty[part] = sorted(ty[part])
    return said | {"applied": sorted(said["applied"])}


# A comparison asks graphql-js once, for all that it wants to know, and ends with what is wrong and the lines that it is about.
def compare_whole(chance):
    lines = [line for item in whole.Schema(chance).items for line in item]
    theirs, back = yield [{"sort": "whole", "schema": as_graphql(lines)}, {"sort": "lines", "texts": [as_graphql(lines)]}]
    answer, faults = answered(b"schema", lines)
    ours = described(answer)
    explained["order"] += ours["types"] != theirs["types"]
    wrong = [] if ordered(ours) == ordered(theirs) else [f"ours: {ours}", f"peer: {theirs}"]
    return faults + wrong + compare_lines(lines, back), lines


# The rules by which the peer refuses what these faults say.
RULES = [
    ("the type `", "UniqueTypeNames"),
    ("the directive `", "UniqueDirectiveNames"),
    ("must not have multiple `schema`", "LoneSchemaDefinition"),
    ("(?:type extension for|adding) ", "PossibleTypeExtensions"),
    ("duplicate definitions for the `[a-z]*` root", "UniqueOperationTypes"),
    (".* more than once", "implement"),
    (".*` field of", "UniqueFieldDefinitionNames"),
    (".*` value of", "UniqueEnumValueNames"),
    (".*` member of", "include type"),
    ("field selection", "ScalarLeafs"),
    ("type `.*` does not have a field", "FieldsOnCorrectType"),
    ("type condition", "KnownTypeNames"),
    ("", "other"),
]


def by_rule(faults):
    """The faults as pairs of a rule and a line."""
    said = [re.fullmatch("fault ([0-9]+) (.*)", fault).groups() for fault in faults]
    return {(next(rule for begin, rule in RULES if re.match(begin, text)), int(line)) for line, text in said}


def difference(ours, theirs):
    return [f"ours alone: {sorted(ours - theirs)}", f"peer alone: {sorted(theirs - ours)}"] if ours != theirs else []


def compare_twice(chance):
    lines = [line for item in whole.twice(chance, whole.Schema(chance)) for line in item]
    (said,) = yield [{"sort": "twice", "schema": as_graphql(lines)}]
    ours, theirs = by_rule(answered(b"schema", lines)[1]), {(rule, line) for rule, line in said}
    if "schema" not in lines:
        # What is implied has its roots here before any extension, and there they are not looked at.
        implied = {it for it in ours | theirs if it[0] in ("UniqueOperationTypes", "other")}
        explained["implied"] += len(implied)
        ours, theirs = ours - implied, theirs - implied
    kinds = {}
    for item in notation.items(lines):
        if item.words[0] == "def":
            kinds.setdefault(item.words[2], item.words[1])
    strange = {it for it in ours if it[0] == "implement" and kinds.get(lines[it[1] - 1].split(" ")[1]) != "interface"}
    explained["strange"] += len(strange)
    return difference(ours - strange, theirs), lines


def below(items, fallen):
    """The numbers of the lines that stand in fallen items, their headers too, and below fallen selections."""
    inside = set()

    def fall(selections):
        for number, _, its in selections:
            inside.add(number)
            fall(its)

    def look(selections):
        for number, _, its in selections:
            (fall if number in fallen else look)(its)

    for item in items:
        if item.number in fallen:
            inside.add(item.number)
            fall(notation.selections(item))
        else:
            look(notation.selections(item))
    return inside


def compare_document(chance):
    schema = whole.Schema(chance)
    document = whole.Document(chance, schema)
    before = [line for item in schema.items for line in item] + ["==="]
    lines = before + document.lines
    texts = as_graphql(before[:-1]), as_graphql(document.lines)
    said, back = yield [{"sort": "document", "schema": texts[0], "document": texts[1]}, {"sort": "lines", "texts": texts}]
    theirs = {(rule, line + len(before)) for rule, line in said}
    answer, faults = answered(b"doc", lines)
    ours, fallen = by_rule(faults), {int(fault.split(" ")[1]) for fault in faults}
    items = [item for item in notation.items(lines) if item.words[0] in ("operation", "fragment")]
    headers = {item.number for item in items}

    # The anonymous operation that is kept does not fall, though it is ambiguous.
    anonymous = [item.number for item in items if item.words[-1] == "-"]
    rootless = {line for rule, line in theirs if rule == "rootless"}
    if answer and re.match("operation .* -$", answer[0]):
        fallen.discard(next(number for number in anonymous if number not in rootless))

    leaves = by_rule(fault for fault in faults if is_of_leaf(fault, schema))
    explained["leaves"] += len(leaves)
    ours = ours - leaves | missing_subselections(lines)

    inside = below(items, fallen) - headers
    is_below = {it for it in theirs if it[1] in inside}
    explained["below"] += len(is_below)
    # Of an item each side says no more than that it is refused: it may be refused for more than one reason.
    ours, theirs = (
        {("item" if number in headers else rule, number) for rule, number in some} for some in (ours, theirs - is_below)
    )
    if rootless:
        skipped = {it for it in ours ^ theirs if it[1] in anonymous}
        explained["rootless"] += len(skipped)
        ours, theirs = ours - skipped, theirs - skipped
    return difference(ours, theirs) + compare_lines(lines, back), lines


def is_of_leaf(fault, schema):
    """Whether a field is asked of what has none, as of an enum that is a fragment's condition."""
    said = re.fullmatch("fault [0-9]+ type `(.*)` does not have a field `.*`", fault)
    return said is not None and said[1] in [*notation.SCALARS, *schema.of_kinds("scalar", "enum", "input")]


def missing_subselections(lines):
    """The lines on which a selection is missing, but for those below which all selections fell."""
    answer, _ = answered(b"leaf", lines)
    numbers = {int(line.split(" ")[1]) for line in answer if line.endswith(" missing-subselection")}
    emptied = {number for number in numbers if depth_of(lines, number + 1) > depth_of(lines, number)}
    explained["emptied"] += len(emptied)
    return {("missing", number) for number in numbers - emptied}


def depth_of(lines, number):
    line = lines[number - 1] if number <= len(lines) else ""
    return int(line.split(" ")[1]) if line.startswith("sel ") else -1


SORTS = {"whole schema": compare_whole, "schema with names twice": compare_twice, "document": compare_document}


def trials(names):
    """Of each of these names, which begins with the sort of its input: what is wrong, and the lines of the input."""
    sorts = [next(compare for sort, compare in SORTS.items() if name.startswith(sort)) for name in names]
    compared = [compare(random.Random(name)) for compare, name in zip(sorts, names)]
    requests = [next(comparison) for comparison in compared]
    answers = iter(asked(itertools.chain(*requests)))
    for name, comparison, own in zip(names, compared, requests):
        said = list(itertools.islice(answers, len(own)))
        errors = [answer for answer in said if isinstance(answer, str)]
        if errors or len(said) < len(own):
            yield name, errors or ["graphql-js has ended"], [str(own)]
            continue
        try:
            comparison.send(said)
        except StopIteration as ended:
            wrong, lines = ended.value
            yield name, wrong, ["", *lines]
