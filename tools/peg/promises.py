"""What each run of `gqltool` promises, as far as one program can see: `broken` names what a run doesn't keep."""
import re

from peg import notation, programs
from peg.notation import BUILT_IN, META, described, text

# Small inputs stay far below both.
SECONDS = 10
MEBIBYTES = 300

NAME = "([_A-Za-z][_A-Za-z0-9]*)"
# Each text of a fault, and how the line begins that it is about.
PLACES = [
    (f"the type `{NAME}` is defined multiple times in the schema", r"def [a-z]+ {0}$"),
    ("built-in scalar definitions must be omitted", r"def scalar "),
    (f"the directive `@{NAME}` is defined multiple times in the schema", r"directive {0}$"),
    (f"type extension for undefined type `{NAME}`", r"ext [a-z]+ {0}$"),
    (f"adding an? [a-z ]+ type extension, but `{NAME}` is an? [a-z ]+ type", r"ext [a-z]+ {0}$"),
    ("must not have multiple `schema` definitions", r"schema$"),
    ("schema extension without a schema definition", r"ext-schema$"),
    ("a schema document must not contain an? (operation|fragment) definition", r"{0} "),
    ("duplicate definitions for the `([a-z]+)` root operation type", r"root {0} "),
    (f"(?:object|interface) type `{NAME}` implements interface `{NAME}` more than once", r"implements {1}$"),
    (f"duplicate definitions for the `{NAME}` (field|value|member) of [a-z ]+ type `{NAME}`", r"{1} {0}(?: |$)"),
    ("an executable document must not contain an? .*", r"(?:def|ext|directive|schema|ext-schema)(?: |$)"),
    (f"the operation `{NAME}` is defined multiple times in the document", r"operation [a-z]+ {0}$"),
    (f"the fragment `{NAME}` is defined multiple times in the document", r"fragment {0} "),
    ("`([a-z]+)` root operation type is not defined", r"operation {0} "),
    (f"type condition `{NAME}` of fragment `{NAME}` is not a type defined in the schema", r"fragment {1} {0}$"),
    (f"type condition `{NAME}` of inline fragment is not a type defined in the schema", r"sel [0-9]+ inline {0}$"),
    (f"field selection of (?:scalar|enum) type `{NAME}` must not have subselections", r"sel [0-9]+ field "),
    (f"type `{NAME}` does not have a field `{NAME}`", r"sel [0-9]+ field {1}(?: |$)"),
]
AMBIGUOUS = "anonymous operation cannot be selected when the document contains other operations"
PLACES.append((AMBIGUOUS, r"operation [a-z]+ -$"))
REASONS = "unknown line|misplaced line|wrong number of words|bad word"
# The forms of coordinates, and how their texts begin.
FORMS = [("directive-argument", r"@.*\("), ("directive", "@")]
FORMS += [("field-argument", r"[^.]*\..*\("), ("attribute", r"[^.]*\."), ("type", "")]
ATTRIBUTES = {"object": "field", "interface": "field", "input": "input-field", "enum": "enum-value"}


def run(words, given):
    return programs.run(programs.path("gqltool"), words, given)


def divided(output):
    """The lines of an answer, and those of its faults."""
    lines = output.decode().splitlines()
    at = next((at for at, line in enumerate(lines) if line.startswith("fault ")), len(lines))
    return lines[:at], lines[at:]


def answered(command, lines):
    """The lines of an answer to these lines, and those of its faults."""
    return divided(run([command], text(lines)).output)


def stands(fault, lines):
    """Whether a fault's line is there, and begins as the fault says."""
    said = re.fullmatch("fault ([0-9]+) (.*)", fault)
    if not said or not 1 <= int(said[1]) <= len(lines):
        return False
    known = ((re.fullmatch(words, said[2]), place) for words, place in PLACES)
    names, place = next((pair for pair in known if pair[0]), (None, ""))
    return names is not None and re.match(place.format(*names.groups()), lines[int(said[1]) - 1]) is not None


def broken(case):
    """What the run of this case, and runs that go with it, do not keep."""
    first = run(case.words, case.text)
    if first.answer != run(case.words, case.text).answer:
        yield "another answer the second time"
    if first.seconds > SECONDS or first.memory > MEBIBYTES:
        yield f"took {first.seconds:.1f} s and {first.memory:.0f} MiB"
    if first.status == 2:
        yield from broken_refusal(case, first)
    elif first.status in (0, 1):
        yield from broken_answer(case, first)
    else:
        yield f"status {first.status}"


def is_utf8(given):
    try:
        return given.decode() is not None
    except UnicodeDecodeError:
        return False


def broken_refusal(case, refused):
    errors = refused.errors.decode(errors="replace")
    if refused.output:
        yield "status 2 with standard output"
    if case.is_clean and b"coord" not in case.words:
        yield "a clean input is refused"
    at_line = re.fullmatch(f"line ([0-9]+): (?:{REASONS})\n", errors)
    if at_line:
        yield from broken_line(case, refused, int(at_line[1]))
    elif errors == "cannot read input\n":
        if is_utf8(case.text):
            yield "UTF-8 that can't be read"
    elif errors == "missing ===\n":
        if b"===" in case.text.split(b"\n"):
            yield "=== is there"
    elif not re.fullmatch(r"usage: [^\n]*\n|`[^`]*` is not a valid GraphQL name\n", errors):
        yield "another refusal than those promised"
    elif not re.match("usage:" if b"coord" not in case.words else "", errors):
        yield "a refused text without a text"


def broken_line(case, refused, number):
    """The lines before it are not refused, and those up to it are refused so."""
    lines = case.text.split(b"\n")
    if not 1 <= number <= len(lines):
        yield "the refused line isn't there"
        return
    if run(case.words, b"\n".join(lines[: number - 1])).errors not in (b"", b"missing ===\n"):
        yield "a line above is refused too"
    if run(case.words, b"\n".join(lines[:number])).answer != refused.answer:
        yield "the line is refused for what is below it"


def broken_answer(case, ended):
    lines = case.text.decode().split("\n")
    answer, faults = divided(ended.output)
    if ended.errors:
        yield "standard error with an answer"
    yield from (f"a fault whose line does not say so: {fault}" for fault in faults if not stands(fault, lines))
    command = case.words[0].decode()
    finds_nothing = command == "coord" and answer[1:2] != [] and answer[1].startswith("missing ")
    if ended.status != bool(faults or finds_nothing or command == "leaf" and answer):
        yield f"status {ended.status}"
    yield from BROKEN[command](case, lines, answer, faults)


def broken_schema(_, lines, answer, __):
    """The write-out, read again, gives itself, where each schema definition names a root."""
    if all(item.all("root") for item in notation.items(lines) if item.words == ["schema"]):
        if run([b"schema", b"--adopt"], text(answer)).answer != (0, text(answer), b""):
            yield "the write-out, built again, is another"


def broken_coord(case, lines, answer, faults):
    """What the coordinate points to, by the schema's write-out, which has no built-in definitions."""
    asked = case.words[1].decode()
    written, reported = answered(b"schema", lines)
    if faults != reported:
        yield "other faults than those of the schema"
    form = next(form for form, marks in FORMS if re.match(marks, asked))
    if len(answer) != 2 or answer[0] != f"{form} {asked}":
        yield "no answer on a coordinate"
    elif not re.search(rf"^@?(?:{'|'.join([*BUILT_IN, 'skip'])})\b|\.(?:{'|'.join(META)})\b", asked):
        wanted = pointed_to(described(written), asked)
        if answer[1] != wanted:
            yield f"not {wanted}"


def attribute(types, name, attribute):
    """What an attribute of a type is, or why it is not there, and the arguments that it has."""
    if name not in types:
        return f"missing type `{name}` does not exist", None
    ty = types[name]
    if ty["kind"] not in ATTRIBUTES:
        return "missing type does not have attributes", None
    if attribute not in [*ty["fields"], *ty["values"]]:
        return f"missing type does not have attribute `{attribute}`", None
    arguments = ty["fields"][attribute][1] if ATTRIBUTES[ty["kind"]] == "field" else None
    return f"found {ATTRIBUTES[ty['kind']]}", arguments


def pointed_to(said, coordinate):
    """What a coordinate points to in a schema whose write-out says this, or why to nothing."""
    directive, name, attribute_name, argument = re.fullmatch(r"(@?)(\w+)(?:\.(\w+))?(?:\((\w+):\))?", coordinate).groups()
    if attribute_name:
        answer, arguments = attribute(said["types"], name, attribute_name)
    elif name not in said["directives" if directive else "types"]:
        return f"missing type `{name}` does not exist"
    else:
        answer, arguments = ("found directive", said["directives"][name][0]) if directive else ("found type", [])
    if argument is None or answer.startswith("missing"):
        return answer
    if arguments is None:
        return f"missing type attribute `{attribute_name}` is not a field and can not have arguments"
    if argument not in [name for name, _ in arguments]:
        return f"missing field or directive does not have argument `{argument}`"
    return "found argument"


def broken_doc(_, lines, answer, faults):
    """The faults of the schema come first, and the write-out over the same schema gives itself."""
    of_schema = lines[: lines.index("===") + 1]
    schema_faults = answered(b"schema", of_schema[:-1])[1]
    if faults[: len(schema_faults)] != schema_faults:
        yield "the faults of the schema do not come first"
    again, further = answered(b"doc", [*of_schema, *answer])
    names = [item.words[2] for item in notation.items(answer) if item.words[0] == "operation"]
    wanted = [f"fault {len(of_schema) + 1} {AMBIGUOUS}"] * (len(names) - 1 if names[:1] == ["-"] else 0)
    if again != answer or further != [*schema_faults, *wanted]:
        yield "the document, built again, is another"


def walk(items, start, is_all):
    """The keys that a walk gives, and its turns: in each one selection is taken, or a list found empty and closed."""
    keys, turns, opened, lists = [], 0, set(), [iter(start)]
    while lists:
        turns += 1
        _, words, below = next(lists[-1], (0, ["end"], []))
        if words[0] == "end":
            lists.pop()
        elif words[0] == "field":
            keys.append(words[-1])
            if is_all and below:
                lists.append(iter(below))
        elif words[0] == "inline":
            lists.append(iter(below))
        elif words[1] not in opened and f"fragment {words[1]}" in items:
            opened.add(words[1])
            lists.append(iter(items[f"fragment {words[1]}"]))
    return keys, turns


def walks(written):
    """What walks over a document give, whose write-out this is."""
    kept = {"operation": 3, "fragment": 2}
    items = {" ".join(item.words[: kept[item.words[0]]]): notation.selections(item) for item in notation.items(written)}
    for item, start in items.items():
        yield f"walk {item}"
        for word, is_all in (("root", False), ("all", True)):
            keys, turns = walk(items, start, is_all)
            yield from [*(f"{word} {key}" for key in keys), f"{word}-turns {turns}"]


def broken_walk(_, lines, answer, faults):
    """Walks over what `doc` writes, and its faults."""
    written, reported = answered(b"doc", lines)
    if reported != faults:
        yield "other faults than those of the document"
    if answer != list(walks(written)):
        yield "walks over the document give something else"


def broken_leaf(_, lines, answer, faults):
    """Each line is of a field of that key, and the faults are those of the document."""
    if answered(b"doc", lines)[1] != faults:
        yield "other faults than those of the document"
    for line in answer:
        said = re.fullmatch(f"leaf ([0-9]+) {NAME} (?:missing-subselection|subselection-on-leaf)", line)
        place = lines[int(said[1]) - 1] if said and int(said[1]) <= len(lines) else ""
        if not said or not re.fullmatch(f"sel [0-9]+ field (?:{NAME} )?{said[2]}", place):
            yield f"no line of a field: {line}"


BROKEN = {"schema": broken_schema, "coord": broken_coord, "doc": broken_doc, "walk": broken_walk, "leaf": broken_leaf}
