"""Reads what a source declares, with its comments: the items of a `.rt` file, and the words of a module of
`specs/`."""
import re
from typing import NamedTuple

KINDS = "fn|struct|enum|trait|type|const|mod|use|impl"
HEAD = re.compile(rf"(pub(?:\((\w+)\))? )?(?:const (?=fn))?({KINDS})\b *(.*)", re.DOTALL)
GOES_ON = re.compile(r"[)}\]{>]|where\b")
CLAUSE = re.compile(r"(ensures|requires)(\*?)(?: (\w+))? (\{.*)", re.DOTALL)
WORD = re.compile(r"(?:abbrev |unfoldable )?pub (record |data |abbrev )?(\S+)(.*)", re.DOTALL)


class Clause(NamedTuple):
    """A clause of a contract: `ensures` or `requires`, its name if it has one, its text without braces."""

    kind: str
    name: str
    text: str


class Item(NamedTuple):
    """An item of a `.rt` file or a member of one. `head` is what stands before its clauses, its members or
    its body, and of a member that is `ghost` what it is equal to."""

    kind: str
    name: str
    is_public: bool
    comment: str
    attributes: tuple
    head: str
    clauses: tuple
    members: tuple

    @property
    def is_hidden(self):
        return "doc(hidden)" in " ".join(self.attributes)


class Word(NamedTuple):
    """A public word of a module of `specs/`, or a field of a record there."""

    name: str
    type: str
    comment: str
    fields: tuple


def of(line):
    """How far in a line stands."""
    return len(line) - len(line.lstrip(" "))


def parts(lines, indent):
    """The pieces of a text that begin so far in: the comment of each, its attributes and its lines."""
    comment, attributes, own = [], [], []
    for line in [*lines, None]:
        stripped = (line or "").strip()
        is_more = own and line is not None and (not stripped or of(line) > indent or GOES_ON.match(stripped))
        if is_more:
            own.append(line)
            continue
        if own:
            while not own[-1].strip():
                own.pop()
            yield "\n".join(comment), tuple(attributes), own
            comment, attributes, own = [], [], []
        if stripped.startswith("///"):
            comment.append(stripped[3:].removeprefix(" "))
        elif stripped.startswith("#["):
            attributes.append(stripped)
        elif stripped and not stripped.startswith("//"):
            own = [line]


def is_clause(line, indent):
    return of(line) == indent + 4 and re.match(r"(ensures|requires|ghost|decreases)\b", line.strip())


def divided(lines, indent):
    """The head of an item, its clauses, and the lines between its braces."""
    head, clauses, at = [], [], 0
    while at < len(lines) and not is_clause(lines[at], indent) and lines[at].strip() not in ("{", "{}"):
        head.append(lines[at][indent:])
        at += 1
        if head[-1].endswith((" {", " {}")) and of(head[-1]) == 0:
            head[-1] = head[-1].removesuffix("}").removesuffix(" {")
            return "\n".join(head), (), lines[at:-1]
    while at < len(lines) and lines[at].strip() not in ("{", "{}"):
        if is_clause(lines[at], indent):
            clauses.append(lines[at].strip())
        elif clauses and not lines[at].strip().startswith("//"):
            clauses[-1] += " " + lines[at].strip()
        at += 1
    found = (CLAUSE.match(text) for text in clauses)
    return "\n".join(head).removesuffix(";"), tuple(clause(it) for it in found if it), lines[at + 1 : -1]


def clause(found):
    text = re.sub(r";$", "", found[4]).strip()
    return Clause(found[1] + found[2], found[3] or "", re.sub(r"\s+", " ", text[1:-1]).strip())


def member(comment, attributes, lines, indent):
    """A field, a variant or a member of a block."""
    if HEAD.match(lines[0].strip()):
        return item(comment, attributes, lines, indent)
    text = "\n".join(line[indent:] for line in lines)
    if said := re.match(r"ghost (\w+) = \{ (.*?) \};?$", text, re.DOTALL):
        return Item("ghost", said[1], False, comment, attributes, said[2], (), ())
    found = re.match(r"(pub(?:\(\w+\))? )?(\w+)", text)
    if not found or text.startswith("ghost"):
        return None
    fields = members_of(lines[1:-1], indent + 4) if lines[0].endswith("{") else ()
    return Item("part", found[2], found[1] == "pub ", comment, attributes, text.rstrip(","), (), fields)


def members_of(lines, indent):
    return tuple(filter(None, (member(*part, indent) for part in parts(lines, indent))))


def item(comment, attributes, lines, indent):
    """The item that these lines are, or None."""
    found = HEAD.match(lines[0].strip())
    name = found and re.match(r"\w*", found[4])[0]
    if not found or not name and found[3] not in ("impl", "use"):
        return None
    kind, is_public = found[3], bool(found[1]) and not found[2]
    if kind == "use":
        whole = " ".join(line.strip() for line in lines)
        return Item("use", "", is_public, comment, attributes, re.sub(r"^(pub )?use |;$", "", whole), (), ())
    head, clauses, inside = divided(lines, indent)
    members = members_of(inside, indent + 4) if kind in ("struct", "enum", "trait", "impl") else ()
    name = "" if kind == "impl" else name
    return Item(kind, name, is_public, comment, attributes, head.rstrip(";"), clauses, members)


def items(path):
    """The items of a `.rt` file."""
    read = (item(*part, 0) for part in parts(path.read_text().split("\n"), 0))
    return [it for it in read if it]


def head_comment(path, sign="//!"):
    """What a file says of itself first."""
    lines = []
    for line in path.read_text().split("\n"):
        if not line.startswith(sign):
            break
        lines.append(line[len(sign) :].removeprefix(" "))
    return "\n".join(lines)


def imports(text):
    """The words that a source takes from the `specs/` of crates by name, with the crate and the module of
    each."""
    found = re.findall(r"\buse Rattle\.(\w+)\.specs\.([\w.]+)\.\{([^}]*)\}", text)
    homes = ((word, (crate, module)) for crate, module, words in found for word in words.split(","))
    return {word.split(" as ")[-1].strip(): home for word, home in homes}


def opened(text):
    """The lines of a module of `specs/`, those of modules in it no further in, with the parameters that
    hold at each."""
    around = []
    for line in text.split("\n"):
        while around and line.strip() and of(line) <= around[-1][0]:
            around.pop()
        yield line[2 * len(around) :], "".join(f"{parameters} → " for _, parameters in around)
        if found := re.match(r" *module _ (.*) where$", line):
            around.append((of(line), found[1]))


def words(path):
    """The public words of a module of `specs/`, in order."""
    comment, own, its, found = [], [], "", []
    for line, parameters in [*opened(path.read_text()), ("", "")]:
        if line.startswith("-- ----"):
            line = ""
        if own and (line.startswith(" ") or not line and own[0].endswith(" where") and len(own) == 1):
            own.append(line)
            continue
        if own:
            found.append(word(comment, own, its))
            comment, own = [], []
        if line.startswith("--"):
            comment.append(line[2:].strip())
        elif WORD.match(line) and not re.match(r"pub (mod|use)\b", line):
            own, its = [line], parameters
        elif not line.startswith("infix"):
            comment = []
    return [it for it in found if it]


def word(comment, lines, parameters):
    """A word of these lines, with the fields of a record, below these parameters."""
    is_record = " record " in f" {lines[0]}" or " data " in f" {lines[0]}"
    head = lines
    if is_record:
        at = next((at for at, line in enumerate(lines) if line.rstrip().endswith(" where")), len(lines) - 1)
        head = lines[: at + 1]
    whole = " ".join(" ".join(line.split(" --")[0] for line in head).split()).removesuffix(" where")
    found = WORD.match(whole)
    fields = tuple(fields_of(lines[len(head) :])) if is_record else ()
    its_type = found[3].strip()
    if parameters:
        its_type = f": {parameters}{its_type.removeprefix(': ')}"
    return Word(found[2], its_type, " ".join(comment), fields)


def fields_of(lines):
    """The fields of a record: comments stand above them."""
    comment, own = [], []
    for line in [*lines, "  "]:
        stripped = line.strip()
        if own and of(line) > 2 and stripped:
            own.append(stripped)
            continue
        if own:
            found = re.match(r"(?:abbrev )?(?:pub )?(\S+) *:? *(.*)", " ".join(own))
            yield Word(found[1], f": {found[2]}", " ".join(comment), ())
            comment, own = [], []
        if stripped.startswith("--"):
            comment.append(stripped[2:].strip())
        elif stripped:
            own = [stripped]
