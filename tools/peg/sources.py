"""Reads `crates.txt` and the crates' sources: which there are, what is code in them, and the items of a `.rt` file."""
import re
from typing import NamedTuple

from peg import CRATES, TOP

PARTS = {"src": ".rt", "specs": ".antt", "proofs": ".antt"}
# Texts, characters and comments, so that no sign in one of them is taken for another's.
RT_TOKEN = re.compile(r"""'(?:[^'\\\n]|\\[^'\n]+|\\')'|"(?:[^"\\]|\\.)*"|//[^\n]*""", re.DOTALL)
BLOCK = re.compile(r"(?:pub(?:\(\w+\))? )?(impl|struct|enum|trait)\b(.*)")
ITEM = re.compile(r"( *)(pub(?:\(\w+\))? )?(?:ghost )?(fn|struct|enum|trait|type|const|mod) (\w+)")
PART = re.compile(r"    (pub(?:\(\w+\))? )?(?:ghost )?(\w+)(?=[:(,{ ]|$)")
# A comment that documents no item, over all its lines.
COMMENT = re.compile(r"(?:^ *// .*\n)+", re.MULTILINE)
# Where the head of a function ends.
CLAUSE = re.compile(r"\n *(?:ensures|requires|ghost|where|\{)|\{$", re.MULTILINE)


def crates():
    """The crates, in the order of their lines, and the libraries that each names."""
    lines = (TOP / "crates.txt").read_text().splitlines()
    read = (re.fullmatch(r"(\w+)[^:#]*:([^#]*).*", line) for line in lines)
    return {line[1]: line[2].split() for line in read if line}


def files(*parts, crate="*"):
    """The files of these parts, as `src`, of a crate or of all, in order."""
    return sorted(path for part in parts for path in CRATES.glob(f"{crate}/{part}/**/*{PARTS[part]}"))


def crate_of(path):
    return path.relative_to(CRATES).parts[0]


def code(path, has_texts=True):
    """The text of a file without its comments, each line where it was; without what stands in quotes too, if asked so."""
    text = path.read_text()
    if path.suffix == ".antt":
        return re.sub(r"--.*", "", text)

    def kept(token):
        if token[0].startswith("//"):
            return ""
        return token[0] if has_texts else '"' + "\n" * token[0].count("\n") + '"'

    return RT_TOKEN.sub(kept, text)


def is_program(crate):
    return (CRATES / crate / "src/main.rt").exists()


def has_tests(crate):
    return any("#[test]" in path.read_text() for path in files("src", crate=crate))


class Item(NamedTuple):
    """An item of a file, or a member of one: its kind (of a field or a variant `part`), the type or trait that it is a member
    of, the trait that is implemented there, and what it says of itself up to its first clause or its body."""

    kind: str
    name: str
    line: int
    owner: str = ""
    trait: str = ""
    head: str = ""
    is_public: bool = False
    is_test: bool = False


def owner_and_trait(head):
    """`B` and `A` of `<T> A<T> for B<T> {`, and `B` and nothing of `B<T> {`."""
    while (shorter := re.sub(r"<[^<>]*>", "", head)) != head:
        head = shorter
    *trait, owner = (re.findall(r"\w+", part)[-1:] for part in re.split(r" where |\{", head)[0].split(" for "))
    return (*(owner or [""]), *(trait[0] if trait else [""]))


def items(path):
    """The items of a `.rt` file and their members."""
    text = code(path, has_texts=False)
    owner, trait, is_test, at = "", "", False, 0
    for number, line in enumerate(text.split("\n"), 1):
        block, item = BLOCK.match(line), ITEM.match(line)
        part = item or PART.match(line) if owner else item
        if part and len(line) - len(line.lstrip()) <= 4:
            kind, its_name = (item[3], item[4]) if item else ("part", part[2])
            is_member = line.startswith(" ")
            whole = text[at : CLAUSE.search(text, at).start()] if kind == "fn" and CLAUSE.search(text, at) else line
            about = (owner, trait) if is_member else ("", "")
            yield Item(kind, its_name, number, *about, whole, bool(part[2 if item else 1]), is_test)
        if block:
            owner, trait = owner_and_trait(block[2])
        elif line.startswith("}"):
            owner = trait = ""
        is_test = line == "#[test]" or is_test and line.startswith("#")
        at += len(line) + 1


def comments(path):
    """The words of each comment of a `.rt` file that documents no item, and the number of its first line."""
    text = path.read_text()
    for comment in COMMENT.finditer(text):
        yield " ".join(re.findall("// (.*)", comment[0])), text.count("\n", 0, comment.start()) + 1


def used(path):
    """The words of what a file hands on by `pub use`."""
    texts = re.findall(r"^pub use ([^;]+);", code(path), re.MULTILINE)
    return {word for text in texts for word in re.findall(r"\w+", text)}


def root_names(crate):
    """What the root of a library gives to its callers; a program gives nothing."""
    root = CRATES / crate / "src/lib.rt"
    return used(root) if root.exists() else set()
