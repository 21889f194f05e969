"""The pages of `docs/definitions`: the words of contracts, from the comments that stand at them in
`specs/`."""
import re
from typing import NamedTuple

from peg import CRATES, TOP, declared, layout, sources


class Module(NamedTuple):
    """A module of `specs/`: its name, its file, what its first comment says, and its public words."""

    name: str
    file: object
    said: str
    words: list


def modules(crate):
    """The modules of a crate's `specs/` that have words."""
    for file in sources.files("specs", crate=crate):
        name = ".".join(file.relative_to(CRATES / crate / "specs").with_suffix("").parts)
        module = Module(name, file, declared.head_comment(file, "--"), declared.words(file))
        if module.words:
            yield module


def handed_on(file):
    """The words of other crates that a module hands on, by crate."""
    pattern = re.compile(r"^pub use Rattle\.(\w+)\.[\w.]+\.\{([^}]*)\}", re.MULTILINE)
    for crate, words in pattern.findall(file.read_text()):
        yield crate, ", ".join(f"`{word.strip()}`" for word in words.split(","))


def crates():
    """The crates that define words, bottom up, and what the comment above its line of `crates.txt` says of
    each."""
    lines = (TOP / "crates.txt").read_text().split("\n")
    said = {line.split(":")[0].split(" ")[0]: above[2:] for above, line in zip(lines, lines[1:]) if above.startswith("# ")}
    return {crate: said.get(crate, "") for crate in sources.crates() if (CRATES / crate / "specs").is_dir()}


def entry(word, indent=""):
    """A word with what it means and its type, and so the fields of a record."""
    yield f"{indent}- **`{word.name}`**{f': {word.comment}' if word.comment else ''}  "
    yield f"{indent}  `{word.type.removeprefix(': ')}`"
    for field in word.fields:
        yield from entry(field, indent + "  ")


def page(crate, said):
    """A page: the words of a crate, module by module."""
    its = list(modules(crate))
    yield from (f"# {crate}", "", layout.MADE, "", f"The words of `{crate}`: {said}.", "")
    yield from (", ".join(f"[{module.name}](#{layout.slug(module.name)})" for module in its), "")
    for module in its:
        yield from (f"## {module.name}", "")
        yield from layout.listed([module.said] if module.said else [])
        yield from (layout.source(module.file, "definitions"), "")
        for other, words in handed_on(module.file):
            yield from (f"Of `{other}`: {words}.", "")
        for word in module.words:
            yield from entry(word)
        yield ""


def index():
    """The first page: each crate with its modules."""
    yield from ("# Definitions", "", layout.MADE, "", layout.head("definitions"), "")
    for crate, said in crates().items():
        yield from (f"## [{crate}]({crate}.md)", "", said, "", "| module | what it defines |", "|---|---|")
        for module in modules(crate):
            first = layout.cell(layout.joined(module.said.split("\n\n")[0]))
            yield f"| [{module.name}]({crate}.md#{layout.slug(module.name)}) | {first} |"
        yield ""


def all_words():
    """All words from A to Z, each with a link to its module."""
    yield from ("# Words from A to Z", "", layout.MADE, "")
    its_modules = [(crate, module) for crate in crates() for module in modules(crate)]
    found = [(word.name, crate, module.name) for crate, module in its_modules for word in module.words]
    for word, crate, module in sorted(found, key=lambda it: (it[0].lower(), it)):
        yield f"- `{word}`: [{crate}, {module}]({crate}.md#{layout.slug(module)})"


def pages():
    """All pages, by their paths below `docs/`."""
    yield "definitions/README.md", index()
    yield "definitions/words.md", all_words()
    yield from ((f"definitions/{crate}.md", page(crate, said)) for crate, said in crates().items())
