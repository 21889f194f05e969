"""The page `docs/laws/headline_words.md`: all that the words of the headline stand on above `graphql_ast`,
each definition once, from the top down, as it stands in `specs/`."""
import re
from typing import NamedTuple

from peg import CRATES, declared, layout, sources

TOP_MODULE = ("apollo_compiler", "Headline")
# What stands below: lists, names, nodes and the trees of GraphQL documents.
BELOW = ("std", "graphql_nodes", "graphql_ast")
NAMES = re.compile(r"[^\s(){},;.\[\]]+")
SIGNATURE = re.compile(r"(?:abbrev |unfoldable )?(?:pub )?(?:abbrev )?(?:(?:record|data) (\S+)|([^\s:]+) : )")


class Definition(NamedTuple):
    """A definition of a module: its name, the comment above it, and its lines."""

    name: str
    comment: list
    lines: list

    @property
    def names(self):
        """The names that it mentions, comments aside."""
        code = (re.sub(r"(^| )--.*", "", line) for line in self.lines)
        return {name for line in code for name in NAMES.findall(line)}


def definitions(text):
    """The definitions of a module, in order."""
    comment, own = [], None
    for line in text.split("\n"):
        found = None if line.startswith((" ", "--")) else SIGNATURE.match(line)
        if line.startswith("--"):
            comment.append(line)
        elif found:
            own = Definition(found[1] or found[2], comment, [line])
            comment = []
            yield own
        elif re.match(r"(pub )?use ", line):
            comment, own = [], None
        elif own and line.strip():
            own.lines.extend([*comment, line])
            comment = []


class Words:
    """The definitions of all modules of `specs/`, each by its crate, its module and its name."""

    def __init__(self):
        self.homes, self.taken = {}, {}
        for file in sources.files("specs"):
            crate = sources.crate_of(file)
            module = ".".join(file.relative_to(CRATES / crate / "specs").with_suffix("").parts)
            text = file.read_text()
            self.taken[crate, module] = declared.imports(text)
            self.homes |= {(crate, module, word.name): word for word in definitions(text)}

    def home(self, crate, module, name):
        """Where a name that a module mentions is defined, if it is a word."""
        while (crate, module, name) not in self.homes:
            if name not in self.taken.get((crate, module), {}):
                return None
            crate, module = self.taken[crate, module][name]
        return crate, module, name

    def named(self, top):
        """The words that the definitions of a module mention beside its own, above what is below, in order."""
        own = [key for key in self.homes if key[:2] == top]
        homes = (self.home(*top, name) for key in own for name in sorted(self.homes[key].names))
        return dict.fromkeys(it for it in homes if it and it not in own and it[0] not in BELOW)

    def closure(self, top):
        """The definitions of a module and all that they stand on above what is below, nearest first."""
        found = [key for key in self.homes if key[:2] == top]
        for key in found:
            homes = (self.home(*key[:2], name) for name in sorted(self.homes[key].names))
            found += dict.fromkeys(it for it in homes if it and it not in found and it[0] not in BELOW)
        return found


def pages():
    """The page, by its path below `docs/`."""
    yield "laws/headline_words.md", page()


def in_short(words):
    """A table of the words that the headline's module names, each with its comment."""
    yield from ("## In short", "", layout.head("headline_in_short"), "", "| word | what it is |", "|---|---|")
    for key in words.named(TOP_MODULE):
        lines = (line.removeprefix("--").strip() for line in words.homes[key].comment)
        yield f"| `{key[2]}` | {' '.join(lines)} |"
    yield ""


def page():
    words = Words()
    by_module = {}
    for key in words.closure(TOP_MODULE):
        by_module.setdefault(key[:2], []).append(key)
    yield from ("# The words of the headline", "", layout.MADE, "", layout.head("headline_words"), "")
    yield from in_short(words)
    for (crate, module), keys in by_module.items():
        file = CRATES / crate / "specs" / f"{module.replace('.', '/')}.antt"
        yield from (f"## {module} of {crate}", "")
        yield from layout.listed([declared.head_comment(file, "--")])
        its = [word for word in words.homes if word in keys]
        blocks = ((*words.homes[key].comment, *words.homes[key].lines) for key in its)
        yield from layout.fenced([line for block in blocks for line in block], "text")
        yield from (layout.source(file, "laws"), "")
