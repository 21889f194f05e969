"""The tables of `docs/PROMISES.md`, from comments of the crates: what each crate proves, what it doesn't prove
and which of its calls have no clause, of the comment at its head; and the premises of laws and calls."""
import re

from peg import CRATES, TOP, contents, declared, exports, layout, sources

BEGIN, END = (f"<!-- {what} of what tools/pages makes -->" for what in ("Begin", "End"))
PROMISES = TOP / "docs/PROMISES.md"
PREMISE = re.compile(r"Premise: (.*?)\.(?= [A-Z`]|$)")


def said(crate, *words):
    """The paragraphs of the comment at a crate's head that begin with such a word, without it."""
    comment = declared.head_comment(CRATES / crate / "src/lib.rt")
    paragraphs = (layout.joined(part).removesuffix(".") for part in comment.split("\n\n"))
    begins = [(word, part) for part in paragraphs for word in words if part.startswith(f"{word}: ")]
    return [part.removeprefix(f"{word}: ") for word, part in begins]


def libraries():
    """The libraries that say what they prove, bottom up."""
    its = (crate for crate in sources.crates() if (CRATES / crate / "src/lib.rt").exists())
    return [crate for crate in its if said(crate, "Proved")]


def proved():
    yield from ("| crate | what is proved |", "|---|---|")
    yield from (f"| `{crate}` | {layout.cell(part)} |" for crate in libraries() for part in said(crate, "Proved"))


def unproved():
    yield from ("| crate | what is not proved, or has no clause |", "|---|---|")
    for crate in libraries():
        parts = [*said(crate, "Not proved"), *(f"No clause: {part}" for part in said(crate, "No clause"))]
        if parts:
            yield f"| `{crate}` | {layout.cell('. '.join(parts))} |"


def called():
    """All laws and then all calls, those of traits too: where each is shown, its name and what is declared."""
    for folder, pages in contents.FOLDERS.items():
        for home in (home for page in pages for home in contents.of_page(folder, page)):
            yield home, contents.title(home), exports.declared_at(home)
            for block in (block for _, block in contents.impls(home.crate).get(home.name, ())):
                _, trait = sources.owner_and_trait(block.head.removeprefix("impl"))
                calls = (it for it in block.members if it.kind == "fn" and (trait or it.is_public))
                yield from ((home, f"{home.name}::{it.name}", it) for it in calls)


def premise(item):
    return PREMISE.search(layout.joined(item.comment))


def premises():
    yield from ("| law or call | premise |", "|---|---|")
    for home, name, item in called():
        if found := premise(item):
            place = contents.places()[home]
            link = f"{place.folder}/{place.page.name}.md#{contents.anchor(home)}"
            shown = contents.linked(found[1], "", home.crate)
            yield f"| [`{name}`]({link}) | {layout.cell(shown)} |"


def page():
    """The page, with each table between its marks."""
    tables = iter([proved(), premises(), unproved()])
    is_made = False
    for line in PROMISES.read_text().rstrip("\n").split("\n"):
        is_made = is_made and line != END
        if not is_made:
            yield line
        if line == BEGIN:
            is_made = True
            yield from ("", *next(tables), "")


def pages():
    """The page, by its path below `docs/`."""
    yield "PROMISES.md", page()


def functions(crate):
    """The functions of a crate that say their contract themselves, each by its name and, of a type, with that."""
    for path in sources.files("src", crate=crate):
        for item in declared.items(path):
            owner, trait = sources.owner_and_trait(item.head.removeprefix("impl"))
            if item.kind == "fn":
                yield item.name, item
            elif item.kind == "impl" and not trait:
                yield from ((f"{owner}::{it.name}", it) for it in item.members if it.kind == "fn")


def findings():
    """None for each function of a library that has a clause, or which its crate says has none, and for each call
    whose comment says what its contract requires."""
    for home, name, item in called():
        if any(clause.kind.startswith("requires") for clause in item.clauses):
            yield None if premise(item) else f"{home.crate}: {name}: no sentence `Premise: ..` says what it requires"
    for crate in libraries():
        text = " ".join(said(crate, "No clause"))
        for name, item in functions(crate):
            is_right = bool(item.clauses) != (f"`{name}`" in text)
            yield None if is_right else f"{crate}: {name}: `No clause: ..` of the crate is wrong on it"
