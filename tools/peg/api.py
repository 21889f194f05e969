"""The pages of `docs/api` and `docs/laws`: what callers of the libraries can name, with its comment and its
contract."""
import functools
import itertools
import re

from peg import CRATES, contents, declared, exports, layout, sources
from peg.contents import anchor, linked

DERIVED = re.compile(r"#\[derive(?:_where)?\(([\w, ]+)\)")
# Traits that every type has, or that are of no use to a caller.
UNSAID = {"Drop", "Model"}


def contract(clauses):
    """The clauses of a contract, each below its name."""
    lines = []
    for clause in clauses:
        lines += [f"{clause.kind} {clause.name}".strip(), *layout.wrapped(clause.text, "    ")]
    return ["Contract:", "", *layout.fenced(lines, "text")]


def module_file(crate, module):
    """The file of a module of `specs/`."""
    return CRATES / crate / "specs" / f"{module.replace('.', '/')}.antt"


def home_of(word, crate, module):
    """The crate and the module that define a word: this one, or one whose word it hands on by `pub use`."""
    path = module_file(crate, module)
    handed_on = re.findall(r"^pub use .*", path.read_text(), re.MULTILINE) if path.exists() else []
    home = declared.imports("\n".join(handed_on)).get(word)
    return home_of(word, *home) if home else (crate, module)


@functools.cache
def known_words(file):
    """The words that the clauses of a file may say, with the crate and the module of each: those that it
    takes by name, and those of modules that it calls something else."""
    text = file.read_text()
    found = {word: home_of(word, *home) for word, home in declared.imports(text).items()}
    for crate, module, other in re.findall(r"\bghost use Rattle\.(\w+)\.specs\.([\w.]+) as (\w+);", text):
        path = module_file(crate, module)
        its_words = declared.words(path) if path.exists() else []
        found.update((f"{other}.{word.name}", (crate, module)) for word in its_words)

    def is_own(crate, module):
        return (CRATES / crate).is_dir() and not module.startswith("declared")

    return {word: home for word, home in found.items() if is_own(*home)}


def words(text, file, folder):
    """Links to the words of our own that a text says, each to its module."""
    known = known_words(file)
    said = [*re.findall(r"[^\s(){},;.⟦⟧]+", text), *re.findall(r"\b\w+\.\w+", text)]
    links = []
    for word in dict.fromkeys(word for word in said if word in known):
        crate, module = known[word]
        page = layout.relative(f"definitions/{crate}.md", folder)
        links.append(f"[`{word}`]({page}#{layout.slug(module)})")
    return f"Words: {', '.join(links)}." if links else ""


def call(item, name, file, folder, block="", level="###"):
    """A function as it is to be read, and the block that it stands in where that has parameters."""
    yield from (f"{level} `{name}`", "")
    yield from layout.fenced([*([f"// {block}"] if "<" in block else []), item.head], "rust")
    if item.comment:
        yield from (linked(item.comment, folder, sources.crate_of(file)), "")
    if item.clauses:
        yield from contract(item.clauses)
        said = words(" ".join(clause.text for clause in item.clauses), file, folder)
        yield from layout.listed([said] if said else [])


def shown_parts(item):
    """The fields of a struct that callers see, or the variants of an enum."""
    its = [part for part in item.members if part.kind == "part"]
    return [part for part in its if part.is_public] if item.kind == "struct" else its


def shape(item):
    """A type or a trait as it is written, without comments; `..` stands for fields that callers don't see."""
    its = shown_parts(item)
    has_others = len(its) < sum(part.kind == "part" for part in item.members)
    if not its:
        return [f"{item.head} {{ .. }}" if has_others else item.head]
    texts = (re.sub(r"^ *(?:///|#\[).*\n", "", part.head, flags=re.MULTILINE) for part in its)
    lines = [f"    {text},".replace("\n", "\n    ") for text in texts]
    return [f"{item.head} {{", *lines, *(["    .."] if has_others else []), "}"]


def parts(item, said):
    """The fields or variants that have a comment, as `said` shows it, and so those of a variant."""
    for part in shown_parts(item):
        if part.comment:
            yield f"- `{part.name}`: {said(part.comment)}"
        yield from (f"  - `{field.name}`: {said(field.comment)}" for field in part.members if field.comment)


def traits(home, item):
    """The traits that a type has, with what is said of their calls there."""
    derived = ",".join(names for text in item.attributes for names in DERIVED.findall(text))
    found = {name.strip(): "" for name in derived.split(",") if name}
    for _, block in contents.impls(home.crate).get(home.name, ()):
        if block.trait:
            comments = " ".join(it.comment for it in block.members if it.kind == "fn" and it.comment)
            shown = re.sub(r"^impl(<.*?>)? | for .*$", "", block.head.split("\n")[0]).split("::")[-1]
            found[shown] = found.get(shown) or comments
    return {name: comment for name, comment in found.items() if name not in UNSAID}


def model(home, folder):
    """As what contracts see a type that they don't see as its fields."""
    for file, block in contents.impls(home.crate).get(home.name, ()):
        for member in block.members:
            if (block.trait, member.kind, member.name) == ("Model", "ghost", "Value"):
                seen = "nothing" if member.head.startswith("Unit") else f"`{member.head}`"
                yield f"Contracts see it as {seen}. {words(member.head, file, folder)}".rstrip()


def of_type(home, folder):
    """A type or a trait as it is to be read, with its calls."""
    item, file = exports.declared_at(home), exports.file_of(home)

    def said(comment):
        return linked(layout.joined(comment), folder, home.crate)

    yield from (f"## {contents.heading(home)}", "", linked(item.comment, folder, home.crate), "")
    yield from layout.fenced(shape(item), "rust")
    yield from layout.listed(parts(item, said))
    yield from layout.listed(model(home, folder))
    if its_traits := traits(home, item):
        yield from (f"Traits: {', '.join(f'`{name}`' for name in its_traits)}.", "")
    comments = {name: comment for name, comment in its_traits.items() if comment}
    yield from layout.listed(f"- `{name}`: {said(comment)}" for name, comment in comments.items())
    yield from (*path_of(home, folder), "")
    calls = [(f"{home.name}::{it.name}", path, block, it) for path, block, it in contents.calls(home)]
    if calls:
        links = ", ".join(f"[`{it.name}`](#{layout.slug(name)})" for name, _, _, it in calls)
        yield from (f"Calls: {links}.", "")
    for name, path, block, it in calls:
        yield from call(it, name, path, folder, block)


def path_of(home, folder):
    """By which path callers name an item, and where it is declared."""
    return [f"Path: `{contents.places()[home].paths[0]}`. {layout.source(exports.file_of(home), folder)}"]


def head(page, folder):
    """The title of a page, and what the module says that it is about."""
    about = exports.module(page.about or page.homes.split()[0])
    said = linked(declared.head_comment(exports.file_of(about)), folder, about.crate)
    return [f"# {page.title}", "", layout.MADE, "", said, ""]


def rows(homes, page=""):
    """A table of items, each with a link to it and the first sentence of its comment."""
    yield from ("| name | what it is |", "|---|---|")
    for home in homes:
        said = layout.cell(first_sentence(exports.declared_at(home).comment))
        yield f"| [`{contents.title(home)}`]({page}#{anchor(home)}) | {said} |"
    yield ""


def first_sentence(comment):
    """The first sentence of a comment, or what stands before its colon, without links."""
    text = contents.LINK.sub(lambda it: it[1] or f"`{it[3]}`", layout.joined(comment.split("\n\n")[0]))
    return re.split(r"(?<=[.:])\s(?=[A-Z`])", text)[0].rstrip(":")


def of_calls(page):
    """A page of `docs/api`: functions first, and then types with their calls."""
    homes = sorted(contents.of_page("api", page), key=lambda home: exports.declared_at(home).kind != "fn")
    yield from head(page, "api")
    yield from rows(homes)
    for home in homes:
        item = exports.declared_at(home)
        if item.kind == "fn":
            yield from call(item, contents.title(home), exports.file_of(home), "api", level="##")
            yield from (*path_of(home, "api"), "")
        else:
            yield from of_type(home, "api")


def of_laws(page):
    """A page of `docs/laws`, module by module."""
    homes = contents.of_page("laws", page)
    yield from (f"# {page.title}", "", layout.MADE, "")
    for module in dict.fromkeys(exports.Home(home.crate, home.module) for home in homes):
        said = declared.head_comment(exports.file_of(module))
        yield from (linked(said, "laws", module.crate), "")
        its = [home for home in homes if (home.crate, home.module) == (module.crate, module.module)]
        yield from rows(its)
        for home in its:
            item, file = exports.declared_at(home), exports.file_of(home)
            yield from call(item, contents.title(home), file, "laws", level="##")
            yield from (*path_of(home, "laws"), "")


def index(folder, name):
    """The first page of a folder: each page by its title, with what stands on it."""
    yield from (f"# {name}", "", layout.MADE, "", layout.head(folder), "")
    for page in contents.FOLDERS[folder]:
        yield from (f"## [{page.title}]({page.name}.md)", "")
        yield from rows(contents.of_page(folder, page), f"{page.name}.md")


def names():
    """All items and calls from A to Z, by the last part of their names, each with a link to it."""
    found = []
    for home, place in contents.places().items():
        if place.folder == "api":
            found.append((contents.title(home), f"{place.page.name}.md#{anchor(home)}"))
            its = (f"{home.name}::{it.name}" for _, _, it in contents.calls(home))
            found += [(name, f"{place.page.name}.md#{layout.slug(name)}") for name in its]
    yield from ("# Names from A to Z", "", layout.MADE, "")
    for letter, its in itertools.groupby(sorted(found, key=last_part), lambda it: last_part(it)[0][0]):
        yield from (f"## {letter.upper()}", "", *(f"- [`{name}`]({link})" for name, link in its), "")


def last_part(named):
    name = named[0].split("::")[-1].lower()
    return name, named[0]


def pages():
    """The pages of both folders, by their paths below `docs/`."""
    yield "api/README.md", index("api", "The API")
    yield "api/names.md", names()
    yield "laws/README.md", index("laws", "The laws")
    yield from ((f"api/{page.name}.md", of_calls(page)) for page in contents.FOLDERS["api"])
    yield from ((f"laws/{page.name}.md", of_laws(page)) for page in contents.FOLDERS["laws"])
