"""Which pages of calls and of laws there are, and where on them each public item stands."""
import functools
import re
from typing import NamedTuple

from peg import declared, exports, layout, sources

# `[text](path)` and [`path`].
LINK = re.compile(r"\[([^\]]+)\]\(([\w:]+)\)|\[`([^`\]]+)`\](?!\()")


class Page(NamedTuple):
    """A page: its name, its title, where what stands on it is declared, the module whose comment comes
    first, or the first of the former, and the library that names it all."""

    name: str
    title: str
    homes: str
    about: str = ""
    library: str = "apollo_compiler"


class Place(NamedTuple):
    """Where an item is shown: the folder and the page, and the paths by which callers name it, the shortest
    first."""

    folder: str
    page: Page
    paths: list


class Block(NamedTuple):
    """What an `impl` block says of a type: the trait, if it is of one, and its members."""

    trait: str
    head: str
    members: tuple


PAGES = [
    Page("compiling", "Documents compiled in one call", "apollo_compiler"),
    Page(
        "files",
        "Files, and what is loaded of them",
        "program_io apollo_compiler::file_refusal apollo_compiler::loading apollo_compiler::loaded_schema"
        " apollo_compiler::loaded_document apollo_compiler::loaded_reports",
        "apollo_compiler::files",
    ),
    Page(
        "text", "GraphQL text: parsing and printing", "graphql_text graphql_printing", "apollo_compiler::text"
    ),
    Page("schema", "Schemas", "apollo_schema", "apollo_schema::schema"),
    Page(
        "schema_builder",
        "The build of a schema, and its faults",
        "apollo_schema::schema_builder apollo_schema::build_failure apollo_schema::orphan_names"
        " apollo_folding apollo_meaning",
    ),
    Page("types", "The types of a schema", "apollo_types"),
    Page(
        "kinds",
        "The types of a schema, kind by kind",
        "apollo_types::scalar_type apollo_types::object_type apollo_types::interface_type"
        " apollo_types::union_type apollo_types::enum_type apollo_types::input_object_type",
        "apollo_types",
    ),
    Page("components", "Components: what types are made of, with origins", "apollo_component"),
    Page("executable", "Typed documents", "apollo_executable", "apollo_compiler::executable"),
    Page("selections", "Typed selections", "apollo_executable::selection apollo_executable::new_field_error"),
    Page("walks", "Walks over the fields of an operation", "apollo_executable::walks"),
    Page(
        "document_builder",
        "The build of a typed document, and its faults",
        "apollo_document",
        "apollo_document::document_builder",
    ),
    Page("coordinate", "Schema coordinates", "apollo_coordinate"),
    Page("usage", "Which fields an operation reaches", "apollo_field_usage"),
    Page("leafcheck", "Leaf field selections", "leafcheck", library="leafcheck"),
    Page("report", "Faults as text and as JSON", "apollo_reporting", "apollo_compiler::report"),
    Page("ast", "Syntax trees: documents, operations, values", "graphql_ast"),
    Page("type_system", "Syntax trees: the type system", "graphql_ast::type_system"),
    Page("nodes", "Names, nodes and source files", "graphql_nodes"),
    Page("collections", "Texts, and values that are shared or owned", "graphql_nodes::collections"),
    Page("lists", "Lists", "graphql_nodes::collections::items"),
    Page(
        "tables",
        "Tables and sets",
        "graphql_nodes::collections::table graphql_nodes::collections::key_set"
        " graphql_nodes::collections::hash_keys",
        "apollo_compiler::collections",
    ),
    Page("peglinden", "The run of peglinden", "peglinden_run::running", library="peglinden_run"),
    Page("gqltool", "The run of gqltool", "gqltool_run::running", library="gqltool_run"),
]
LAWS = [
    Page("headline", "The headline", "apollo_compiler::laws"),
    Page("text", "GraphQL text", "graphql_productions::laws"),
    Page("round_trip", "What is printed is read again", "graphql_round_trip::laws"),
    Page("meaning", "What a list of definitions means", "apollo_meaning::laws"),
    Page("schema", "Schemas and builders", "apollo_schema::laws"),
    Page("write_out", "The write-out of a schema, read again", "apollo_schema_laws::write_out"),
    Page(
        "rearrangement",
        "Equal definitions, and definitions that change places",
        "apollo_schema_laws::rearrangement apollo_schema_laws::rearranged_builds",
    ),
    Page(
        "well_formed",
        "What could have come of a text",
        "apollo_canonical::well_formed apollo_canonical::well_formed_documents",
    ),
    Page("canonical_text", "From text to text", "apollo_canonical::laws"),
    Page("coordinate", "Schema coordinates", "apollo_coordinate::laws"),
    Page("walks", "Walks over selections", "apollo_walks::laws"),
    Page("executable", "Typed documents", "apollo_executable::laws"),
    Page("elaboration", "Selections made typed", "apollo_document::selection_laws"),
    Page("document", "Typed documents that are built", "apollo_document::laws"),
    Page("usage", "Counts of fields", "apollo_field_usage::laws"),
    Page("leafcheck", "Leaf field selections", "leafcheck::laws", library="leafcheck"),
    Page(
        "equality",
        "What `==` compares, and clones",
        "graphql_nodes::laws graphql_ast::laws apollo_component::laws apollo_types::laws"
        " apollo_reporting::laws",
    ),
]


FOLDERS = {"laws": LAWS, "api": PAGES}


def pages_of(home):
    """The pages that may show an item, that with the longest of its homes last."""
    fits = [
        (len(prefix), folder, page)
        for folder, pages in FOLDERS.items()
        for page in pages
        for prefix in page.homes.split()
        if f"{home.path}::".startswith(f"{prefix}::")
    ]
    return [(folder, page) for _, folder, page in sorted(fits, key=lambda it: it[0])]


@functools.cache
def places():
    """Where each public item is shown. What a library hands on of one that has its own pages is shown there
    alone."""
    found = {}
    for library in dict.fromkeys(page.library for page in (*PAGES, *LAWS)):
        for home, paths in exports.public(library).items():
            for folder, page in pages_of(home)[-1:]:
                if page.library == library:
                    found[home] = Place(folder, page, paths)
    return found


def findings():
    """None for each public item that has a page, and else what is wrong."""
    for home in exports.public("apollo_compiler"):
        yield None if pages_of(home) else f"tools/peg/contents.py: no page has {home.path}"


def of_page(folder, page):
    """The items of a page, in order."""
    return [home for home, place in places().items() if (place.folder, place.page) == (folder, page)]


@functools.cache
def impls(crate):
    """What the `impl` blocks of a crate say, by the name of the type that each is of."""
    found = {}
    for path in sources.files("src", crate=crate):
        for item in declared.items(path):
            if item.kind == "impl":
                owner, trait = sources.owner_and_trait(item.head.removeprefix("impl"))
                found.setdefault(owner, []).append((path, Block(trait, item.head, item.members)))
    return found


def calls(home):
    """The calls of a trait, or the public ones of a type, with the file and the head of the block of each:
    first those that stand beside it."""
    own, item = exports.file_of(home), exports.declared_at(home)
    if item.kind == "trait":
        yield from ((own, "", member) for member in item.members if member.kind == "fn")
    for path, block in sorted(impls(home.crate).get(home.name, ()), key=lambda it: it[0] != own):
        if not block.trait:
            its = (member for member in block.members if member.is_public and not member.is_hidden)
            yield from ((path, block.head, member) for member in its)


@functools.cache
def title(home):
    """What an item is called on its page: with its module where another item there has its name."""
    folder, page, paths = places()[home]
    names = [other.name for other in of_page(folder, page)]
    return home.name if names.count(home.name) == 1 else "::".join(paths[0].split("::")[-2:])


def heading(home):
    """The heading of an item: a type has its kind before its name."""
    kind = exports.declared_at(home).kind
    return f"`{title(home)}`" if kind == "fn" else f"{kind.capitalize()} `{title(home)}`"


def anchor(home):
    return layout.slug(heading(home))


@functools.cache
def anchors():
    """The items that have a name, with where they are shown: a call by its type and its name, and so a
    field and a variant."""
    found = {}
    for home, place in places().items():
        at = f"{place.folder}/{place.page.name}.md"
        found.setdefault(home.name, []).append((home, f"{at}#{anchor(home)}"))
        for _, _, call in calls(home):
            name = f"{home.name}::{call.name}"
            found.setdefault(name, []).append((home, f"{at}#{layout.slug(name)}"))
        for part in exports.declared_at(home).members:
            found.setdefault(f"{home.name}::{part.name}", []).append((home, f"{at}#{anchor(home)}"))
    return found


def linked(text, folder, crate):
    """A comment with its links to items made links to pages."""

    def link(found):
        shown = found[1] or f"`{found[3]}`"
        path = (found[2] or found[3].removesuffix("()")).split("::")
        for name in ("::".join(path[-2:]), path[-1]):
            # Of several with one name that of this crate, or that of the crate which the link names.
            choices = anchors().get(name, [])
            first = sorted(choices, key=lambda it: (it[0].crate != path[0], it[0].crate != crate))
            if first:
                return f"[{shown}]({layout.relative(first[0][1], folder)})"
        return shown

    return LINK.sub(link, text)
