"""The bench notation (docs/NOTATION.md): its words, the items that lines say, and what these are as GraphQL text."""
from typing import NamedTuple

KINDS = ["scalar", "object", "interface", "union", "enum", "input"]
OPERATIONS = ["query", "mutation", "subscription"]
ROOTS = ["Query", "Mutation", "Subscription"]
LOCATIONS = ["QUERY", "FIELD", "SCHEMA", "OBJECT", "FIELD_DEFINITION", "INPUT_FIELD_DEFINITION"]
SCALARS = ["Int", "String", "ID", "Boolean", "Float"]
# Built-in types and meta-fields, of which a write-out says nothing.
BUILT_IN = [*SCALARS, "__Type", "__Schema", "__TypeKind"]
META = ["__typename", "__schema", "__type"]
HEADERS = {"def", "ext", "directive", "schema", "ext-schema", "operation", "fragment"}

# What stands in GraphQL in front of the first line of a sort, and of each further one.
SEPARATORS = {
    "implements": (" implements ", " & "),
    "member": (" = ", " | "),
    "value": (" { ", " "),
    "root": (" { ", " "),
    "field": (" { ", " "),
    "on": (" on ", " | "),
    "arg": ("(", ", "),
}

# Where lines stand in GraphQL below their header or field: behind others of it, but for those below 0.
PLACES = {"implements": -2, "@": -1, "field@": 1}


class Item(NamedTuple):
    """A header, by the number of its line and its words, and the lines below it."""

    number: int
    words: list
    parts: list

    def all(self, word):
        """What stands behind this word, for each line that begins with it."""
        return [words[1:] for _, words in self.parts if words[0] == word]


def items(lines):
    """The items of lines that say documents."""
    found = []
    for number, line in enumerate(lines, 1):
        words = line.split(" ")
        if words[0] in HEADERS:
            found.append(Item(number, words, []))
        elif line not in ("", "---", "==="):
            found[-1].parts.append((number, words))
    return found


def text(lines):
    return "".join(f"{line}\n" for line in lines).encode()


def selections(item):
    """The selections of an item, as a tree: of each its line, its words behind the depth, and what stands below it."""
    lists = [[]]
    for number, (word, *words) in item.parts:
        if word == "sel":
            del lists[int(words[0]) + 1 :]
            lists.append([])
            lists[-2].append((number, words[1:], lists[-1]))
    return lists[0]


def head(words):
    """A header in GraphQL."""
    named = {"object": "type"}
    match words:
        case ["def", kind, name]:
            return f"{named.get(kind, kind)} {name}"
        case ["ext", kind, name]:
            return f"extend {named.get(kind, kind)} {name}"
        case ["directive", name]:
            return f"directive @{name}"
        case ["operation", operation, name]:
            return f"{operation} {name}".removesuffix(" -")
        case ["fragment", name, condition]:
            return f"fragment {name} on {condition}"
    return {"schema": "schema", "ext-schema": "extend schema"}[words[0]]


def part(words):
    """Another line in GraphQL, without the type of a field."""
    match words:
        case ["@" | "field@", name]:
            return f"@{name}"
        case ["root" | "arg", name, ty]:
            return f"{name}: {ty}"
        case ["repeatable"]:
            return "repeatable"
        case ["sel", _, "field", *names]:
            return ": ".join(reversed(names))
        case ["sel", _, "spread", name]:
            return f"...{name}"
        case ["sel", _, "inline", *condition]:
            return " ".join(["...", *(f"on {name}" for name in condition)])
    return words[1]


def graphql_lines(item):
    """An item in GraphQL, the text of each line. Its lines stand in the order in which GraphQL has them: interfaces, directives,
    then fields, each followed by its arguments and then its directives, or members, values or roots; of a directive arguments,
    `repeatable`, places."""
    texts, seen, ty, depth = [head(item.words)], set(), "", -1
    for _, words in [*item.parts, (0, ["end"])]:
        word = words[0]
        if word == "sel":
            texts[-1] += " {" if int(words[1]) > depth else " }" * (depth - int(words[1]))
            depth = int(words[1])
        elif word != "arg":
            # The arguments of a field end, and its type comes, or those of a directive end.
            texts[-1] += ")" * ("arg" in seen) + ty
            seen, ty = seen - {"arg"}, ""
        if word != "end":
            texts.append(SEPARATORS.get(word, (" ", " "))[word in seen] + part(words))
            seen.add(word)
        if word == "field":
            ty = f": {words[2]}"
    texts[-1] += " }" * (depth + 1 + bool(seen & {"value", "root", "field"}))
    return texts


def as_graphql(lines):
    """Lines that say documents as GraphQL text, each in the line of the same number."""
    texts = [""] * len(lines)
    for item in items(lines):
        texts[item.number - 1 : item.number + len(item.parts)] = graphql_lines(item)
    return "\n".join(texts)


def in_order(lines):
    """Lines that say documents, with those below each header and each field in the order in which GraphQL has them."""
    groups = []
    for line in lines:
        word = line.split(" ")[0]
        if word in (*HEADERS, "field", "---", "==="):
            groups.append([])
        groups[-1].append((PLACES.get(word, 0), line))
    return [line for group in groups for _, line in group[:1] + sorted(group[1:], key=lambda it: it[0])]


def without_empty(lines):
    """Lines that say documents, without inline fragments that have no selections, of which GraphQL has none."""
    kept = []
    for line in reversed(lines):
        match line.split(" "):
            case ["sel", depth, "inline", *_] if not (kept and kept[-1].startswith(f"sel {int(depth) + 1} ")):
                continue
        kept.append(line)
    return kept[::-1]


def described(lines):
    """The types, directive definitions and roots that a write-out says, and the directives of the schema's definition."""
    types, directives, roots, applied, has_definition = {}, {}, {}, [], False
    for item in items(lines):
        word, *names = item.words
        its_directives = [name for (name,) in item.all("@")]
        if word in ("def", "ext"):
            empty = {"kind": names[0], "directives": [], "implements": [], "members": [], "values": [], "fields": {}}
            ty = types.setdefault(names[1], empty)
            ty["directives"] += its_directives
            for many, one in ("implements", "implements"), ("members", "member"), ("values", "value"):
                ty[many] += [name for (name,) in item.all(one)]
            ty["fields"] |= fields(item)
        elif word == "directive":
            directives[names[0]] = [item.all("arg"), item.all("repeatable") != [], [name for (name,) in item.all("on")]]
        else:
            applied += its_directives
            roots |= dict(item.all("root"))
            has_definition = True
    if not has_definition:
        roots = {name.lower(): name for name in ROOTS if types.get(name, {}).get("kind") == "object"}
    return {"types": types, "directives": directives, "roots": roots, "applied": applied}


def fields(item):
    """The fields of an item by their names: of each its type, its arguments and its directives."""
    found = {}
    for _, (word, *rest) in item.parts:
        if word == "field":
            last = found[rest[0]] = [rest[1], [], []]
        elif word == "arg":
            last[1].append(rest)
        elif word == "field@":
            last[2].append(rest[0])
    return found
