"""Random schemas without faults, and documents over them, in lines that can be said in GraphQL too.

An item is a list of lines, its header first. Its components stand in the order in which GraphQL has them.
"""
from peg.notation import KINDS, LOCATIONS, OPERATIONS, ROOTS, SCALARS

NAMES = ["a", "b", "c", "d", "e", "f"]
# The fields of the introspection types that October 2021 has, by what they are selected in.
META = {
    "__schema": "__Schema",
    "__type": "__Type",
    "__Schema": {"types": "__Type", "directives": "__Directive", "description": "String"},
    "__Type": {"kind": "__TypeKind", "name": "String", "fields": "__Field", "ofType": "__Type", "enumValues": "__EnumValue"},
    "__Field": {"name": "String", "args": "__InputValue", "type": "__Type"},
    "__InputValue": {"name": "String", "type": "__Type", "defaultValue": "String"},
    "__EnumValue": {"name": "String", "isDeprecated": "Boolean"},
    "__Directive": {"name": "String", "locations": "__DirectiveLocation", "args": "__InputValue"},
}


class Schema:
    """A schema without faults: `kinds` by type, inner types of `fields` by type and name, `roots` by operation, `items`."""

    def __init__(self, random):
        self.random, self.choice = random, random.choice
        names = [f"T{at}" for at in range(random.randint(1, 7))]
        self.kinds = {name: self.choice([*KINDS, "object", "object"]) for name in names}
        self.kinds |= {name: "object" for name in ROOTS if random.random() < 0.7}
        self.kinds.setdefault("Query", "object")
        self.fields, self.items = {}, []
        for name, kind in self.kinds.items():
            self.items += self.spread(self.components(kind, name), f"def {kind} {name}", f"ext {kind} {name}")
        for name in random.sample(["d", "link", "skip", "deprecated"], random.randint(0, 3)):
            repeatable = ["repeatable"] * random.randint(0, 1)
            self.items.append([f"directive {name}", *self.arguments(), *repeatable, *(f"on {it}" for it in self.sample(LOCATIONS, 1))])
        self.roots = {operation: name for operation, name in zip(OPERATIONS, ROOTS) if name in self.kinds}
        self.items += self.definition()
        random.shuffle(self.items)

    def of_kinds(self, *kinds):
        return [name for name, kind in self.kinds.items() if kind in kinds]

    def sample(self, some, least=0):
        return self.random.sample(some, self.random.randint(min(least, len(some)), len(some)))

    def inner(self, *kinds):
        return self.choice([*SCALARS, *self.of_kinds("scalar", "enum", *kinds)])

    def type(self, name):
        return self.choice(["{}", "{}", "{}!", "[{}]", "[{}!]!"]).format(name)

    def directives(self, word="@"):
        return [f"{word} {self.choice(['d', 'link', 'other'])}" for _ in range(self.choice([0, 0, 1, 2]))]

    def arguments(self):
        return [f"arg {name} {self.type(self.inner('input'))}" for name in self.sample(NAMES[:2])]

    def field(self, kind, owner, name):
        inner = self.inner("input") if kind == "input" else self.inner("object", "interface", "union")
        if kind != "input":
            self.fields.setdefault(owner, {})[name] = inner
        arguments = self.arguments() if kind != "input" else []
        return [f"field {name} {self.type(inner)}", *arguments, *self.directives("field@")]

    def components(self, kind, name):
        """What the type has, in groups of lines, those first that GraphQL has first."""
        has_fields = kind in ("object", "interface", "input")
        interfaces = self.sample(self.of_kinds("interface")) if has_fields and kind != "input" else []
        groups = [[f"implements {it}"] for it in interfaces if it != name]
        groups += [[line] for line in self.directives()]
        if has_fields:
            groups += [self.field(kind, name, it) for it in self.sample(NAMES, 1)]
        elif kind == "union":
            groups += [[f"member {it}"] for it in self.sample(self.of_kinds("object"), 1)]
        elif kind == "enum":
            groups += [[f"value {it}"] for it in self.sample(NAMES, 1)]
        return groups

    def spread(self, groups, definition, extension):
        """The groups, each in the definition or in an extension. GraphQL has no empty extension."""
        parts = [[definition], *([extension] for _ in range(self.choice([0, 0, 1, 2, 3])))]
        for group in groups:
            self.choice(parts).extend(group)
        return [part for part in parts if len(part) > 1 or part[0] == definition != extension]

    def definition(self):
        """Nothing, extensions of what is implied, or a definition with a root of its own and extensions."""
        choice = self.random.random()
        if choice < 0.4:
            return []
        is_implied = choice < 0.6
        own = {it: self.choice(self.of_kinds("object")) for it in self.sample(OPERATIONS, not is_implied)}
        if is_implied:
            own = {operation: name for operation, name in own.items() if operation not in self.roots}
        self.roots = {**(self.roots if is_implied else {}), **own}
        lines = [f"root {operation} {name}" for operation, name in own.items()]
        groups = [[line] for line in [*self.directives(), *lines[not is_implied :]]]
        parts = self.spread(groups, "ext-schema" if is_implied else "schema", "ext-schema")
        if not is_implied:
            # A definition in GraphQL has a root.
            parts[0].append(lines[0])
        return parts


def twice(random, schema):
    """The items with some repeated: definitions, extensions of other kinds or of what isn't there, and components."""
    items = [list(item) for item in schema.items]
    for _ in range(random.randint(1, 5)):
        item = random.choice(items)
        words = item[0].split(" ")
        choice = random.random()
        if choice < 0.25 and words[0] != "ext":
            items.append(list(item))
        elif choice < 0.4 and len(words) == 3:
            items.append([f"ext {random.choice(KINDS)} {random.choice([words[2], 'Gone'])}", "@ d"])
        elif choice < 0.5 and words[0] == "def":
            items.append([f"def {random.choice(KINDS)} {words[2]}", "@ d"])
        else:
            repeat_component(random, items, item)
    random.shuffle(items)
    return items


def repeat_component(random, items, item):
    """A component of the item once more: in it, in another item of the same header, or in an extension, old or new."""
    lines = [line for line in item[1:] if line.split(" ")[0] in ("implements", "field", "member", "value", "root")]
    if lines:
        words = item[0].split(" ")
        extension = "ext-schema" if words[0].endswith("schema") else " ".join(["ext", *words[1:]])
        line, new = random.choice(lines), [extension]
        place = random.choice([it for it in items if it[0] in (item[0], extension)] + [new])
        place.insert(1 if line.startswith("implements") else len(place), line)
        items += [new] if place is new else []


class Document:
    """A document over a schema: mostly of fields that are there, with subselections where they want them."""

    def __init__(self, random, schema):
        self.random, self.choice, self.schema, self.lines = random, random.choice, schema, []
        for _ in range(random.randint(1, 5)):
            if random.random() < 0.6:
                self.operation()
            else:
                is_odd = random.random() < 0.15
                ty = self.choice([*schema.kinds, "Gone", *SCALARS] if is_odd else self.composites())
                self.lines.append(f"fragment {self.choice('FGH')} {ty}")
                self.selections(ty, 0)

    def composites(self):
        return self.schema.of_kinds("object", "interface", "union")

    def operation(self):
        rootless = [it for it in OPERATIONS if it not in self.schema.roots]
        with_root = list(self.schema.roots)
        operation = self.choice(rootless if rootless and self.random.random() < 0.1 or not with_root else with_root)
        self.lines.append(f"operation {operation} {self.choice('-QRSUV')}")
        self.lines += self.choice([[], ["@ d"]])
        self.selections(self.schema.roots.get(operation, "Gone"), 0)

    def fields_of(self, ty):
        own = dict(self.schema.fields.get(ty, {}))
        if self.random.random() < 0.1:
            own |= META.get(ty, {}) | {"__typename": "String"} | {it: META[it] for it in ("__schema", "__type")}
        return own or META.get(ty) or {"__typename": "String"}

    def selections(self, ty, depth):
        for _ in range(self.choice([1, 1, 2, 3, 4])):
            choice = self.random.random()
            if choice < 0.1:
                self.lines.append(f"sel {depth} spread {self.choice('FGHI')}")
            elif choice < 0.25:
                self.inline(ty, depth)
            else:
                self.field(ty, depth)

    def inline(self, ty, depth):
        others = ["Gone", *self.schema.kinds, "Int"] * (self.random.random() < 0.2)
        condition = self.choice([ty, ty, self.choice(self.composites()), *others])
        is_bare = self.random.random() < 0.3
        self.lines.append(f"sel {depth} inline" + ("" if is_bare else f" {condition}"))
        self.selections(ty if is_bare else condition, depth + 1)

    def field(self, ty, depth):
        fields = self.fields_of(ty)
        name = self.choice(list(fields) if self.random.random() < 0.9 else ["zz", *NAMES])
        self.lines.append(f"sel {depth} field {name}{self.choice(['', '', '', ' x', ' y'])}")
        inner = fields.get(name, "Gone")
        is_composite = inner in self.composites() or inner in META
        if depth < 6 and (is_composite != (self.random.random() < 0.12)):
            self.selections(inner, depth + 1)
