"""Random inputs in the bench notation, for each command of `gqltool`. The names are few, so that they collide."""
from typing import NamedTuple

from peg.notation import BUILT_IN, KINDS, LOCATIONS, META, OPERATIONS, ROOTS, text

COMMANDS = ["schema", "coord", "doc", "walk", "leaf"]
# What may stand below the header of each sort: a field has its own directives and arguments.
BELOW = {
    "scalar": ["@"],
    "object": ["@", "implements", "implements", "field", "field", "field", "field"],
    "union": ["@", "member", "member", "member"],
    "enum": ["@", "value", "value", "value"],
    "input": ["@", "field", "field", "field"],
    "schema": ["@", "root", "root"],
    "directive": ["arg", "repeatable", "on"],
}
BELOW["interface"] = BELOW["object"]
# What a changed line may get: what ends words and lines elsewhere, what has no letter, and what is no UTF-8.
ODD = [b" ", b"\t", b"\r", b"\0", b"\n", b"\xef\xbb\xbf", "\u2192".encode(), b"\xff"]
ODD += [b"!", b"[", b"]", b"-", b"9", b"_", b"sel", b"201"]


class Case(NamedTuple):
    """A run: its words, its input, and whether that was left as it was made, so that no line of it is refused."""

    words: list
    text: bytes
    is_clean: bool


class Maker:
    """Makes lines, out of names that it draws from pools of its own size."""

    def __init__(self, random):
        self.random, self.choice = random, random.choice
        size = self.choice([1, 2, 4, 8])
        self.types = [f"T{at}" for at in range(size)] + ROOTS[: random.randint(1, 3)]
        self.names = ["a", "b", "c", "d", "e", "id", "user", "type"][:size]
        self.strange = self.choice([0, 0, 0.1])
        self.lines = []

    def is_strange(self):
        return self.random.random() < self.strange

    def some(self, most):
        return range(self.random.randint(0, most))

    def say(self, *words):
        self.lines.append(" ".join(map(str, words)))

    def type_name(self):
        return self.choice(BUILT_IN if self.is_strange() else self.types)

    def name(self):
        return self.choice(META if self.is_strange() else self.names)

    def directive(self):
        return self.choice(["d", "skip", "link"])

    def type(self):
        name = self.choice([self.type_name(), "Int", "ID"])
        return self.choice(["{}", "{}", "{}!", "[{}]", "[{}!]!", "[[{}]!]"]).format(name)

    def component(self, word):
        draws = {"@": [self.directive], "implements": [self.type_name], "member": [self.type_name], "value": [self.name]}
        draws |= {"field": [self.name, self.type], "arg": [self.name, self.type], "field@": [self.directive], "repeatable": []}
        draws |= {"on": [lambda: self.choice(LOCATIONS)], "root": [lambda: self.choice(OPERATIONS), self.type_name]}
        self.say(word, *(draw() for draw in draws[word]))

    def components(self, sort, most):
        for _ in self.some(most):
            word = self.choice(BELOW[sort])
            self.component(word)
            own = [*["field@"] * self.random.randint(0, 1), *["arg"] * self.random.randint(0, 2 * (sort != "input"))]
            for further in self.random.sample(own, len(own)) if word == "field" else []:
                self.component(further)

    def type_item(self, name="", most=4):
        kind = self.choice([*KINDS, "object", "object"])
        self.say("def" if name else self.choice(["def", "ext"]), kind, name or self.type_name())
        self.components(kind, most)

    def schema_item(self):
        self.say(self.choice(["schema", "ext-schema"]))
        self.components("schema", 3)

    def directive_item(self):
        self.say("directive", self.directive())
        self.components("directive", 3)

    def executable_item(self):
        if self.random.random() < 0.5:
            self.say("operation", self.choice(["query"] * 6 + OPERATIONS), self.choice(["-", "Q", "R", "S"]))
        else:
            self.say("fragment", self.choice("FGH"), self.type_name())
        for _ in self.some(1):
            self.component("@")
        deepest = 0
        for _ in self.some(self.choice([3, 8, 20])):
            depth = self.choice([deepest, deepest, self.random.randint(0, deepest)])
            sort = self.choice(["field", "field", "field", "spread", "inline"])
            words = {"field": [self.name(), "x"], "spread": [self.choice("FGH")], "inline": [self.type_name()]}[sort]
            is_short = self.random.random() < {"field": 0.8, "spread": 0, "inline": 0.3}[sort]
            self.say("sel", depth, sort, *(words[:-1] if is_short else words))
            deepest = depth + (sort != "spread")

    def documents(self, items, most):
        for _ in self.some(most):
            self.random.choices(list(items), items.values())[0]()
            if self.random.random() < 0.1:
                self.say(self.choice(["---", ""]))

    def schema(self):
        # Mostly a definition of each type first, so that more of what follows finds what it names.
        for name in self.types if self.random.random() < 0.6 else []:
            self.type_item(name, 6)
        items = {self.type_item: 20, self.schema_item: 2, self.directive_item: 2, self.executable_item: self.strange}
        self.documents(items, self.choice([1, 4, 14, 40]))

    def divided(self):
        self.schema()
        self.say("===")
        self.documents({self.executable_item: 20, self.type_item: self.strange, self.schema_item: self.strange}, 6)

    def coordinate(self):
        argument = self.choice(["", f"({self.name()}:)"])
        owner = self.choice([f"{self.type_name()}.{self.name()}", f"@{self.directive()}"])
        given = self.choice([self.type_name(), owner + argument, owner + argument]).encode()
        # No word of a command line has a NUL byte.
        return changed(self.random, given).replace(b"\0", b"") if self.random.random() < 0.2 else given


def changed(random, given):
    """The text, cut, or with a part put in, left out or repeated."""
    start, end = sorted(random.randint(0, len(given)) for _ in range(2))
    end = min(end, start + random.choice([1, 2, 40]))
    part = random.choice([b"", random.choice(ODD), given[start:end] * 2])
    return given[:start] + part + given[random.choice([start, end, len(given)]) :]


def changed_lines(random, given):
    """The text with a few lines changed, left out, repeated or followed by others."""
    lines = given.split(b"\n")
    for _ in range(random.randint(1, 3)):
        at = random.randrange(len(lines))
        line = lines[at]
        other, further = changed(random, line), random.choice([b"", b"---", b"==="])
        lines[at : at + 1] = random.choice([[other], [other], [], [line, line], [line, further]])
        lines = lines or [b""]
    return b"\n".join(lines)


def case(random):
    """A random run of one of the commands."""
    maker = Maker(random)
    command = random.choice(COMMANDS)
    options = [b"--adopt", b"--ignore-builtin"] if command == "schema" else []
    words = [command.encode(), *random.sample(options, random.randint(0, len(options)))]
    words += [maker.coordinate()] if command == "coord" else []
    (maker.schema if command in ("schema", "coord") else maker.divided)()
    given = text(maker.lines)
    if random.random() < 0.3:
        return Case(words, changed_lines(random, given), False)
    if random.random() < 0.03:
        return Case(random.choice([words[1:], [*words, b""], [*words, words[0]], [b"\xff"]]), given, False)
    return Case(words, given, True)
