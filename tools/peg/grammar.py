"""Random GraphQL documents, as their tokens: GraphQL specification of October 2021, appendix B."""
NAMES = ["a", "b", "B2", "_", "__c", "Query", "FIELD", "on", "type", "query", "input", "schema", "fragment", "implements"]
NAMES += ["repeatable", "true", "null"]
LOCATIONS = ["QUERY", "MUTATION", "SUBSCRIPTION", "FIELD", "FRAGMENT_DEFINITION", "FRAGMENT_SPREAD", "INLINE_FRAGMENT"]
LOCATIONS += ["VARIABLE_DEFINITION", "SCHEMA", "SCALAR", "OBJECT", "FIELD_DEFINITION", "ARGUMENT_DEFINITION", "INTERFACE", "UNION"]
LOCATIONS += ["ENUM", "ENUM_VALUE", "INPUT_OBJECT", "INPUT_FIELD_DEFINITION"]
RESERVED = ["true", "false", "null"]
NUMBERS = ["0", "-0", "7", "-12", "900719925474099312345", "0.5", "-0.0e+1", "1e10", "2E-5", "12.50"]
CHARACTERS = ["a", "b c", " ", "\t", "'", "#", ",", "{", "\u00e9", "\u2603", "\U0001d11e", "\u2028", "\ufeff", "\x7f"]
ESCAPES = [r"\"", r"\\", r"\/", r"\b", r"\f", r"\n", r"\r", r"\t", r"\u00e9", r"\u000A", r"\uD834\uDD1E", r"\u{1d11e}", r"\u{0}"]
WRONG = ["\\", r"\x", r"\u12", r"\u{}", r"\u{110000}", r"\uD834", r"\uDD1E\uD834", r"\uD834\u{dd1e}", "\x07", "\0", "\n", "\r"]
BLOCK = ["\n", "\n", "\r", "\r\n", "\n  ", "\n \t", "\n    ", " ", '"a', '""b', r"\"""", r"\n", r"\u0041", "\\a"]
PUNCTUATORS = ["!", "$", "&", "(", ")", "...", ":", "=", "@", "[", "]", "{", "|", "}"]
WORDS = ["query", "mutation", "subscription", "fragment", "on", "extend", "schema", "scalar", "type", "interface", "union", "enum"]
WORDS += ["input", "directive", "repeatable", "implements", *RESERVED]
# What a token may be changed to: also what is none.
TOKENS = [*PUNCTUATORS, *PUNCTUATORS, *WORDS, *NAMES, *NUMBERS, '""', '"a"', '"""b"""', '"', '"""']
TOKENS += ["01", "1.", "1e", "-", "1.5.", "1a", "..", ".", "?", "/", "'", "\\", "\0", "\u00e9", "\ufeff"]


class Maker:
    """Makes lists of tokens. A part that may be missing is there half the times."""

    def __init__(self, chance):
        self.chance = chance
        self.wrong = chance.choice([0, 0, 0, 0.05])

    def choice(self, options):
        return self.chance.choice(options)

    def is_wrong(self):
        return self.chance.random() < self.wrong

    def maybe(self, make, *given):
        return make(*given) if self.chance.random() < 0.5 else []

    def some(self, make, *given, most=3):
        return [token for _ in range(self.chance.randint(1, most)) for token in make(*given)]

    def enclosed(self, signs, make, *given):
        return [signs[0], *self.some(make, *given), signs[1]]

    def separated(self, sign, make):
        return [*self.maybe(lambda: [sign]), *make(), *self.maybe(self.some, lambda: [sign, *make()])]

    def name(self, but=()):
        return [self.choice([name for name in NAMES if name not in but or self.is_wrong()])]

    def text(self):
        """A string or a block string."""
        quotes, pieces = self.choice([('"', CHARACTERS), ('"', CHARACTERS + ESCAPES), ('"""', CHARACTERS + 2 * BLOCK)])
        inside = [self.choice(WRONG if self.is_wrong() else pieces) for _ in range(self.chance.randint(0, 7))]
        return [quotes + "".join(inside) + quotes]

    def value(self, constant, depth=2):
        makes = [lambda: [self.choice(NUMBERS)], self.text, lambda: [self.choice(RESERVED)], self.name]
        if not constant or self.is_wrong():
            makes.append(lambda: ["$", *self.name()])
        if depth:
            makes.append(lambda: ["[", *self.maybe(self.some, self.value, constant, depth - 1), "]"])
            makes.append(lambda: ["{", *self.maybe(self.some, self.argument, constant, depth - 1), "}"])
        return self.choice(makes)()

    def argument(self, constant, depth=2):
        return [*self.name(), ":", *self.value(constant, depth)]

    def arguments(self, constant):
        return self.enclosed("()", self.argument, constant)

    def directive(self, constant):
        return ["@", *self.name(), *self.maybe(self.arguments, constant)]

    def directives(self, constant):
        return self.maybe(self.some, self.directive, constant)

    def type(self, depth=2):
        inner = self.name() if not depth or self.chance.random() < 0.6 else ["[", *self.type(depth - 1), "]"]
        return [*inner, *self.maybe(lambda: ["!"])]

    def typed(self):
        return [":", *self.type(), *self.maybe(lambda: ["=", *self.value(True)]), *self.directives(True)]

    def selections(self, depth=2):
        return self.enclosed("{}", self.selection, depth)

    def selection(self, depth):
        inside = self.selections(depth - 1) if depth and self.chance.random() < 0.5 else []
        field = [*self.maybe(lambda: [*self.name(), ":"]), *self.name(), *self.maybe(self.arguments, False)]
        spread = ["...", *self.name(but=["on"]), *self.directives(False)]
        inline = ["...", *self.maybe(lambda: ["on", *self.name()]), *self.directives(False), *(inside or ["{", "a", "}"])]
        return self.choice([[*field, *self.directives(False), *inside], spread, inline])

    def operation(self):
        variables = self.maybe(self.enclosed, "()", lambda: ["$", *self.name(), *self.typed()])
        word = self.choice(["query", "mutation", "subscription"])
        return [word, *self.maybe(self.name), *variables, *self.directives(False), *self.selections()]

    def fragment(self):
        return ["fragment", *self.name(but=["on"]), "on", *self.name(), *self.directives(False), *self.selections()]

    def described(self):
        return self.text() if self.chance.random() < 0.3 else []

    def input_value(self):
        return [*self.described(), *self.name(), *self.typed()]

    def inputs(self, signs):
        return self.maybe(self.enclosed, signs, self.input_value)

    def field(self):
        return [*self.described(), *self.name(), *self.inputs("()"), ":", *self.type(), *self.directives(True)]

    def enum_value(self):
        return [*self.described(), *self.name(but=RESERVED), *self.directives(True)]

    def root(self):
        return [self.choice(["query", "mutation", "subscription"]), ":", *self.name()]

    def location(self):
        return self.name() if self.is_wrong() else [self.choice(LOCATIONS)]

    def directive_definition(self):
        repeatable = self.maybe(lambda: ["repeatable"])
        return ["directive", "@", *self.name(), *self.inputs("()"), *repeatable, "on", *self.separated("|", self.location)]

    def parts(self, word):
        """What stands behind the name of a type, or behind `schema`."""
        implements = self.maybe(lambda: ["implements", *self.separated("&", self.name)])
        below = {
            "schema": lambda: self.enclosed("{}", self.root),
            "type": lambda: self.maybe(self.enclosed, "{}", self.field),
            "interface": lambda: self.maybe(self.enclosed, "{}", self.field),
            "union": lambda: self.maybe(lambda: ["=", *self.separated("|", self.name)]),
            "enum": lambda: self.maybe(self.enclosed, "{}", self.enum_value),
            "input": lambda: self.inputs("{}"),
        }
        return [*(implements if word in ("type", "interface") else []), *self.directives(True), *below.get(word, list)()]

    def of_type_system(self):
        word = self.choice(["schema", "scalar", "type", "type", "interface", "union", "enum", "input"])
        head = [word, *([] if word == "schema" else self.name())]
        return self.choice([[*self.described(), *head], ["extend", *head]]) + self.parts(word)

    def definition(self):
        makes = [self.operation, self.fragment, lambda: [*self.described(), *self.directive_definition()]]
        makes += [self.of_type_system] * 6
        return [*(self.text() if self.is_wrong() else []), *self.choice(makes)()]

    def document(self):
        return [*(self.selections() if self.chance.random() < 0.1 else []), *self.some(self.definition)]

    def tokens(self, sort):
        """A document, or what else `gqltext` reads."""
        makes = {"selections": self.selections, "type": self.type, "value": lambda: self.value(True)}
        return makes.get(sort, self.document)()
