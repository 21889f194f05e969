"""Random schemas without faults as GraphQL tokens, with descriptions, default values and arguments of directives."""
import re

from peg.layouts import LayoutMaker
from peg.notation import head, items
from peg.whole import Schema

# What stands in front of the first of several of a sort, and of each further one.
SIGNS = {"implements": ("implements", "&"), "on": ("on", "|"), "member": ("=", "|")}


def tokens_of(ty):
    return re.findall(r"\w+|\W", ty)


class SchemaMaker(LayoutMaker):
    """Makes the tokens of the items of a random schema."""

    def __init__(self, chance):
        super().__init__(chance)
        self.wrong = 0

    def applied(self, names):
        return [token for (name,) in names for token in ["@", name, *self.maybe(self.arguments, True)]]

    def listed(self, item, word):
        """What an item has of a word that is a name alone, as its interfaces."""
        first, further = SIGNS[word]
        names = [name for (name,) in item.all(word)]
        return [token for at, name in enumerate(names) for token in (further if at else first, name)]

    def default(self):
        return self.maybe(lambda: ["=", *self.value(True)])

    def argument_definitions(self, item):
        arguments = ([*self.described(), name, ":", *tokens_of(ty), *self.default()] for name, ty in item.all("arg"))
        return self.within("()", arguments)

    def within(self, signs, parts):
        tokens = [token for part in parts for token in part]
        return [signs[0], *tokens, signs[1]] if tokens else []

    def fields(self, item):
        """The fields of an item, each with its arguments and directives."""
        fields = []
        for number, words in item.parts:
            if words[0] == "field":
                fields.append(item._replace(words=words[1:], parts=[]))
            elif fields:
                fields[-1].parts.append((number, words))
        return (self.field_definition(field, item.words[1] == "input") for field in fields)

    def field_definition(self, field, is_input):
        name, ty = field.words
        begin = [*self.described(), name, *self.argument_definitions(field), ":", *tokens_of(ty)]
        return [*begin, *(self.default() if is_input else []), *self.applied(field.all("field@"))]

    def item(self, item):
        word = item.words[0]
        begin = [*(self.described() if not word.startswith("ext") else []), *re.findall(r"\w+|@", head(item.words))]
        if word == "directive":
            repeatable = ["repeatable" for _ in item.all("repeatable")]
            return [*begin, *self.argument_definitions(item), *repeatable, *self.listed(item, "on")]
        values = ([*self.described(), value] for (value,) in item.all("value"))
        roots = ([operation, ":", name] for operation, name in item.all("root"))
        return [
            *begin,
            *self.listed(item, "implements"),
            *self.applied(item.all("@")),
            *self.listed(item, "member"),
            *self.within("{}", self.fields(item) if word in ("def", "ext") else roots),
            *self.within("{}", values),
        ]

    def schema(self):
        """The tokens of each item of a schema."""
        lines = [line for item in Schema(self.chance).items for line in item]
        return [self.item(item) for item in items(lines)]
