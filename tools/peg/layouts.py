"""Random GraphQL documents that are printed in different ways, as their tokens."""
from peg.grammar import Maker

# What decides whether a description is a block string, and how it is laid out.
PIECES = ["a", "b  c", " ", "\t", r"\t", r"\n", r"\n", r"\n  ", r"\n\t", r"\"", r"\"\"\"", r"\\", "'", "\x7f", "\x85", "\xa0"]
PIECES += [r"\r", r"\u0007", r"\u0085", r"\u2028"]
# Widths near those at which a description, or the arguments of a field, take more lines than one, and characters of one unit of
# UTF-16 and of two.
WIDTHS = range(58, 76)
CHARACTERS = [("x", 1), ("\u00e9", 1), ("\U0001d11e", 2)]


class LayoutMaker(Maker):
    """Makes lists of tokens with strings of many lines and widths, and with queries that may want their keyword."""

    def wide(self):
        width = self.choice(WIDTHS)
        character, units = self.choice(CHARACTERS)
        quotes = self.choice(['"', '"""'])
        return [quotes + character * (width // units) + "x" * (width % units) + quotes]

    def escaped(self):
        pieces = [self.choice(PIECES) for _ in range(self.chance.randint(0, 6))]
        return ['"' + "".join(pieces) + '"']

    def text(self):
        return self.choice([super().text, self.escaped, self.wide])()

    def operation(self):
        return self.choice([super().operation, lambda: ["query", *self.selections()]])()
