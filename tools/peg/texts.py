"""Random GraphQL texts: what `gqltext` reads each as, or where it refuses it, and what it prints of it, beside graphql-js.

Where the two differ for a reason that is known, the difference is counted under that reason, one of `EXPLAINED`. Any other
difference is wrong.
"""
import collections
import itertools
import json
import pathlib
import random
import re
import subprocess

from peg import TOP, programs
from peg.grammar import TOKENS
from peg.layouts import LayoutMaker

SORTS = ["document", "selections", "type", "value"]
# What is asked of each text, by a word of `gqltext` in front of its sort or none: the tree, and the text that is printed.
ASKED = [[], ["print"]]
SCRIPT = pathlib.Path(__file__).with_name("texts.js")
EXPLAINED = {
    "control": "control characters in strings and comments, which graphql-js takes",
    "described": "places behind a description that isn't allowed",
    "ahead": "places at once behind an unknown location or root operation or the `$` of a constant, where no token stands",
}
# How graphql-js says that no token stands somewhere.
NO_TOKEN = "Unterminated|Invalid|Unexpected (character|single quote)"
# How it says that a string can't stand somewhere.
OF_STRING = "Unexpected (description|String|BlockString)|Expected .*, found (String|BlockString)"
explained = collections.Counter()
# What a character may be changed to: what ends a gap, begins a token, stands in strings alone, or nowhere.
ODD = list("!$&().:=@[]{|}#,\"\\-+'%?_0 \t\n\r\0\x07\x7f\ufeff\u2028\u00e9\u2603\U0001d11e") + ["\r\n", "...", '"""']
GAPS = ["", "", "", " ", " ", ",", "\n", "\r", "\r\n", "\t", " \n  ", "\ufeff", ", ,"]
GAPS += ["#\n", "# a \"\u2603 {\U0001d11e\r", "#\u00e9#\r\n"]
STYLES = [[""], [" "], [" ", "\n"], GAPS]


def must_part(before, after):
    """Whether there must be something between these tokens."""
    are_words = re.search(r"\w\Z", before) and re.match(r"\w", after)
    return are_words or before[-1] + after[0] == '""' or before[0] in "-0123456789" and after[0] == "."


def laid_out(chance, tokens):
    """A text of these tokens."""
    style = chance.choice(STYLES)
    text = chance.choice(["", "", "\ufeff", chance.choice(style)])
    for before, after in zip(tokens, [*tokens[1:], None]):
        gap = chance.choice(style)
        text += before + (" " if not gap and after and must_part(before, after) else gap)
    return text + chance.choice(["", "", "# the end"])


def changed(chance, parts, others):
    """The same, but one of them is another, taken out or doubled."""
    at = chance.randrange(len(parts))
    new = chance.choice([[], [parts[at]] * 2, [chance.choice(others)]])
    return [*parts[:at], *new, *parts[at + 1 :]]


def of_name(name):
    """The texts of a name, which begins with their sort: one, and the same with a token and with a character changed."""
    chance, sort = random.Random(name), name.split(" ")[0]
    tokens = LayoutMaker(chance).tokens(sort)
    text = laid_out(chance, tokens)
    yield name, sort, text
    yield f"{name}, a token changed", sort, laid_out(chance, changed(chance, tokens, TOKENS))
    yield f"{name}, a character changed", sort, "".join(changed(chance, text, ODD))


def of_examples():
    for path in sorted((TOP / "examples").glob("*.graphql")):
        yield str(path.relative_to(TOP)), "document", path.read_bytes().decode()


def lines(output):
    return output.decode().split("\n")[:-1]


def ours(words, texts):
    """The answers of `gqltext` to texts, of which these words ask."""
    given = b"".join(b"%d\n%b" % (len(text), text) for text in (text.encode() for text in texts))
    return lines(programs.run(programs.path("gqltext"), [word.encode() for word in words], given).output)


def theirs(words, texts):
    """The answers of graphql-js."""
    given = json.dumps([(words, text) for text in texts]).encode()
    return lines(subprocess.run(["node", SCRIPT], input=given, stdout=subprocess.PIPE).stdout)


def reason(own, peer):
    """The reason for which the answers to a text may differ, if there is one."""
    said = re.fullmatch("refused ([0-9]+) ([0-9]+) (.*)", own)
    place = re.match("refused ([0-9]+) Syntax Error: (.*)", peer)
    if not said:
        return None
    if said[3].startswith(("unexpected character U+000", "unexpected character U+001")):
        # The string that it stands in may itself be out of place there.
        is_there = not place or int(place[1]) > int(said[1]) or re.match(OF_STRING, place[2])
        return "control" if is_there else None
    if place and (place[2].startswith("Unexpected description") or said[3].startswith("a description stands before ")):
        return "described"
    # graphql-js looks at such a name once it has read the token behind it.
    is_late = re.match("unknown directive location|expected a root operation type, found `\\w|expected a value, found `\\$`", said[3])
    if place and is_late and int(place[1]) >= int(said[2]) and re.match(NO_TOKEN, place[2]):
        return "ahead"
    return None


def wrong_of(own, peer):
    is_same = own.split(" ")[:2] == peer.split(" ")[:2] if own.startswith("refused ") else own == peer
    if is_same:
        return []
    if known := reason(own, peer):
        explained[known] += 1
    return [] if known else [f"ours: {own}", f"peer: {peer}"]


def trials(names):
    """Of each text of these names and of the examples, and of each thing that is asked: its name, what is wrong, and the text."""
    named = [*of_examples(), *(text for name in names for text in of_name(name))]
    for sort, words in itertools.product(SORTS, ASKED):
        its = [(name, text) for name, its_sort, text in named if its_sort == sort]
        texts = [text for _, text in its]
        for (name, text), *answers in itertools.zip_longest(its, ours([*words, sort], texts), theirs([*words, sort], texts)):
            wrong = wrong_of(*answers) if all(answers) else [f"an answer is missing: {answers}"]
            yield ", ".join([name, *words]), wrong, [text]


def told():
    return [f"explained: {EXPLAINED[reason]}: {count}" for reason, count in sorted(explained.items()) if count]
