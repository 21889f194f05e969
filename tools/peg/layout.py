"""How the made pages are laid out."""
import os
import re

from peg import TOP

WIDTH = 100
MADE = "<!-- Made by tools/pages from the sources. Change those, and run it again. -->"


def head(name):
    """What is said by hand at the head of a page or of the first page of a folder."""
    return (TOP / "tools/heads" / f"{name}.md").read_text().rstrip("\n")


def slug(heading):
    """The anchor of a heading."""
    return re.sub(r"[^\w\- ]", "", heading.lower()).replace(" ", "-")


def joined(text):
    return re.sub(r"\s+", " ", text).strip()


def cell(text):
    return text.replace("|", "\\|")


def relative(path, folder):
    """A path below `docs/`, from a page of this folder of it."""
    return os.path.relpath(path, folder)


def source(path, folder):
    """A link to a source."""
    shown = path.relative_to(TOP)
    return f"[Source]({os.path.relpath(path, TOP / 'docs' / folder)}): `{shown}`."


def fenced(lines, language):
    return [f"```{language}", *lines, "```", ""]


def listed(lines):
    """Lines and an empty one behind them, where there are any."""
    lines = list(lines)
    return [*lines, ""] if lines else []


def depths(text):
    """How many brackets are open at each sign of a text."""
    depth = 0
    for sign in text:
        depth -= sign in ")}]"
        yield depth
        depth += sign in "({["


def cut(text, sign):
    """A text cut before each such sign that stands in no bracket."""
    ends = [at for at, depth in enumerate(depths(text)) if depth == 0 and text.startswith(f" {sign} ", at)]
    return [text[start + (start > 0) : end] for start, end in zip([0, *ends], [*ends, len(text)])]


def inside(text):
    """A text up to its last bracket, if that ends with it, and what stands in there; the name that it has
    there stays before."""
    outer = (at for at, depth in enumerate(depths(text)) if depth == 0 and text[at] == "(")
    at = next((at for at in outer if closes(text, at)), -1)
    found = at >= 0 and re.match(r"\(λ [^.]+\. ?", text[at:])
    return (text[: at + found.end()].rstrip(), text[at + found.end() :]) if found else None


def closes(text, at):
    """Whether the bracket that opens at this sign closes at the end."""
    ends = (to for to, depth in enumerate(depths(text)) if to > at and depth == 0)
    return text.endswith(")") and next(ends, -1) == len(text) - 1


def wrapped(text, indent):
    """A clause, on as few lines as it wants: broken where it is joined outermost, and else at a blank."""
    if len(indent) + len(text) <= WIDTH:
        return [indent + text]
    for sign in "→", "×", "≡":
        first, *others = cut(text, sign)
        if others:
            below = (line for other in others for line in wrapped(other, indent + "  "))
            return [*wrapped(first, indent), *below]
    if inner := inside(text):
        begin, body = inner
        *lines, last = wrapped(body[:-1], indent + "  ")
        return [indent + begin, *lines, last + ")"]
    at = text.rfind(" ", 0, WIDTH - len(indent))
    if at <= 0:
        return [indent + text]
    below = indent if indent.endswith("      ") else indent + "  "
    return [indent + text[:at], *wrapped(text[at + 1 :], below)]
