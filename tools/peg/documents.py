"""The documents."""
import re

from peg import TOP, layout


def is_made(path):
    return layout.MADE in path.read_text()


def pages():
    """Those that are kept by hand."""
    kept = [path for path in sorted(TOP.glob("docs/*.md")) if not is_made(path)]
    own = [TOP / f"{name}.md" for name in ("README", "CONTRIBUTING", "SECURITY")]
    return [*own, *kept, TOP / "tools/README.md"]


def made():
    """Those that tools/pages makes."""
    return [path for path in sorted(TOP.glob("docs/**/*.md")) if is_made(path)]


def without_pieces(text):
    """A document without its fenced code, each line where it was."""
    return re.sub(r"^```.*?^```$", lambda piece: "\n" * piece[0].count("\n"), text, flags=re.MULTILINE | re.DOTALL)
