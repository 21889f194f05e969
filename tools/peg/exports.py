"""What a library gives to its callers: each public item, under the paths by which they name it."""
import functools
import re
from typing import NamedTuple

from peg import CRATES, declared


class Home(NamedTuple):
    """Where something is declared: the crate, the module in it, and its name; a module has none."""

    crate: str
    module: tuple
    name: str = ""

    @property
    def path(self):
        return "::".join([self.crate, *self.module, *([self.name] if self.name else [])])


def module(path):
    """The module that a path names, from its crate on."""
    crate, *names = path.split("::")
    return Home(crate, tuple(names))


def file_of(home):
    folder = CRATES / home.crate / "src"
    return folder.joinpath(*home.module[:-1], f"{home.module[-1]}.rt") if home.module else folder / "lib.rt"


@functools.cache
def items_of(crate, module):
    path = file_of(Home(crate, module))
    return declared.items(path) if path.exists() else []


def opened(text):
    """The paths of a `use`, each with the name that it gets."""
    head, brace, inside = text.strip().partition("{")
    if not brace:
        path, _, other = head.partition(" as ")
        yield path.strip(), (other or path.rsplit("::", 1)[-1]).strip()
        return
    for part in re.findall(r"[^,{}]+(?:\{[^{}]*\})?", inside.rsplit("}", 1)[0]):
        if part.strip():
            yield from (joined(head.strip(), path, name) for path, name in opened(part))


def joined(head, path, name):
    """A path behind the head of a `use` with braces; `self` is the head's own module."""
    if path != "self":
        return head + path, name
    module = head.removesuffix("::")
    return module, module.rsplit("::", 1)[-1] if name == "self" else name


@functools.cache
def names_of(crate, module):
    """The public names of a module, and where what each names is declared, in order; hidden ones aside."""
    found = {}
    for item in items_of(crate, module):
        if not item.is_public or item.is_hidden:
            continue
        if item.kind == "mod":
            found[item.name] = Home(crate, (*module, item.name))
        elif item.kind == "use":
            found.update((name, home) for path, name in opened(item.head) if (home := resolved(crate, path)))
        else:
            found[item.name] = Home(crate, module, item.name)
    return found


def resolved(crate, path):
    """Where what this path names is declared, in a source of a crate, or None where that is no crate of
    ours."""
    first, *rest = path.split("::")
    home = Home(crate if first == "crate" else first, ())
    if not (CRATES / home.crate / "src").is_dir():
        return None
    for name in rest:
        if (*home.module, name) and file_of(Home(home.crate, (*home.module, name))).exists():
            home = Home(home.crate, (*home.module, name))
        else:
            home = names_of(home.crate, home.module).get(name)
        if home is None:
            return None
    return home


def public(crate):
    """Each public item that callers of a crate can name, with all its paths, the shortest first."""
    found, seen, waiting = {}, set(), [(Home(crate, ()), crate)]
    for home, path in waiting:
        for name, its in names_of(home.crate, home.module).items():
            if its.name:
                found.setdefault(its, []).append(f"{path}::{name}")
            elif its not in seen:
                seen.add(its)
                waiting.append((its, f"{path}::{name}"))
    return found


def declared_at(home):
    its = items_of(home.crate, home.module)
    return next(item for item in its if item.name == home.name and item.kind != "use")
