"""Which files the words of a command line name, as `peglinden` has it: files, folders and patterns."""

from __future__ import annotations

import os
import re
import stat
import sys
from typing import Iterator, List, NamedTuple, Optional, Sequence, Tuple

ENDINGS = (".graphql", ".graphqls", ".gql")
MOST_NESTED = 256
# A file has so many bytes at most.
MOST_BYTES = 0xFFFF_FFFF


class Named(NamedTuple):
    """A path, and why it stands for no file, if so."""

    path: str
    refusal: Optional[str] = None


def reason(wrong: OSError) -> str:
    return f"{os.strerror(wrong.errno or 0)} (os error {wrong.errno})"


def pattern_of(word: str) -> re.Pattern[str]:
    """A pattern as an expression: `**` stands for any parts between slashes, `*` for any characters of one, `?` for one."""
    signs = {"*": "[^/]*", "?": "[^/]"}
    made = ""
    for part in word.split("/"):
        made += "(?:/[^/]*)*" if part == "**" else "/" + "".join(signs.get(sign, re.escape(sign)) for sign in part)
    return re.compile(made, re.DOTALL)


def below(prefix: str, wanted, depth: int = MOST_NESTED) -> Iterator[Named]:
    """What is wanted below the folder of a prefix. What is hidden is passed over, and links to folders aren't followed."""
    if not depth:
        yield Named(prefix, "folders nest too deep")
        return
    try:
        with os.scandir(prefix or ".") as entries:
            for entry in entries:
                path = prefix + entry.name
                if entry.name.startswith("."):
                    continue
                if entry.is_dir(follow_symlinks=False):
                    yield from below(f"{path}/", wanted, depth - 1)
                elif wanted(path):
                    yield Named(path)
    except OSError as wrong:
        yield Named(prefix, reason(wrong))


def found(word: str) -> List[Named]:
    """What a word names."""
    if word == "-" or os.path.exists(word) and not os.path.isdir(word):
        return [Named(word)]
    if os.path.isdir(word):
        prefix = "" if word in (".", "./") else word if word.endswith("/") else f"{word}/"
        its = list(below(prefix, lambda path: path.endswith(ENDINGS)))
    elif "*" in word or "?" in word:
        pattern, front = pattern_of(word), re.split(r"[*?]", word)[0]
        its = list(below(front[: front.rfind("/") + 1], lambda path: pattern.fullmatch(f"/{path}")))
    else:
        return [Named(word)]
    return sorted(its, key=lambda one: os.fsencode(one.path)) or [Named(word, "nothing found")]


def named(words: Sequence[str]) -> Tuple[List[Named], List[str]]:
    """What words name, each path once, and the paths that are named again."""
    firsts: dict[str, Named] = {}
    again: List[str] = []
    for one in (one for word in words for one in found(word)):
        if one.path in firsts:
            again.append(one.path)
        firsts.setdefault(one.path, one)
    return list(firsts.values()), again


def unread(path: str) -> Optional[str]:
    """Why what stands at a path isn't read, where it may have no end, or is too long."""
    about = os.stat(path)
    if stat.S_ISDIR(about.st_mode):
        return "a folder, and no file"
    if stat.S_ISCHR(about.st_mode) or stat.S_ISBLK(about.st_mode) or stat.S_ISSOCK(about.st_mode):
        return "a device, and no file"
    return "4 GiB or more" if about.st_size > MOST_BYTES else None


def text_of(one: Named) -> Tuple[bytes, Optional[str]]:
    """The text that a name stands for. Where it stands for none, that is no text, and why."""
    if one.refusal:
        return b"\xff", one.refusal
    try:
        if one.path == "-":
            return sys.stdin.buffer.read(), None
        if why := unread(one.path):
            return b"\xff", why
        with open(one.path, "rb") as file:
            return file.read(), None
    except OSError as wrong:
        return b"\xff", reason(wrong)
