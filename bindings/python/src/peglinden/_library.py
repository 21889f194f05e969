"""The calls of the C library, by ctypes. `peglinden.h` says what each takes, answers and leaves."""

from __future__ import annotations

import ctypes
import functools
import os
import pathlib
from typing import Iterable, NamedTuple, Tuple

DONE, FAULTS, EXHAUSTED, SHORT, MISUSE = 0, 1, 3, 5, 6
JSON, GITHUB, ADOPT, IGNORE_BUILTIN, CHECK = 1, 2, 4, 8, 16
NO_LIMIT = ctypes.c_size_t(-1).value

Path, Text = bytes, bytes


class Bytes(ctypes.Structure):
    _fields_ = [("at", ctypes.c_char_p), ("len", ctypes.c_size_t)]


class File(ctypes.Structure):
    _fields_ = [("path", Bytes), ("text", Bytes)]


class Answer(ctypes.Structure):
    _fields_ = [("at", ctypes.c_void_p), ("is_open", ctypes.c_bool)]


GIVEN = [ctypes.c_char_p, ctypes.c_size_t]
FILES = [ctypes.POINTER(File), ctypes.c_size_t]
HOW = [*GIVEN, ctypes.c_uint32, ctypes.c_size_t]
ANSWER = [ctypes.POINTER(Answer)]
COPIED = [ctypes.POINTER(ctypes.c_char), ctypes.c_size_t, ctypes.POINTER(ctypes.c_size_t)]

# What each call answers, and what it takes.
CALLS = {
    "peg_schema": (ctypes.c_int32, [*HOW, *FILES, *ANSWER]),
    "peg_check": (ctypes.c_int32, [*HOW, *FILES, *FILES, *ANSWER]),
    "peg_typed": (ctypes.c_int32, [*HOW, *FILES, *FILES, *ANSWER]),
    "peg_fields": (ctypes.c_int32, [*HOW, *FILES, *FILES, *ANSWER]),
    "peg_lookup": (ctypes.c_int32, [*HOW, *GIVEN, *FILES, *ANSWER]),
    "peg_format": (ctypes.c_int32, [*HOW, *FILES, *ANSWER]),
    "peg_status": (ctypes.c_int32, [*ANSWER]),
    "peg_output": (ctypes.c_int32, [*ANSWER, *COPIED]),
    "peg_errors": (ctypes.c_int32, [*ANSWER, *COPIED]),
    "peg_close": (None, [*ANSWER]),
    "peg_version": (ctypes.c_int32, [*COPIED]),
}


class Answered(NamedTuple):
    """What `peglinden` would print on both outputs, and its exit status."""

    status: int
    output: bytes
    errors: bytes


@functools.lru_cache(maxsize=None)
def library() -> ctypes.CDLL:
    """The library: that of PEGLINDEN_LIBRARY, or else the one beside this file."""
    beside = pathlib.Path(__file__).with_name("libpeglinden.so")
    loaded = ctypes.CDLL(os.environ.get("PEGLINDEN_LIBRARY") or str(beside))
    for name, (answers, takes) in CALLS.items():
        call = getattr(loaded, name)
        call.restype, call.argtypes = answers, takes
    return loaded


def files_of(files: Iterable[Tuple[Path, Text]]) -> ctypes.Array:
    """Files as C has them, with one more behind them, so that there is a place for none."""
    made = [File(Bytes(path, len(path)), Bytes(text, len(text))) for path, text in files]
    return (File * (len(made) + 1))(*made)


def copied(call, *answer: Answer) -> bytes:
    """What such a call copies, asked first how long it is."""
    needed = ctypes.c_size_t()
    call(*answer, ctypes.create_string_buffer(1), 0, needed)
    buffer = ctypes.create_string_buffer(needed.value + 1)
    if said := call(*answer, buffer, needed.value, needed):
        raise RuntimeError(f"{call.__name__} answers {said}")
    return buffer.raw[: needed.value]


def ask(name: str, *given, flags: int = 0, limit: int | None = None) -> Answered:
    """Makes a call of that name, with keys of the system, reads its answer and closes it. What is given are coordinates, as bytes,
    and lists of files, each a path and a text."""
    calls, answer = library(), Answer()
    words = [(it, len(it)) if isinstance(it, bytes) else (files_of(it), len(it)) for it in given]
    keys, most = os.urandom(16), NO_LIMIT if limit is None else limit
    said = getattr(calls, name)(keys, len(keys), flags, most, *(part for pair in words for part in pair), answer)
    try:
        if said == EXHAUSTED:
            raise MemoryError
        if said not in (DONE, FAULTS):
            raise ValueError("two forms of reports are asked for, or a path isn't UTF-8")
        return Answered(calls.peg_status(answer), copied(calls.peg_output, answer), copied(calls.peg_errors, answer))
    finally:
        calls.peg_close(answer)


def version() -> str:
    return copied(library().peg_version).decode()
