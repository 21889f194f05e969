"""Programs: where each is, how it is run and measured, and what the script of its name does."""
import functools
import os
import resource
import signal
import tempfile
from typing import NamedTuple

from peg import CRATES, sources, unproved

# A run that takes more seconds of the processor than this is ended.
LIMIT = 300


class Run(NamedTuple):
    """What came of a run: `seconds` of the processor, and at most so many mebibytes. A status below 0 is a signal."""

    status: int
    output: bytes
    errors: bytes
    seconds: float = 0
    memory: float = 0

    @property
    def answer(self):
        return self.status, self.output, self.errors


def run(program, words, text, output=None):
    """Runs a program with words and on an input, all of them bytes; `output` is a descriptor to write to."""
    with tempfile.TemporaryFile() as given, tempfile.TemporaryFile() as wrote, tempfile.TemporaryFile() as errors:
        given.write(text)
        given.seek(0)
        ends = (given.fileno(), wrote.fileno() if output is None else output, errors.fileno())
        streams = [(os.POSIX_SPAWN_DUP2, end, at) for at, end in enumerate(ends)]
        how = {"file_actions": streams, "setsigdef": [signal.SIGPIPE]}
        process = os.posix_spawn(program, [os.fsencode(program), *words], os.environ, **how)
        try:
            resource.prlimit(process, resource.RLIMIT_CPU, (LIMIT, LIMIT))
        except ProcessLookupError:
            # It has ended.
            pass
        _, status, used = os.wait4(process, 0)
        wrote.seek(0)
        errors.seek(0)
        seconds = used.ru_utime + used.ru_stime
        return Run(os.waitstatus_to_exitcode(status), wrote.read(), errors.read(), seconds, used.ru_maxrss / 1024)


def proved(name):
    """Where `rt ci`, `rt run` and the gate put a program that is proved."""
    return CRATES / name / "out" / name


def is_proved(name):
    """Whether a program is proved and built, and no source that it stands on is newer."""
    program = proved(name)
    files = (file for crate in unproved.crates_of(name) for file in sources.files("src", crate=crate))
    return os.access(program, os.X_OK) and program.stat().st_mtime >= max(file.stat().st_mtime for file in files)


@functools.cache
def path(name):
    """Where a program is when it is there: proved and built, or else compiled without proof and kept. Each run of a tool asks
    once for each program, since the sources are read for it."""
    return proved(name) if is_proved(name) else unproved.path(name)


def is_there(name):
    """Whether a program is there, made of these sources."""
    return os.access(path(name), os.X_OK)


def missing(*names):
    """Which of these programs is not there, in words, or an empty text."""
    name = next((name for name in names if not is_there(name)), "")
    return name and f"{name} is not made of these sources: `./tests` compiles it without proof, and `rt run` in crates/{name} proves it"


def start(name, words):
    """Becomes the program: as it is proved and built, or else compiled without proof, once for the same sources."""
    try:
        program = path(name) if is_there(name) else unproved.made_for_people(name)
    except unproved.Differs as wrong:
        say(f"{name}: this kit has other parts ({str(wrong).splitlines()[0]}): it is run by `rt try`, compiled each time")
        start_by_try(name, words)
    except unproved.Refused as wrong:
        say(f"{name}: {wrong}")
        return 2
    except OSError as wrong:
        say(f"{name}: cannot keep what is compiled: {wrong.filename}: {wrong.strerror}")
        return 2
    os.execv(program, [name, *words])


def start_by_try(name, words):
    """Becomes a run by `rt try`, which gets the files that are named. It runs in a folder of its own."""
    given = {word: inner(word) for word in words if os.path.isfile(word)}
    data = [part for word, own in given.items() for part in ("--data", f"{own}={os.path.abspath(word)}")]
    os.chdir(CRATES / name)
    os.execvp("rt", ["rt", "try", *data, "--", *(given.get(word, word) for word in words)])


def inner(path):
    """A path as it is inside a folder: one that leads out of it is that from the root on."""
    is_outside = os.path.isabs(path) or os.path.normpath(path).startswith("..")
    return os.path.abspath(path).lstrip("/") if is_outside else path


def say(text):
    unproved.say(f"{text}\n")
