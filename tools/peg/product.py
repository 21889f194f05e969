"""The product: the crates that are handed to users, which crates.txt has above those for tests and tools."""
import contextlib
import os
import pathlib
import shutil
import signal
import subprocess
import tempfile

from peg import CRATES, TOP, programs, sources

LIST = "crates.txt"
# The line of crates.txt that ends the product.
END = "# For tests and tools alone:\n"
# Crates of the chain that most others wait for. The first has below it that chain alone.
FIRST = ("apollo_schema", "apollo_document")


def listed():
    """The lines of crates.txt that list the product."""
    lines, end, _ = (TOP / LIST).read_text().partition(END)
    if not end:
        raise ValueError(f"{LIST} has no line {END.strip()!r}")
    return lines


def crate_of(line):
    """The crate that a line of crates.txt is about; a comment is about none."""
    return line.partition(":")[0].partition(" ")[0]


def crates():
    """The crates of the product."""
    lines = {crate_of(line) for line in listed().splitlines()}
    return [crate for crate in sources.crates() if crate in lines]


def copy(folder, some=None):
    """Copies the product, or some crates of it, into a folder, without what earlier runs made and without edits that are to be refused."""
    passed_over = shutil.ignore_patterns("out", "must-fail", "wrong-bodies")
    copied = some or crates()
    for crate in copied:
        shutil.copytree(CRATES / crate, folder / "crates" / crate, ignore=passed_over)
    (folder / LIST).write_text("".join(line for line in listed().splitlines(True) if crate_of(line) in copied))
    shutil.copy(TOP / "HANDLES", folder)


def built_on(crate):
    """The crates of the repository that this one is built on, and itself."""
    below, found = sources.crates(), [crate]
    for one in found:
        found += [name for name in below[one] if name in below and name not in found]
    return found


def keeps():
    """Whether `rt ci` keeps what it proves for other runs on this machine: its command names the folder, and that can be written to."""
    command = pathlib.Path(shutil.which("rt") or "rt").resolve()
    kept = command.parents[2] / "rattle-kept"
    return command.is_file() and kept.name.encode() in command.read_bytes() and os.access(kept if kept.exists() else kept.parent, os.W_OK)


@contextlib.contextmanager
def first_beside():
    """Proves that chain meanwhile, where what is proved is kept, by runs of `rt ci` of its own. In them nothing else waits, so each crate
    is proved by two jobs. The run that goes on beside them waits for each of these crates, and takes it over."""
    if not keeps():
        yield
        return
    with tempfile.TemporaryDirectory(prefix="peglinden-first-") as top:
        folders = [pathlib.Path(top) / crate for crate in FIRST]
        for crate, folder in zip(FIRST, folders):
            copy(folder, built_on(crate))
        quiet = {"stdin": subprocess.DEVNULL, "stdout": subprocess.DEVNULL, "stderr": subprocess.DEVNULL}
        in_turn = ["sh", "-c", 'for folder; do cd "$folder" && rt ci; done', "sh", *folders]
        process = subprocess.Popen(in_turn, start_new_session=True, **quiet)
        try:
            yield
        finally:
            with contextlib.suppress(ProcessLookupError):
                os.killpg(process.pid, signal.SIGTERM)
            process.wait()


def take_programs(folder):
    """Takes over the programs that were built in such a copy."""
    for crate in filter(sources.is_program, crates()):
        built, program = folder / "crates" / crate / "out" / crate, programs.proved(crate)
        if built.is_file():
            program.parent.mkdir(exist_ok=True)
            shutil.copy(built, program.with_suffix(".part"))
            program.with_suffix(".part").replace(program)
