"""What the tools share: where the repository is, and how a tool is called and ends."""
import os
import pathlib
import re
import signal
import sys

TOP = pathlib.Path(__file__).resolve().parents[2]
CRATES = TOP / "crates"


class Usage(Exception):
    """Words that a tool doesn't take, and what is wrong with them; without that the tool says what it takes."""


class Skipped(str):
    """Why something was not looked at."""


def end(number, _):
    """Ends the tool and what it started at a signal, so that what is temporary goes."""
    for children in pathlib.Path("/proc/self/task").glob("*/children"):
        for child in children.read_text().split():
            os.kill(int(child), signal.SIGTERM)
    sys.exit(128 + number)


def end_at_signals(*numbers):
    for number in (signal.SIGTERM, signal.SIGHUP, *numbers):
        signal.signal(number, end)


def run(main, doc):
    """Runs a tool with the words behind its name; `--help` says what it is."""
    end_at_signals()
    words = sys.argv[1:]
    if words in (["--help"], ["-h"]):
        sys.exit(write(doc.strip().split("\n")))
    try:
        sys.exit(main(words))
    except Usage as wrong:
        print(f"{name()}: {wrong}" if str(wrong) else doc.strip(), file=sys.stderr)
        sys.exit(2)
    except BrokenPipeError:
        sys.exit(unwritten())


def name():
    return pathlib.Path(sys.argv[0]).name


def write(lines):
    """Writes lines to standard output. The status is 4 where they can't be written, as that of the programs."""
    try:
        sys.stdout.reconfigure(encoding="utf-8")
        sys.stdout.writelines(f"{line}\n" for line in lines)
        sys.stdout.flush()
        return 0
    except OSError:
        return unwritten()


def unwritten():
    # What is still to be written goes nowhere, so that Python says nothing of it at its end.
    sys.stdout = None
    print(f"{name()}: cannot write output", file=sys.stderr)
    return 4


def last_line(passed, failed, skipped):
    return f"{passed} passed, {failed} failed" + (f", {skipped} skipped" if skipped else "")


def counts_of(said):
    """How many passed, failed and were skipped by the last line of what was said, or None where it doesn't say so."""
    counted = re.search(r"^(\d+) passed, (\d+) failed(?:, (\d+) skipped)?\b.*\n?\Z", said, re.MULTILINE)
    return counted and [int(it or 0) for it in counted.groups()]


def count(findings):
    """Shows what is wrong, and what was skipped, of these findings, of which None is one that is right, and how many there
    are. The status is 0 exactly if nothing is wrong."""
    passed = failed = skipped = 0
    for finding in findings:
        if finding is not None:
            print(f"skipped: {finding}" if isinstance(finding, Skipped) else finding, flush=True)
        passed += finding is None
        skipped += isinstance(finding, Skipped)
        failed += finding is not None and not isinstance(finding, Skipped)
    print(last_line(passed, failed, skipped))
    return int(failed != 0)


def check(findings, doc):
    """Runs a tool that takes no words and says what it finds."""

    def main(words):
        if words:
            raise Usage
        return count(findings())

    run(main, doc)
