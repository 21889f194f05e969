"""Jobs that run side by side, each of which says how many of its parts passed, failed and were skipped."""
import concurrent.futures
import re
import subprocess
from typing import Callable, NamedTuple

from peg import TOP, counts_of, last_line


class Ended(NamedTuple):
    """What came of a job, and what it said."""

    passed: int
    failed: int
    skipped: int = 0
    said: str = ""


class Job(NamedTuple):
    name: str
    run: Callable[[], Ended]


def counted(said, status):
    """What a command says of itself in its last line. Without one, or where its status says otherwise, one more has failed."""
    passed, failed, skipped = counts_of(said) or (0, 0, 0)
    is_right = counts_of(said) is not None and (status == 0) == (failed == 0)
    return Ended(passed, failed or int(not is_right), skipped, said)


def command(*words):
    """A job that is a command, run at the top of the repository."""

    def run():
        ended = subprocess.run(words, cwd=TOP, stdin=subprocess.DEVNULL, stdout=subprocess.PIPE, stderr=subprocess.STDOUT)
        return counted(ended.stdout.decode(errors="replace"), ended.returncode)

    return Job(" ".join(words), run)


def run(jobs, side_by_side=2):
    """Runs all jobs, reports each in their order, and answers how many parts of all passed, failed and were skipped."""
    sums, pool = [0, 0, 0], concurrent.futures.ThreadPoolExecutor(side_by_side)
    try:
        for job, future in [(job, pool.submit(job.run)) for job in jobs]:
            ended = future.result()
            skipped = re.findall(r"^skipped: .*", ended.said, re.MULTILINE)
            shown = ended.said.rstrip("\n").split("\n") if ended.failed else skipped
            print(f"{job.name}: {last_line(*ended[:3])}", *shown, sep="\n", flush=True)
            sums = [sum(pair) for pair in zip(sums, ended)]
    finally:
        pool.shutdown(cancel_futures=True)
    return sums


def end(*counts):
    """Shows the last line of runs that were so counted, and answers the exit status."""
    passed, failed, skipped = map(sum, zip(*counts))
    print(last_line(passed, failed, skipped))
    return int(failed != 0)


def over_programs():
    """The jobs over the programs that are there, proved or not, and over sources and documents."""
    checks = ["checked_sources", "checked_header", "checked_documents", "quoted_code", "worked", "checked_program", "checked_cases"]
    return [
        command("tools/refusals"),
        command("tools/fuzz", "--hostile"),
        command("tools/colliding_names", "--check"),
        command("tools/fuzz", "2000", "1"),
        command("tools/fuzz", "--peer", "100", "1"),
        command("tools/fuzz", "--texts", "100", "1"),
        command("tools/fuzz", "--files", "100", "1"),
        command("tools/fuzz", "--json", "300", "1"),
        command("tools/checked_examples"),
        command("tools/pages", "--check"),
        *(command(f"tools/{check}") for check in checks),
    ]
