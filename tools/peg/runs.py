"""Jobs that run what is compiled without proof: the tests of a crate, and the stored run of a program."""
import re
import shutil
import subprocess
import tempfile

from peg import CRATES, jobs, unproved

STREAMS = {"stdout": subprocess.PIPE, "stderr": subprocess.STDOUT}


def unmade(wrong):
    """What comes of a job whose program doesn't compile."""
    return jobs.Ended(0, 1, said=str(wrong))


def tests_of(crate):
    """The #[test] functions of a crate. One that does not compile or does not end counts as one failed."""

    def run():
        try:
            words = [unproved.kit_folder() / "bin/rattle-test", "--seconds", "60", unproved.made(crate, tests=True)]
        except unproved.Refused as wrong:
            return unmade(wrong)
        except unproved.Differs:
            words = ["rt", "try", "--test"]
        ended = subprocess.run(words, cwd=CRATES / crate, stdin=subprocess.DEVNULL, text=True, errors="replace", **STREAMS)
        passed = len(re.findall(r"^test .* \.\.\. ok$", ended.stdout, re.MULTILINE))
        failed = re.findall(r"^test result:.* (\d+) failed;", ended.stdout, re.MULTILINE)
        return jobs.Ended(passed, int(failed[-1] if failed else 1) or int(ended.returncode != 0), said=ended.stdout)

    return jobs.Job(f"{crate} (tests)", run)


def stored(crate, name, default=b""):
    path = CRATES / crate / name
    return path.read_bytes() if path.is_file() else default


def run_of(crate):
    """The stored run of a program: its files args, stdin, data/, stdout and status. Of rows each is counted."""

    def run():
        try:
            program = unproved.made(crate)
        except (unproved.Refused, unproved.Differs) as wrong:
            return unmade(wrong)
        words = [program, *stored(crate, "args").decode().splitlines()]
        wanted, status = stored(crate, "stdout"), int(stored(crate, "status", b"0"))
        with tempfile.TemporaryDirectory() as folder:
            if (data := CRATES / crate / "data").is_dir():
                shutil.copytree(data, folder, dirs_exist_ok=True)
            ended = subprocess.run(words, cwd=folder, input=stored(crate, "stdin"), capture_output=True)
        said = (ended.stdout + ended.stderr).decode(errors="replace")
        rows = re.search(r"^(\d+) rows, (\d+) differ\n\Z", ended.stdout.decode(errors="replace"), re.MULTILINE)
        count, differ = [int(it) for it in rows.groups()] if rows else (1, 0)
        is_right = (ended.returncode, ended.stdout) == (status, wanted)
        return jobs.Ended(count - (differ or int(not is_right)), differ or int(not is_right), said=said)

    return jobs.Job(f"{crate} (run)", run)
