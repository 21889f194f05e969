"""What the work on an input takes, by the built programs, and by others that do the same work, where they are."""
import datetime
import json
import os
import pathlib
import re
import shutil
import subprocess
import sys
import time
from typing import NamedTuple

from peg import TOP, Usage, programs
from peg.notation import as_graphql, in_order, without_empty

HERE = pathlib.Path(__file__).parent
# `rustgql`, the Rust crate's own code as a program over the notation, where its script builds it.
CRATE = pathlib.Path(os.environ.get("RUSTGQL", pathlib.Path.home() / "gql-baseline/target/release/rustgql"))
# The phases of reports over the notation, by the phases here.
OF_NOTATION = {"schema-build": "build", "to_ast": "write out", "doc-build": "type"}


class Failed(Exception):
    """Why something isn't measured."""


class Input(NamedTuple):
    """A name, and the paths of its files: the GraphQL text of a schema, that of documents over it, and both in the
    notation. What an input lacks is None."""

    name: str
    schema: pathlib.Path | None
    documents: pathlib.Path | None
    notation: pathlib.Path | None
    options: tuple[str, ...] = ()

    @property
    def text(self):
        """The text that is read and written."""
        return self.documents or self.schema


def shaped(*words):
    """What tools/shapes writes."""
    ended = subprocess.run([TOP / "tools/shapes", *words], capture_output=True, text=True)
    if ended.returncode != 0:
        raise Usage(ended.stderr.strip())
    return ended.stdout


def kept(path, text):
    """The path of a file with this text, if there is any."""
    if not text.strip():
        return None
    path.write_text(text)
    return path


def made(folder, shape, count):
    """The input of a shape. What has descriptions can't be said in the notation."""
    name, path = f"{shape} {int(count):,}", folder / f"{shape}-{count}"
    if shape == "described":
        return Input(name, kept(path.with_suffix(".graphql"), shaped("--graphql", shape, count)), None, None)
    notation = shaped(shape, count)
    lines = without_empty(in_order(notation.splitlines()))
    end = lines.index("===") if "===" in lines else len(lines)
    texts = {"schema": as_graphql(lines[:end]), "documents": as_graphql(lines[end + 1 :])}
    paths = {part: kept(path.with_suffix(f".{part}.graphql"), text) for part, text in texts.items()}
    options = ("--adopt",) if shape == "orphan" else ()
    return Input(name, **paths, notation=kept(path.with_suffix(".txt"), notation), options=options)


def inputs(words, folder):
    """The inputs that the words name: SHAPE:N, or the path of a GraphQL schema."""
    for word in words:
        if shape := re.fullmatch(r"(\w+):(\d+)", word):
            yield made(folder, *shape.groups())
        elif os.path.isfile(word):
            yield Input(pathlib.Path(word).name, pathlib.Path(word), None, None)
        else:
            raise Usage(f"{word}: neither a shape and a number nor a file")


def run(program, words, text=b""):
    """A run that ends with status 0, or with faults alone, and so has an answer."""
    ended = programs.run(program, [os.fsencode(word) for word in words], text)
    if ended.status not in (0, 1) or ended.status == 1 and not ended.output:
        lines = ended.errors.decode(errors="replace").strip().split("\n")
        raise Failed(next((line for line in lines if "Error: " in line), lines[0]) or f"status {ended.status}")
    return ended


def whole(program, words, text=b""):
    """The seconds of the processor of a whole run, and the mebibytes that it has at its highest."""
    # A process begins with what the one that starts it has at its highest, so a small one stands between.
    small = [sys.executable, "-I", "-S", HERE / "highest.py", program]
    ended = run(small[0], [*small[1:], *words], text)
    found = json.loads(ended.errors.splitlines()[-1])
    return {"whole": found["seconds"], "memory": found["memory"]}


def of_notation(program, given):
    """A whole run over the notation, which writes the notation."""
    words = ["doc" if given.documents else "schema", *given.options]
    taken = whole(program, words, given.notation.read_bytes())
    return {f"{phase}, notation": value for phase, value in taken.items()}


def bench(words, text):
    """The least time that each phase of `gqlbench` takes, of nine."""
    ended = run(programs.path("gqlbench"), [words[0], "--json", *words[1:], "9"], text)
    lines = [json.loads(line) for line in ended.output.splitlines()]
    return {line["phase"]: line["least"] / 1e9 for line in lines if "phase" in line}


def own(given, _):
    """What `gqlbench`, `peglinden` and `gqltool` take. Freeing counts as reading."""
    if unproved := [name for name in ("gqlbench", "peglinden", "gqltool") if not programs.is_proved(name)]:
        raise Failed(f"not proved and built: {', '.join(unproved)}")
    text = bench(["text"], given.text.read_bytes())
    phases = {"read": text["parse"] + text["drop"], "write": text["print"]}
    if given.notation:
        command = "doc" if given.documents else "schema"
        times = bench([command, *given.options], given.notation.read_bytes())
        phases |= {phase: times[theirs] for theirs, phase in OF_NOTATION.items() if theirs in times}
        phases |= of_notation(programs.path("gqltool"), given)
    typed = ["typed", "--schema", given.schema, given.documents]
    words = typed if given.documents else ["schema", *given.options, given.schema]
    return phases | whole(programs.path("peglinden"), words)


def crate(given, _):
    """What the Rust crate's own code takes over the notation, which it reads by a reader of its own."""
    if not os.access(CRATE, os.X_OK):
        raise Failed("`rustgql` isn't there")
    if not given.notation:
        raise Failed("it reads the notation alone")
    command = "doc" if given.documents else "schema"
    ended = run(CRATE, ["bench", command, given.notation, "9", *given.options])
    found = re.findall(r"^(\S+) +min +(\d+)", ended.output.decode(), re.MULTILINE)
    phases = {OF_NOTATION[phase]: int(least) / 1e9 for phase, least in found if phase in OF_NOTATION}
    return phases | of_notation(CRATE, given)


def script(*command):
    """What a script beside this file takes, which measures itself; as a whole run it is started once for that."""

    def measured(given, seconds):
        if not shutil.which(command[0]):
            raise Failed(f"`{command[0]}` isn't there")
        program, words = shutil.which(command[0]), [*command[1:], given.text]
        phases = json.loads(run(program, [*words, str(seconds)]).output)
        if given.documents:
            return {phase: phases[phase] for phase in ("read", "write")}
        # What refuses the schema builds none.
        return phases | (whole(program, [*words, "0", "whole"]) if "build" in phases else {})

    return measured


def go(folder):
    """gqlparser, by a program that Go makes first."""
    settings = {**os.environ, "GO111MODULE": "off", "GOPATH": "/usr/share/gocode"}
    program = folder / "gqlparser"
    if not shutil.which("go"):
        return script("go")
    words = ["go", "build", "-o", program, HERE / "peer_times.go"]
    built = subprocess.run(words, env=settings, stderr=subprocess.PIPE, text=True)
    return script(str(program) if built.returncode == 0 else f"go build: {built.stderr.strip()}")


def peers(folder):
    return {
        "ours": own,
        "crate": crate,
        "graphql-js": script("node", HERE / "peer_times.js"),
        "gqlparser": go(folder),
        "graphql-core": script(sys.executable, HERE / "peer_times.py"),
    }


def least(runs):
    """The least of each phase, and the most memory."""
    phases = {phase for each in runs for phase in each}
    return {phase: (max if phase.startswith("memory") else min)(it[phase] for it in runs if phase in it) for phase in sorted(phases)}


def apart(peer, times):
    """The times of a peer, where what it takes to build has no reading in it: gqlparser reads and builds in one call."""
    if peer == "gqlparser" and "build" in times:
        return times | {"build": times["build"] - times["read"]}
    return times


def machine():
    """The machine that this runs on, and what else it has to do."""
    said = pathlib.Path("/proc/cpuinfo").read_text()
    model = re.search(r"^model name\s*: (.*)$", said, re.MULTILINE)
    return f"{os.cpu_count()} × {model[1] if model else 'processor'}, load {os.getloadavg()[0]:.1f}"


def measure(words, folder, count, seconds, limit):
    """What each input takes by each peer, as it is measured: an object for each input."""
    its_peers, date, where = peers(folder), datetime.date.today().isoformat(), machine()
    for given in inputs(words, folder):
        runs, lacks, spent = {peer: [] for peer in its_peers}, {}, dict.fromkeys(its_peers, 0.0)
        for _ in range(count):
            for peer, measured in its_peers.items():
                if peer in lacks or spent[peer] > limit:
                    continue
                began = time.monotonic()
                try:
                    runs[peer].append(measured(given, seconds))
                except Failed as why:
                    lacks[peer] = str(why)
                spent[peer] += time.monotonic() - began
        sizes = [path.stat().st_size for path in (given.schema, given.documents) if path]
        times = {peer: apart(peer, least(its)) for peer, its in runs.items() if its}
        counts = {peer: len(its) for peer, its in runs.items() if its}
        said = {"date": date, "machine": where, "input": given.name, "bytes": sum(sizes)}
        yield {**said, "times": times, "runs": counts, "lacks": lacks}
