"""The library for C, Python and Node, in one folder: how it is made of what the gate proved, or without proof, for trying it."""
import base64
import contextlib
import hashlib
import importlib.util
import os
import pathlib
import re
import shutil
import subprocess
import sys
import tempfile
import zipfile
from unittest import mock

from peg import CRATES, TOP, bindings, sources, unproved

CRATE = bindings.CRATE
FOLDER = TOP / "out/library"
# A line that says of what the folder was made, and whether that was proved.
MADE_OF = FOLDER / "made-of"
NODE_HEADERS = pathlib.Path("/usr/include/node")
VERSION_SCRIPT = "PEGLINDEN_0 { global: peg_*; local: *; };\n"
NOT_PROVED = "not proved"
# The name that a call has in the translation of such a program.
OF_CALL = re.compile(rf'@"{CRATE}::(?:calls|answers)::(peg_\w+)"')
# A program that makes each call, so that the kit translates them all.
MAKES_ALL = """
fn main(rt: HostRuntime) {
    let alloc = rt.alloc();
    let mut answer = handle::PegAnswer::closed(alloc);
    let mut buffer = [0; 8];
    let mut needed = 0;
    calls::peg_schema(alloc, &[], 0, 0, &[], &mut answer);
    calls::peg_check(alloc, &[], 0, 0, &[], &[], &mut answer);
    calls::peg_typed(alloc, &[], 0, 0, &[], &[], &mut answer);
    calls::peg_fields(alloc, &[], 0, 0, &[], &[], &mut answer);
    calls::peg_lookup(alloc, &[], 0, 0, &[], &[], &mut answer);
    calls::peg_format(alloc, &[], 0, 0, &[], &mut answer);
    answers::peg_status(alloc, &mut answer);
    answers::peg_output(alloc, &mut answer, &mut buffer, &mut needed);
    answers::peg_errors(alloc, &mut answer, &mut buffer, &mut needed);
    answers::peg_version(&mut buffer, &mut needed);
    answers::peg_close(alloc, &mut answer);
}
"""


class Missing(Exception):
    """What is missing for a library to be made."""


def version():
    """The version that the library says it has."""
    code = "".join(sources.code(path) for path in sources.files("src", crate=CRATE))
    return code.partition('const VERSION: &str = "')[2].partition('"')[0]


def sum_now(is_proved):
    """A line that says of what a library would be made now."""
    made_of = hashlib.sha256(unproved.sum_of(CRATE).encode())
    for path in sorted(path for path in (TOP / "bindings").rglob("*") if path.is_file() and "__pycache__" not in path.parts):
        made_of.update(f"{path.relative_to(TOP)}\n".encode() + path.read_bytes())
    made_of.update(pathlib.Path(__file__).read_bytes())
    return f"{made_of.hexdigest()[:16]} {'proved' if is_proved else NOT_PROVED}\n"


def is_made(is_proved):
    return MADE_OF.is_file() and MADE_OF.read_text() == sum_now(is_proved)


def is_there():
    """Whether a library is there that is made of these sources, proved or not."""
    return is_made(True) or is_made(False)


def run(*words, **how):
    ended = subprocess.run([*map(str, words)], stdin=subprocess.DEVNULL, stdout=subprocess.PIPE, stderr=subprocess.STDOUT, **how)
    if ended.returncode:
        raise Missing(f"{words[0]}: {ended.stdout.decode(errors='replace').strip()}")


def make(is_proved, tree=TOP):
    """Makes all parts anew, and puts them into their place as a whole. Proved libraries are those of a tree in which `rt ci` ran."""
    for tool in ("cc", "ld", "objcopy", "ar"):
        if not shutil.which(tool):
            raise Missing(f"the program `{tool}` is not there")
    FOLDER.parent.mkdir(exist_ok=True)
    with tempfile.TemporaryDirectory(prefix="library-", dir=FOLDER.parent) as top:
        room, parts = pathlib.Path(top), pathlib.Path(top) / "parts"
        parts.mkdir()
        made = of_proved(tree, room) if is_proved else of_unproved(room)
        make_c(made, room, parts)
        make_python(parts)
        make_node(parts)
        (parts / MADE_OF.name).write_text(sum_now(is_proved))
        shutil.rmtree(FOLDER, ignore_errors=True)
        parts.rename(FOLDER)


def told(tree):
    """The crate, as the kit's own command sees it in a tree, and that command's library."""
    spec = importlib.util.spec_from_file_location("rtlib", unproved.kit_folder() / "bin/rtlib.py")
    rtlib = importlib.util.module_from_spec(spec)
    sys.modules["rtlib"] = rtlib
    spec.loader.exec_module(rtlib)
    with contextlib.chdir(tree):
        return next(it for it in rtlib.crates_below(str(tree)) if it.name == CRATE), rtlib


def of_proved(tree, room):
    """The crate's archive, over the proved libraries of a tree. The crate itself is proved once more."""
    crate, rtlib = told(tree)
    if missing := [dep.name for dep in crate.below() if not os.path.isdir(dep.rlib)]:
        raise Missing(f"no proved library of {missing[0]} is there: `rt ci` at the top makes it")
    crate.out = sys.stderr
    each = [word for dep in crate.below() for word in ("--extern", f"{dep.name}={dep.rlib}")]
    words = [*crate.words(["--jobs", "2"]), *each, "--toolchain", f"{rtlib.KIT}/toolchain", "--backend", "llvm"]
    run(rtlib.RATTLE, "build", *words, "-o", room / "crate.a", cwd=crate.folder)
    return room / "crate.a"


def exported(line):
    """A line of the translation, in which the calls have the names that C knows, and can be called from outside."""
    line = OF_CALL.sub(r"@\1", line)
    return line.replace("define internal", "define", 1) if re.match(r"define internal .*@peg_\w+\(", line) else line


def of_unproved(room):
    """An object of the crate, without proof: a program that makes each call is translated, and what the calls are made of is kept."""
    crate, rtlib = told(TOP)
    folder, module = room / "program", room / "module.bc"
    shutil.copytree(CRATES / CRATE / "src", folder / "src")
    (folder / "src/lib.rt").rename(folder / "src/main.rt")
    with open(folder / "src/main.rt", "a") as root:
        root.write(MAKES_ALL)
    of_kit = rtlib.kit_sources(name for it in [crate, *crate.below()] for name in it.of_kit)
    words = ["--crate-name", CRATE, "src/main.rt", *crate.sources_below(), *of_kit]
    with mock.patch.multiple(unproved, words_of=lambda *_: words, CRATES=room):
        unproved.translated("program", False, room, "clang", unproved.CATCHES_MODULE, module)
    clang = unproved.kit_folder() / "toolchain/bin/clang"
    run(clang, "-S", "-emit-llvm", "-o", room / "module.ll", "-x", "ir", module)
    with open(room / "module.ll") as lines, open(room / "plain.ll", "w") as plain:
        plain.writelines(exported(unproved.SANITIZED.sub("", line)) for line in lines if not unproved.LOOKS.match(line))
    flags = [f"--target={unproved.TARGET}", "-march=x86-64", "--no-default-config", "-fPIC", "-O2", "-ffunction-sections"]
    run(clang, *flags, "-c", "-x", "ir", room / "plain.ll", "-o", room / "crate.o")
    return room / "crate.o"


def make_c(made, room, parts):
    """The two libraries, whose only names are those of the calls, the header, and what `pkg-config` reads."""
    heap, whole = unproved.kit_folder() / "c/liblibc_c.a", room / "peglinden.o"
    entries = [word for name in bindings.prototypes() for word in ("-u", name)]
    run("ld", "-r", "--gc-sections", *entries, "-o", whole, "--whole-archive", made, "--no-whole-archive", heap)
    run("objcopy", "--wildcard", "--keep-global-symbol=peg_*", whole)
    run("ar", "rcsD", parts / "libpeglinden.a", whole)
    (room / "names").write_text(VERSION_SCRIPT)
    linked = ["-Wl,--no-undefined", f"-Wl,--version-script={room / 'names'}", "-Wl,-soname,libpeglinden.so", "-s"]
    run("cc", "-shared", "-o", parts / "libpeglinden.so", whole, *linked)
    shutil.copy(bindings.HEADER, parts)
    text = (TOP / "bindings/c/peglinden.pc.in").read_text()
    (parts / "peglinden.pc").write_text(text.replace("@prefix@", "${pcfiledir}").replace("@version@", version()))


def make_python(parts):
    """The package with its library, and a wheel of both."""
    package = parts / "python/peglinden"
    shutil.copytree(bindings.PYTHON / "peglinden", package, ignore=shutil.ignore_patterns("__pycache__"))
    shutil.copy(parts / "libpeglinden.so", package)
    tag, about = "py3-none-manylinux_2_17_x86_64", f"peglinden-{version()}.dist-info"
    texts = {f"peglinden/{path.name}": path.read_bytes() for path in sorted(package.iterdir())}
    texts[f"{about}/METADATA"] = f"Metadata-Version: 2.1\nName: peglinden\nVersion: {version()}\nRequires-Python: >=3.9\n".encode()
    texts[f"{about}/WHEEL"] = f"Wheel-Version: 1.0\nGenerator: tools/library\nRoot-Is-Purelib: false\nTag: {tag}\n".encode()
    texts[f"{about}/entry_points.txt"] = b"[console_scripts]\npeglinden = peglinden.__main__:main\n"
    record = "".join(f"{name},sha256={sum_of(text)},{len(text)}\n" for name, text in texts.items())
    texts[f"{about}/RECORD"] = f"{record}{about}/RECORD,,\n".encode()
    with zipfile.ZipFile(parts / f"peglinden-{version()}-{tag}.whl", "w", zipfile.ZIP_DEFLATED) as wheel:
        for name, text in texts.items():
            wheel.writestr(zipfile.ZipInfo(name), text)


def sum_of(text):
    return base64.urlsafe_b64encode(hashlib.sha256(text).digest()).rstrip(b"=").decode()


def make_node(parts):
    """The module, where Node's headers are there, with all that is needed to build it elsewhere."""
    folder = parts / "node"
    folder.mkdir()
    for name in ("index.js", "index.d.ts", "package.json", "binding.gyp", "peglinden.c", "README.md"):
        if (bindings.NODE / name).is_file():
            shutil.copy(bindings.NODE / name, folder)
    shutil.copy(bindings.HEADER, folder)
    shutil.copy(parts / "libpeglinden.a", folder)
    if NODE_HEADERS.is_dir():
        words = ["cc", "-O2", "-shared", "-fPIC", "-Wall", "-Wextra", f"-I{NODE_HEADERS}", f"-I{folder}", "-s"]
        run(*words, folder / "peglinden.c", folder / "libpeglinden.a", "-o", folder / "peglinden.node")
