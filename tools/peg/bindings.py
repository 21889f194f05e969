"""The calls of the C library, as each language declares them: the crate that exports them, the header, Python and Node."""
import ctypes
import importlib.util
import re
import sys

from peg import TOP, sources

CRATE = "peglinden_c"
HEADER = TOP / "bindings/c/peglinden.h"
PYTHON = TOP / "bindings/python/src"
NODE = TOP / "bindings/node"
# How the header writes a parameter of a type of Rattle's: each of the C parameters that it is, as a suffix of its name and its type.
OF_RATTLE = {
    "Global": [],
    "u32": [("", "uint32_t")],
    "usize": [("", "size_t")],
    "&[u8]": [("", "const uint8_t *"), ("_len", "size_t")],
    "&mut [u8]": [("", "uint8_t *"), ("_len", "size_t")],
    "&[PegFile<'_>]": [("", "const peg_file *"), ("_len", "size_t")],
    "&mut usize": [("", "size_t *")],
    "&mut PegAnswer": [("", "peg_answer *")],
}
ANSWERS = {"": "void", "i32": "int32_t"}
EXPORT = re.compile(r'#\[unsafe\(no_mangle\)\]\npub extern "C" fn (\w+)\(([^)]*)\)(?: -> (\w+))?')
PROTOTYPE = re.compile(r"^(\w+)\s+(peg_\w+)\(([^)]*)\);", re.MULTILINE)
CONSTANT = re.compile(r"\b(PEG_[A-Z_]+) = (\d+)")
OF_RUST = re.compile(r"const ([A-Z_]+): [iu]32 = (\d+);")
STRUCT = re.compile(r"typedef struct (peg_\w+) \{([^}]*)\}")


def exports():
    """Each call that the crate exports: its answer, and its parameters, by name and type."""
    found = {}
    for path in sources.files("src", crate=CRATE):
        for name, parameters, answer in EXPORT.findall(sources.code(path)):
            pairs = [it.strip().partition(": ")[::2] for it in parameters.split(",") if it.strip()]
            made = [(its_name + behind, type_of) for its_name, its_type in pairs for behind, type_of in OF_RATTLE[its_type]]
            found[name] = ANSWERS[answer], made
    return found


def header_text():
    return re.sub(r"/\*.*?\*/", "", HEADER.read_text(), flags=re.DOTALL)


def parameter(text):
    """The name of a parameter in C, and its type."""
    its_type, name = re.fullmatch(r"\s*(.*?[\s*])(\w+)\s*", text, re.DOTALL).groups()
    return name, re.sub(r"\s*\*\s*", " *", its_type.strip())


def prototypes():
    """The same of the header."""
    calls = PROTOTYPE.findall(header_text())
    return {name: (answer, [parameter(it) for it in parameters.split(",")]) for answer, name, parameters in calls}


def constants():
    """The numbers of the header, without the front of their names."""
    return {name.removeprefix("PEG_"): int(number) for name, number in CONSTANT.findall(header_text())}


def constants_of_crate():
    text = "".join(sources.code(path) for path in sources.files("src", crate=CRATE))
    return {name: int(number) for name, number in OF_RUST.findall(text)}


def structs():
    """The members of each struct of the header, by name and type."""
    found = STRUCT.findall(header_text())
    return {name: [parameter(it) for it in members.split(";") if it.strip()] for name, members in found}


def python():
    """Python's module of the calls. It loads no library."""
    spec = importlib.util.spec_from_file_location("peglinden_library", PYTHON / "peglinden/_library.py")
    module = importlib.util.module_from_spec(spec)
    sys.modules[spec.name] = module
    spec.loader.exec_module(module)
    return module


def of_ctypes(module):
    """How the header writes types of Python's."""
    return {
        None: "void",
        ctypes.c_int32: "int32_t",
        ctypes.c_uint32: "uint32_t",
        ctypes.c_size_t: "size_t",
        ctypes.c_bool: "bool",
        ctypes.c_void_p: "void *",
        ctypes.c_char_p: "const uint8_t *",
        ctypes.POINTER(ctypes.c_char): "uint8_t *",
        ctypes.POINTER(ctypes.c_size_t): "size_t *",
        ctypes.POINTER(module.File): "const peg_file *",
        ctypes.POINTER(module.Answer): "peg_answer *",
        module.Bytes: "peg_bytes",
    }
