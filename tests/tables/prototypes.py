"""The functions that the library exports, beside what the C header and the Rust hosts declare: names, parameters in
their order, types, results. A slice of the library is a pointer and a length there."""
import re

from constants import text_of
from data import Fault

LIBRARY = "crates/gate_c/src/lib.rt"
HEADER = "include/sorter_gate.h"
RUST = ("bindings/rust/src/lib.rs", "reference/matching/src/library.rs")
# `record` is a reserved word of the proof language, so that the library's contract calls it `rec`.
NAMES = {"rec": "record"}
# A type of the library: what C and Rust call it; a slice's length comes behind the pointer.
TYPES = {"&[u8]": ("const uint8_t *", "*const u8"), "&mut [u8]": ("uint8_t *", "*mut u8"),
         "u64": ("uint64_t", "u64"), "u32": ("uint32_t", "u32"), "usize": ("size_t", "usize"), "u8": ("uint8_t", "u8")}
EXPORTED = re.compile(r'^#\[unsafe\(no_mangle\)\]\npub extern "C" fn (\w+)\(([^)]*)\) -> (\w+)$', re.MULTILINE)
IN_C = re.compile(r"^(\w+) (\w+)\(([^)]*)\);$", re.MULTILINE)
IN_RUST = re.compile(r"^    fn (\w+)\(([^)]*)\) -> (\w+);$", re.MULTILINE)


def parts(text):
    """A list of parameters, taken apart at its commas."""
    return [" ".join(part.split()) for part in text.split(",") if part.strip()]


def expected(language):
    """What a language, 0 for C and 1 for Rust, has to declare, by the library's source."""
    made = {}
    for name, parameters, result in EXPORTED.findall(text_of(LIBRARY)):
        row = []
        for parameter in parts(parameters):
            called, kind = parameter.split(": ")
            called = NAMES.get(called, called)
            row.append((called, TYPES[kind][language]))
            if kind.endswith("[u8]"):
                row.append((f"{called}_len", TYPES["usize"][language]))
        made[name] = row, TYPES[result][language]
    if len(made) != len(re.findall("no_mangle", text_of(LIBRARY))):
        raise Fault(f"{LIBRARY}: an exported function could not be read")
    return made


def declared_in_c():
    text = re.sub(r"/\*.*?\*/", "", text_of(HEADER), flags=re.DOTALL)
    made = {}
    for result, name, parameters in IN_C.findall(text):
        row = [re.fullmatch(r"(.*?)(\w+)", part).group(2, 1) for part in parts(parameters)]
        made[name] = [(called, kind.strip()) for called, kind in row], result
    return made


def declared_in_rust(path):
    made = {}
    for name, parameters, result in IN_RUST.findall(text_of(path)):
        made[name] = [tuple(part.split(": ")) for part in parts(parameters)], result
    return made


def check_prototypes():
    for path, real, wanted in [(HEADER, declared_in_c(), expected(0))] + [
            (path, declared_in_rust(path), expected(1)) for path in RUST]:
        for name in sorted(wanted.keys() | real.keys()):
            if real.get(name) != wanted.get(name):
                raise Fault(f"{path}: {name} is declared as {real.get(name)}, {LIBRARY} gives {wanted.get(name)}")
