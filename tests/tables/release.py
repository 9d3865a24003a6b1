"""The version and the licence of tables/release.ini, held to every other place where they stand. (The installed
pkg-config file is looked at by tests/install.sh.)"""
import re

from constants import text_of
from data import Fault, read

# A version counts up by these; each of the two later numbers stays below a thousand.
STEPS = (1_000_000, 1_000, 1)
# A file, and how it says the version: each pattern must be found there once.
VERSIONS = {
    "Makefile": r"^VERSION := (\S+)$",
    "bindings/rust/Cargo.toml": r'^\[package\]\n(?:(?!\[).*\n)*?version = "(.+)"$',
    "bindings/rust/Cargo.lock": r'^name = "sorter-gate"\nversion = "(.+)"$',
    # The newest version, under what is not released.
    "CHANGELOG.md": r"\A(?:(?!## ).*\n)*## Unreleased\n(?:(?!## ).*\n)*## (\S+)$",
}
LICENCES = {
    "include/sorter_gate.h": r"^ \* SPDX-License-Identifier: (\S+)$",
    "bindings/rust/Cargo.toml": r'^license = "(.+)"$',
    "sorter_gate.pc.in": r"^License: (\S+)$",
    "README.md": r"\bunder the (\S+) licence \(\[LICENSE\]\(LICENSE\)\)",
    "LICENSE": r"\A(\S+) License$",
}


def version():
    """The three numbers of the version."""
    told = read("release.ini")["version"]["is"]
    if not re.fullmatch(r"(0|[1-9]\d{0,2})(\.(0|[1-9]\d{0,2})){2}", told):
        raise Fault(f"tables/release.ini: the version is not three numbers below a thousand: {told}")
    return [int(part) for part in told.split(".")]


def version_of_header():
    numbers = version()
    names = ("MAJOR", "MINOR", "PATCH")
    made = [f"#define SORTER_GATE_VERSION_{name} {number}" for name, number in zip(names, numbers)]
    made.append(f"#define SORTER_GATE_VERSION_NUMBER {sum(n * step for n, step in zip(numbers, STEPS))}")
    return made + [f'#define SORTER_GATE_VERSION "{".".join(map(str, numbers))}"']


def check_release():
    for title, places in (("version", VERSIONS), ("licence", LICENCES)):
        told = read("release.ini")[title]["is"]
        for file, pattern in places.items():
            found = re.findall(pattern, text_of(file), re.MULTILINE)
            if found != [told]:
                raise Fault(f"{file} says {found} as the {title}, tables/release.ini says {told}")
    if not re.search(r"^Version: @VERSION@$", text_of("sorter_gate.pc.in"), re.MULTILINE):
        raise Fault("sorter_gate.pc.in does not take the version from the Makefile")
