#!/usr/bin/env python3
"""The index of the model in docs/MODEL.md: each file of its specs/ and proofs/ with its size and the first sentence
of its first comment, in an order in which it can be read: as Lib.antt has them, but none before one that it imports.

    python3 tests/index.py --write   make the index anew
    python3 tests/index.py --check   fail if the page has another one, or a file has no first comment or no line in Lib
"""
import difflib
import itertools
import re
import sys
import textwrap

sys.dont_write_bytecode = True
from made import ROOT, Fault, stored, write  # noqa: E402

PAGE, PART, COLUMNS, STEP = "docs/MODEL.md", "index", 118, 50
MODEL = ROOT / "crates" / "model"
TITLES = {"specs": "Definitions", "proofs": "Theorems"}


def listed(folder):
    """The modules of a folder in the order of its Lib.antt, which has each file once and nothing else."""
    names = re.findall(r"^(?:pub )?mod (\w+)$", (MODEL / folder / "Lib.antt").read_text(encoding="utf-8"), re.MULTILINE)
    files = sorted(path.stem for path in (MODEL / folder).glob("*.antt") if path.stem != "Lib")
    for name in sorted({*names, *files}):
        if names.count(name) != files.count(name):
            raise Fault(f"crates/model/{folder}: Lib.antt has {name} {names.count(name)} times, and there are "
                        f"{files.count(name)} such files")
    return names


def imported(folder, text):
    """The modules of the same folder that a file uses; what src/ declares is none of them."""
    return set(re.findall(rf"^use Rattle\.model\.{folder}\.(\w+)\.", text, re.MULTILINE)) - {"declared"}


def ordered(folder, texts):
    """The modules in the order of Lib.antt, but each after those that it imports."""
    names, done = listed(folder), []

    def visit(name):
        for other in sorted(imported(folder, texts[name]) & {*names} - {*done}, key=names.index):
            visit(other)
        if name not in done:
            done.append(name)

    for name in names:
        visit(name)
    return done


def first_sentence(file, text):
    """The first sentence of the comment that a file begins with."""
    rows = itertools.takewhile(lambda row: row.startswith("-- "), text.splitlines())
    sentence = re.match(r".*?\.(?= |$)", " ".join(row[len("-- "):] for row in rows))
    if not sentence:
        raise Fault(f"{file} does not begin with a comment of whole sentences that says what it is about")
    return sentence[0]


def about(text):
    """A file's length in full fifties, so that a small change leaves the index as it is."""
    return -(-len(text.splitlines()) // STEP) * STEP


def rows_of(folder):
    texts = {path.stem: path.read_text(encoding="utf-8") for path in (MODEL / folder).glob("*.antt")}
    yield from ["", f"{TITLES[folder]}, `crates/model/{folder}`:", ""]
    for name in ordered(folder, texts):
        sentence = first_sentence(f"crates/model/{folder}/{name}.antt", texts[name])
        yield from textwrap.wrap(f"- `{name}` ({about(texts[name])}): {sentence}", COLUMNS, subsequent_indent="  ",
                                 break_on_hyphens=False, break_long_words=False)


def made():
    return [row for folder in TITLES for row in rows_of(folder)] + [""]


def check():
    real, right = stored(PAGE, PART), made()
    if real != right:
        rows = difflib.unified_diff(real, right, PAGE, "as the files make it", n=0, lineterm="")
        raise Fault("\n".join([*rows, "index: run python3 tests/index.py --write"]))
    print(f"index: {PAGE} has the {sum(row.startswith('- ') for row in real)} files of crates/model as they are")


def main():
    if sys.argv[1:] == ["--check"]:
        check()
    elif sys.argv[1:] == ["--write"]:
        print(f"index: {PAGE} {'written' if write(PAGE, PART, made()) else 'is as it was'}")
    else:
        sys.exit("python3 tests/index.py --write | --check")


if __name__ == "__main__":
    try:
        main()
    except Fault as fault:
        sys.exit(f"index: {fault}")
