#!/usr/bin/env python3
"""Document 01's file L is one file of data, crates/office/data/line.bin, and tests and examples read it there.

It is typed out where it cannot be read: in the proofs, in the controller that a reader should see whole, and in the
second implementation, which shares nothing. There it must be the same. Typed out anywhere else it is a fault.
"""
import pathlib
import re
import sys

HOME = pathlib.Path(__file__).resolve().parent.parent
DATA = HOME / "crates" / "office" / "data" / "line.bin"
SKIPPED = {"target", ".git", "__pycache__", "out"}
COUNTS, OBJECTS, DEVICES, VALUES = (0, 5), (5, 23), (23, 25), (25, 45)
# The entry of the first value, and the values behind it.
ENTRY, OTHERS = (26, 29), (29, 45)
# Where it is typed out, and the parts that stand there in one go.
TYPED = {
    "crates/model/specs/Examples.antt": [(0, 45)],
    "examples/controller/main.c": [(0, 45)],
    "reference/src/generate/corners.rs": [COUNTS, OBJECTS, DEVICES, ENTRY, OTHERS],
    "reference/tests/common/mod.rs": [COUNTS, OBJECTS, DEVICES, VALUES],
}


def typed(numbers):
    """Finds numbers one after the other, whatever stands between them: commas, brackets, the ends of lines."""
    between = r"[^\w.\"']{1,40}"
    return re.compile(rf"(?<!\w){between.join(str(n) for n in numbers)}(?!\w)")


def sources():
    """Every file as text, by its path from the repository's root."""
    for path in sorted(HOME.rglob("*")):
        if path.is_file() and not SKIPPED & set(path.relative_to(HOME).parts):
            yield path.relative_to(HOME).as_posix(), path.read_text(encoding="utf-8", errors="replace")


def main():
    numbers = list(DATA.read_bytes())
    if len(numbers) != 45 or max(numbers) > 127:
        sys.exit(f"line_l: {DATA} is not document 01's file L: 45 numbers of one byte each")
    texts = dict(sources())
    objects = typed(numbers[slice(*OBJECTS)])
    more = [name for name, text in texts.items() if objects.search(text) and name not in TYPED]
    if more:
        sys.exit(f"line_l: typed out in {', '.join(more)}; read {DATA.relative_to(HOME)} there")
    for name, parts in TYPED.items():
        for first, last in parts:
            if not typed(numbers[first:last]).search(texts.get(name, "")):
                sys.exit(f"line_l: {name} has not the numbers {numbers[first:last]} of file L")
    print(f"line_l: file L is in {DATA.relative_to(HOME)}, and {len(TYPED)} files type it out as it is there")


if __name__ == "__main__":
    main()
