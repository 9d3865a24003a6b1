#!/usr/bin/env python3
"""The edits that must be refused: docs/SPECIFICATION.md lists each once, with the fact at which it is refused, and
lists no other; and each replaces text that stands in its file exactly once.

    tests/edits.py
"""
import pathlib
import re
import sys

ROOT = pathlib.Path(__file__).resolve().parent.parent
TOUR = ROOT / "docs" / "SPECIFICATION.md"
ROW = re.compile(r"^\| `(\w+/\w+)` \| `[^`]+` \| [^|]+ \|$", re.MULTILINE)


def replacements(edit):
    """The file and the old text of each replacement of an edit."""
    file = None
    for line in edit.read_text(encoding="utf-8").splitlines():
        if line.startswith("file: "):
            file = edit.parent.parent / line[len("file: "):]
        elif line.startswith("old: "):
            yield file, line[len("old: "):]


def faults():
    edits = {f"{edit.parent.parent.name}/{edit.stem}": edit for edit in (ROOT / "crates").glob("*/must-fail/*.edit")}
    listed = ROW.findall(TOUR.read_text(encoding="utf-8"))
    for name in sorted(set(listed) | set(edits)):
        if listed.count(name) != 1:
            yield f"docs/SPECIFICATION.md lists {name} {listed.count(name)} times"
        if name not in edits:
            yield f"docs/SPECIFICATION.md lists {name}, and there is no such edit"
    for name, edit in sorted(edits.items()):
        pairs = list(replacements(edit))
        if not pairs:
            yield f"{name} replaces nothing"
        for file, old in pairs:
            if file.read_text(encoding="utf-8").count(old) != 1:
                yield f"{name}: {file.name} does not have its old text once"


if __name__ == "__main__":
    told = list(faults())
    if told:
        sys.exit("\n".join(f"edits: {fault}" for fault in told))
    print("edits: docs/SPECIFICATION.md has a row for each, and each finds its text")
