#!/usr/bin/env python3
"""docs/CHANGING.md names what is there: every path, file and word of the sources that stands in backticks.

    python3 tests/named.py
"""
import re
import sys

sys.dont_write_bytecode = True
from made import ROOT  # noqa: E402

PAGE = ROOT / "docs" / "CHANGING.md"
FOLDERS = ("crates", "reference", "tools", "tests", "bench", "bindings", "include", "tables", "examples", "docs")
BUILT = {"target", "__pycache__", "out"}
ENDINGS = re.compile(r"\.(?:antt|rt|rs|py|c|h|sh|md|ini|edit|txt|csv)$")
# A commit, and words that stand for any name.
COMMIT = re.compile(r"[0-9a-f]{7}")
ANY = {"NAME", "EDIT", "FILE", "FUNCTION"}


def spelled(path):
    """The paths that a path with braces stands for."""
    braces = re.search(r"\{([^{}]*)\}", path)
    if not braces:
        return [path]
    before, after = path[:braces.start()], path[braces.end():]
    return [one for part in braces[1].split(",") for one in spelled(before + part + after)]


def sources():
    """Every file but what is built, by its path from the repository's root."""
    top = [path for path in ROOT.iterdir() if path.is_file()]
    found = top + [path for folder in FOLDERS for path in (ROOT / folder).rglob("*") if path.is_file()]
    return {path.relative_to(ROOT): path for path in found if not BUILT & set(path.relative_to(ROOT).parts)}


def missing(text):
    """What the text names and is not there."""
    files = sources()
    paths = {one.as_posix() for path in files for one in (path, *path.parents)} | {path.name for path in files}
    words = {word for path, file in files.items() if ENDINGS.search(path.name) and file != PAGE
             for word in re.findall(r"\w+", file.read_text(encoding="utf-8"))}
    for name in (one for named in re.findall(r"`([\w./{},*-]+)`", text) for one in spelled(named)):
        path = name.rstrip("/")
        if ANY & set(re.findall(r"\w+", path)) or COMMIT.fullmatch(path):
            continue
        if "/" in path or ENDINGS.search(path):
            there = path in paths or any(ROOT.glob(path))
        else:
            there = not re.fullmatch(r"[A-Za-z_]{2,}\w*", path) or path in words | paths
        if not there:
            yield name


if __name__ == "__main__":
    lost = sorted(set(missing(PAGE.read_text(encoding="utf-8"))))
    if lost:
        sys.exit(f"named: {PAGE.relative_to(ROOT)} names what is not there: {', '.join(lost)}")
    print(f"named: {PAGE.relative_to(ROOT)} names what is there")
