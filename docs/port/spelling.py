#!/usr/bin/env python3
"""Brings the repository's own definitions and lemmas to the spelling of today's Rattle: words in snake case, with a
dash only where it joins two names (types and modules keep their capitals).

usage: python3 docs/port/spelling.py      at the top of the repository, once, right after the kit's port.py

spelling.tsv, beside this script, has each old name and its new one. Each name is turned wherever it stands (.antt, .rt
and must-fail edits), and no two names fall together, so that the renaming is one to one and means nothing.
"""
import os
import re
import sys

TOKEN = re.compile(r"[^\s(){}\[\].,;:λ→\"`|⌜⌝]+")


def files(top, ends):
    for folder, dirs, names in os.walk(top):
        dirs[:] = sorted(d for d in dirs if d != "out")
        for name in sorted(names):
            if name.endswith(ends):
                yield os.path.join(folder, name)


def table():
    with open(os.path.join(os.path.dirname(os.path.abspath(__file__)), "spelling.tsv"), encoding="utf-8") as f:
        return dict(line.rstrip("\n").split("\t") for line in f)


def turn(text, turned, is_code):
    def new(m):
        name = m.group(0)
        if name not in turned:
            return name
        if "-" not in name and name.islower():
            # a lemma that has its function's name: in the code, and in a path, the name is the function's
            before, after = text[m.start() - 1 : m.start()], text[m.end() : m.end() + 1]
            if is_code or (before == "." and after == "."):
                return name
        return turned[name]

    return TOKEN.sub(new, text)


def main():
    if not os.path.isdir("crates"):
        print("run it at the top of the repository", file=sys.stderr)
        return 2
    turned = table()
    for path in files("crates", (".antt", ".rt", ".edit")):
        with open(path, encoding="utf-8") as f:
            old = f.read()
        new = turn(old, turned, not path.endswith(".antt"))
        if new != old:
            with open(path, "w", encoding="utf-8") as f:
                f.write(new)
    return 0


if __name__ == "__main__":
    sys.exit(main())
