#!/usr/bin/env python3
"""docs/CONTROLLER.md says of each code what the host owes; the line of its example is that of host.c everywhere."""
import pathlib
import re
import sys

ROOT = pathlib.Path(__file__).resolve().parent.parent


def text_of(name):
    return (ROOT / name).read_text(encoding="utf-8")


def main():
    text = text_of("docs/CONTROLLER.md")
    rows = re.search(r"^\| Code \| Take away.*?\n\n", text, re.DOTALL | re.MULTILINE)
    told = [int(code) for row in re.findall(r"^\| ([\d, ]+) \|", rows[0] if rows else "", re.MULTILINE)
            for code in row.split(", ")]
    part = re.search("begin records.*?end records", text, re.DOTALL)[0]
    if sorted(told) != [int(code) for code in re.findall(r"^\| (\d+) \| `", part, re.MULTILINE)]:
        sys.exit(f"owed: docs/CONTROLLER.md tells what the host owes of the codes {told}")
    line = re.search(r"LINE\[\] = {([\d, \n]+)}", text_of("examples/controller/host.c"))[1]
    for manual in ("docs/CONTROLLER.md", "docs/SPECIFICATION.md"):
        shown = re.findall(r"`(1 1 1 4 4 / [\d ,/]+)`", " ".join(text_of(manual).split()))
        if not shown or any(re.findall(r"\d+", one) != re.findall(r"\d+", line) for one in shown):
            sys.exit(f"owed: {manual} does not show the line of host.c")
    print(f"owed: what the host owes is told of {len(told)} codes")


if __name__ == "__main__":
    main()
