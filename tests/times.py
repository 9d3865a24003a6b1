#!/usr/bin/env python3
"""How large the crates are and where the gate's time goes: the tables of docs/DESIGN.md, the second made of what
.ci/run printed. (What a crate or an edit takes by itself rt ci does not tell; it proves several side by side.)

    .ci/run 2>&1 | tee LOG                with nothing else to do
    python3 tests/times.py --write LOG    put its seconds into the tables
    python3 tests/times.py --check        fail if the tables have not the crates and parts that there are

A log of less changes the rows that it tells, and the others stay; of what it tells twice the later counts. A log with a
crate that is not proved, or an edit that is not refused, is not taken.
"""
import pathlib
import re
import sys

sys.dont_write_bytecode = True
from made import ROOT, Fault, stored, write  # noqa: E402

PAGE, PART, UNKNOWN = "docs/DESIGN.md", "times", "?"
CRATES = ["Crate", "Lines of code", "of specs and proofs", "Edits"]
PARTS = ["Part of the gate", "By the clock, s"]
WHOLE = "the whole gate"
LINES = {
    "parts": re.compile(r"^part: (.+) \((\d+) s\)$", re.MULTILINE),
    "whole": re.compile(r"^(gate): (\d+) s$", re.MULTILINE),
}
# What the log calls the part that is rt ci.
VERDICT = ("verdict", "rt ci")
BROKEN = re.compile(r"^rt: .*(?:NOT PROVED|NOT REFUSED|BAD EDIT|FAILED).*$", re.MULTILINE)


def listed():
    """The crates, in the order of crates.txt."""
    return re.findall(r"^(\w+)(?: [^:#\n]*)?:", (ROOT / "crates.txt").read_text(encoding="utf-8"), re.MULTILINE)


def parts_of_gate():
    """What .ci/run runs, as its log names it."""
    return re.findall(r"^\(?part ([^)\n]+)", (ROOT / ".ci" / "run").read_text(encoding="utf-8"), re.MULTILINE)


def lines_of(crate, *folders):
    files = [path for folder in folders for path in (ROOT / "crates" / crate / folder).rglob("*") if path.is_file()]
    return sum(len(path.read_text(encoding="utf-8").splitlines()) for path in files)


def told(log):
    """The seconds of each part, and of the whole, in the log's order."""
    broken = BROKEN.search(log)
    if broken:
        raise Fault(f"the log is of a gate that failed: {broken[0]}")
    found = {kind: {name: int(seconds) for name, seconds in line.findall(log)} for kind, line in LINES.items()}
    if not any(found.values()):
        raise Fault("the log has no line with seconds of .ci/run")
    return found


def page_rows():
    """The numbers that the page has, by the first cell of their row; None for one that it does not know."""
    rows = [[cell.strip() for cell in row.strip("|").split("|")] for row in stored(PAGE, PART)]
    return {row[0]: [None if cell == UNKNOWN else int(cell.replace(",", "")) for cell in row[1:]]
            for row in rows if re.fullmatch(rf"[\d,]+|\{UNKNOWN}", row[-1])}


def crate_row(crate):
    """A crate's numbers, as they are."""
    return [lines_of(crate, "src"), lines_of(crate, "specs", "proofs"),
            len(list((ROOT / "crates" / crate / "must-fail").glob("*.edit")))]


def part_rows(found):
    """The parts of the gate by the clock, and the whole, as far as the log tells them."""
    made = {f"`{part.replace(*VERDICT)}`": found["parts"].get(part) for part in parts_of_gate()}
    return {**made, WHOLE: found["whole"].get("gate")}


def table(heading, rows):
    """The lines of a table; its numbers stand to the right."""
    shown = [[name, *(UNKNOWN if number is None else f"{number:,}" for number in row)] for name, row in rows]
    return [f"| {' | '.join(cells)} |" for cells in [heading, ["---"] + ["--:"] * (len(heading) - 1), *shown]]


def made(found):
    old = page_rows()
    crates = [[f"`{crate}`", crate_row(crate)] for crate in listed()]
    crates.append(["all", [sum(column) for column in zip(*(row for _, row in crates))]])
    parts = [[part, [old.get(part, [None])[0] if seconds is None else seconds]]
             for part, seconds in part_rows(found).items()]
    return ["", *table(CRATES, crates), "", *table(PARTS, parts), ""]


def check():
    real = [row.split(" |")[0] for row in stored(PAGE, PART)]
    right = [row.split(" |")[0] for row in made({kind: {} for kind in LINES})]
    if real != right:
        raise Fault(f"{PAGE} has other rows than there are crates and parts of the gate: "
                    f"{', '.join(sorted({*real} ^ {*right})) or 'their order'}")
    print(f"times: {PAGE} has a row for each crate and each part of the gate")


def main():
    if sys.argv[1:] == ["--check"]:
        check()
    elif len(sys.argv) == 3 and sys.argv[1] == "--write":
        log = pathlib.Path(sys.argv[2]).read_text(encoding="utf-8", errors="replace")
        print(f"times: {PAGE} {'written' if write(PAGE, PART, made(told(log))) else 'is as it was'}")
    else:
        sys.exit("python3 tests/times.py --write LOG | --check")


if __name__ == "__main__":
    try:
        main()
    except (Fault, OSError) as fault:
        sys.exit(f"times: {fault}")
