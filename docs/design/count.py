#!/usr/bin/env python3
"""Counts the places of each point of docs/DESIGN-PASS.md in crates/*/src.

    docs/design/count.py [--list]      prints a count for each point; with --list each place too
"""
import pathlib
import re
import sys
from collections import Counter

TOP = pathlib.Path(__file__).resolve().parent.parent.parent
FN = re.compile(r"^[ ]*(?:pub(?:\(crate\))? )?(?:extern \"C\" )?fn (\w+)(?:<[^>]*>)?\(((?:[^()]|\([^()]*\))*)\)"
                r"(?:\s*->\s*([^\n{]+))?", re.M)
COLUMNS = {"kind", "kinds", "class", "owner", "hardcoded", "serial", "count", "entries"}
# What a line of a source shows of a point, and what is counted.
LINES = {
    "1 enums and structs declared": r"^\s*(pub(\(crate\))? )?(enum|struct) \w",
    "1 an answer or a flag beside a value": r"\b(answer|whole|strange|wanted|write): (u8|bool|u64|usize)\b",
    "1 a question by its number": r"\b(return|refuse\(|Refused\(|No\(|Not\(|ask\(|first_no\(|=>|answer:|\{) ?\(?"
                                  r"([1-9]|1[0-9]|2[0-3])\b(?!\.\.|[a-z_]| <=)",
    "1 constants for kinds, classes, modes, statuses, locks and cases": r"^\s*(pub(\(crate\))? )?const "
                                                                      r"(?!MOST_|SMALL_|OLD_)\w+: (u8|u64) = \d+;",
    "3 loops that count or run by hand": r"^\s*('\w+: )?(while\b|loop \{)",
    "3 loops by for and chains": r"^\s*for \w|\.(all|any|position|fold|find|map|copy_from_slice|fill)\(",
    "4 conversions by a function or by as": r"\b(wide|wide_word|wide_number|wider)\(|\bas (u8|u32|u64|usize)\b",
    "7 matches on a code, a family, an actor or a kind": r"\bmatch (code|e|f|a|k|call|kind|self)\b",
}


def sources():
    for path in sorted((TOP / "crates").glob("*/src/*.rt")):
        yield path.relative_to(TOP), path.read_text()


def parameters(text):
    """Each function of a source with the names and types of its parameters."""
    for name, listed, answer in FN.findall(text):
        parts = re.split(r",\s*(?![^\[]*\])", " ".join(listed.split()).strip(", "))
        yield name, [tuple(x.strip() for x in part.split(":", 1)) for part in parts if ":" in part], answer.strip()


def travelling(show):
    """Parameters that travel together, and facts that several contracts repeat."""
    counts, facts = Counter(), Counter()
    for path, text in sources():
        for name, given, _ in parameters(text):
            names, kinds = {n for n, _ in given}, [t for _, t in given]
            found = [label for label, holds in {
                "5 functions": True,
                "5 functions with seven parameters and more": len(given) >= 7,
                "5 functions with the area and its room": {"area", "room"} <= names,
                "5 functions with two columns and more": len(names & COLUMNS) >= 2,
                "5 functions with a Config or an Operation by value": bool({"Config", "Operation"} & set(kinds)),
            }.items() if holds]
            counts.update(found)
            if show:
                print(*(f"{label}: {path} {name}\n" for label in found[1:]), sep="", end="")
        for fact in re.findall(r"requires(?: \w+)? \{ ([^{}]*) \}", text):
            facts[" ".join(fact.split())] += 1
    repeated = {fact: n for fact, n in facts.items() if n >= 3}
    counts["5 facts in three contracts and more"] = len(repeated)
    counts["5 clauses with such a fact"] = sum(repeated.values())
    if show:
        print(*(f"5 {n} times: {fact}\n" for fact, n in sorted(repeated.items(), key=lambda x: -x[1])), sep="", end="")
    return counts


def proofs():
    """The lines of the functions' own proof files, and of all the others."""
    own = other = 0
    for path in (TOP / "crates").glob("*/proofs/**/*.antt"):
        lines = len(path.read_text().splitlines())
        if path.name in ("Answers.antt", "Invariants.antt", "Proof.antt"):
            own += lines
        else:
            other += lines
    return {"8 lines of the functions' proofs": own, "8 lines of lemmas": other}


def main(show):
    counts = Counter()
    for path, text in sources():
        for number, line in enumerate(text.splitlines(), 1):
            code = line.split("//", 1)[0]
            for label, shape in LINES.items():
                if re.search(shape, code):
                    counts[label] += 1
                    if show:
                        print(f"{label}: {path}:{number}: {line.strip()}")
    counts.update(travelling(show))
    counts.update(proofs())
    for label in sorted(counts):
        print(f"{counts[label]:6} {label}")


if __name__ == "__main__":
    main("--list" in sys.argv[1:])
