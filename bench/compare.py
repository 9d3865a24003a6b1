#!/usr/bin/env python3
"""Two runs of bench/run.py, before a change and after it: what the library's instructions grew by, row by row.

    bench/compare.py BEFORE AFTER [OLD=NEW ..]    files with what the runs printed; OLD=NEW says that a row has another
                                                  label now

It prints for each table of BEFORE how far its figures are apart, and fails if one of the library's grew by over 3 % and
by more than counting differs by, if a row has another answer, or if AFTER lacks it. Rows that only AFTER has are left
out, and so are ratios; figures of the plain gate, of the reference and of the stack are shown and not judged.
"""
import pathlib
import re
import sys

MOST = 0.03
# Between runs of the same program figures differ by some dozens: copying and clearing by the host's C library.
NOISE = 48
# Columns that say what was called; those that follow from others; and those that are not the library's.
SAME, DERIVED, SHOWN = {"answer"}, {"ratio", "ref/lib"}, {"plain C", "reference", "bytes"}


def fields_of(line):
    """The fields of a line, which have two blanks or more between them: each with the place behind it."""
    return [(found.group(), found.end()) for found in re.finditer(r"\S+(?: \S+)*", line)]


def named(head, fields):
    """The fields of a row, each with the name that stands above it: a field and its name end at the same place."""
    start, out = fields_of(head)[0][1], []
    for field, end in fields:
        out.append((head[start:end].strip(), field))
        start = end
    return out


def rows(text):
    """For each row its table's title, its label, and its figures by their names, none if words stand in their place. A
    table begins with its head, of one line or two, and ends before an empty line; a line of one field is no row."""
    for block in re.split(r"\n{2,}", text.strip("\n")):
        title, head, begun = None, None, False
        for line in block.splitlines():
            (label, _), *fields = fields_of(line)
            figures = bool(fields) and bool(re.fullmatch(r"[\d.]+", fields[-1][0]))
            if fields and not figures and not begun:
                title, head = title or label, line
            elif fields:
                begun = True
                yield title, label, named(head, fields) if figures else []


def table_of(path):
    """The rows of a run by table and label."""
    found = {}
    for title, label, figures in rows(pathlib.Path(path).read_text(encoding="utf-8")):
        if (title, label) in found:
            sys.exit(f"compare: {path} has two rows '{label}' in the table '{title}'")
        found[title, label] = figures
    if not found:
        sys.exit(f"compare: {path} has no table")
    return found


def faults(label, name, old, new):
    """What is to be said against a figure that was and is."""
    if name in SAME and old != new:
        yield f"{label}: answers {new}, and {old} before"
    elif name not in SAME | SHOWN and int(new) - int(old) > max(NOISE, MOST * int(old)):
        yield f"{label}, {name}: {new}, and {old} before"


def change(old, new):
    return 100 * (int(new) / int(old) - 1) if int(old) else 0.0


def compare(before, after, renamed):
    """The changes in per cent by table and column, and all faults."""
    changes, wrong = {}, []
    for (title, label), figures in before.items():
        now = after.get((title, renamed.get(label, label)))
        if now is None or [name for name, _ in now] != [name for name, _ in figures]:
            wrong.append(f"{title}: the second run has no such row '{label}'")
            continue
        for (name, old), (_, new) in zip(figures, now):
            if name in DERIVED:
                continue
            wrong.extend(f"{title}: {fault}" for fault in faults(label, name, old, new))
            if name not in SAME:
                changes.setdefault((title, name), []).append(change(old, new))
    return changes, wrong


def main():
    if len(sys.argv) < 3 or any("=" not in word for word in sys.argv[3:]):
        sys.exit("bench/compare.py BEFORE AFTER [OLD=NEW ..]")
    before, after = (table_of(path) for path in sys.argv[1:3])
    changes, wrong = compare(before, after, dict(word.split("=", 1) for word in sys.argv[3:]))
    print(f"{'change in per cent':<36}{'column':>12}{'rows':>8}{'least':>10}{'most':>10}")
    for (title, name), found in changes.items():
        print(f"{title:<36}{name:>12}{len(found):>8}{min(found):>10.2f}{max(found):>10.2f}")
    if wrong:
        sys.exit("\n".join(["compare: over 3 %, another answer, or not there:", *wrong]))
    print("compare: no figure of the library grew by over 3 %")


if __name__ == "__main__":
    main()
