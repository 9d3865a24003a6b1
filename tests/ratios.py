#!/usr/bin/env python3
"""Holds the library's instructions to those of the gate in plain C (bench/plain), by callgrind, in one run.

    tests/ratios.py            fails if a call takes over a tenth more of the plain gate's than tables/ratios.ini keeps,
                               or more instructions than its bound, or a search does
    tests/ratios.py --write    keeps what is measured

A ratio does not depend on the clock, and little on the machine. It needs valgrind, and fails without it.
"""
import configparser
import pathlib
import shutil
import sys
import tempfile

TOP = pathlib.Path(__file__).resolve().parent.parent
sys.path.insert(0, str(TOP / "bench"))
import beside  # noqa: E402
import full  # noqa: E402
import lines  # noqa: E402
import parts  # noqa: E402
import search  # noqa: E402
from measure import expect, one_call, write_case, write_files  # noqa: E402

KEPT = TOP / "tables" / "ratios.ini"
HEAD = """\
# How many times as many instructions as the gate in plain C (bench/plain) the library takes for a call. `make check`
# fails where it takes over a tenth more than is kept here; `python3 tests/ratios.py --write` keeps what is measured.

[library / plain C]
"""
# Loading, question 9 with the searches behind 19 and 21, question 22, question 18 with items, and the writer: rows of
# the table `beside`.
REWRITE, WIDE_WRITE = "full: rewrite the line", "wide: driver writes data, dense"
ENTERING, GREEN_WRITE = "full: activate a ring card, dense", f"full: {beside.GREEN_WRITE}"
ROWS = ("full: load check", "full: driver writes data, dense", ENTERING, GREEN_WRITE, REWRITE,
        "quarter: card writes eight items, dense", "wide: load check", WIDE_WRITE)
SLOWER = 1.1
# Rows of the tables `load`, `search` and `parts`, and a difference of two calls, of which no ratio is kept.
WIDE_LOAD, WIDE_SEARCH = "longest file of edition 1: load check", "wide: search, dense"
QUESTION_9, WIDE_QUESTION_9 = "full: question 9, dense", "wide: question 9, dense"
GREEN_LEAVING = "full: eight objects leave, dense, in a green zone more"
# How much more locking or unlocking a card takes than creating a partition in the same state.
LOCKS = {f"{name}: {label}, more than creating a partition": (size, label) for name, size in lines.SIZES
         for label in (beside.LOCKING, beside.UNLOCKING)}
# How much more a load takes of a file with sixteen serials of three bytes than of the same line's file of edition 1.
SERIALS = {"full: load check, 16 serials more": lambda: full.mixed(**lines.FULL),
           "wide: load check, 16 serials more": lambda: full.mixed(**lines.WIDE),
           "longest file: load check, 16 serials more": full.longest}
# The instructions that the library may take, whatever the plain gate takes: for rewriting a line of full size, for a
# card that comes in there, for a driver's write in a green zone, for what leaving one takes more than leaving another
# zone, for what a lock takes more than the creating of a partition, for what serials take more than none, for question
# 9 on a line of full size and on one of 192 objects, and for a load, a search and a whole write on a line of 192
# objects.
MOST_REWRITE = 65000
MOST_ENTERING = 95000
MOST_GREEN_WRITE = 38000
MOST_GREEN_LEAVING = 8000
MOST_LOCK = 400
MOST_SERIALS = 1600
MOST_QUESTION_9 = 4500
MOST_WIDE_QUESTION_9 = 2 * MOST_QUESTION_9
MOST_WIDE_LOAD = 50000
MOST_WIDE_SEARCH = 110000
MOST_WIDE_WRITE = 175000
BOUNDS = {REWRITE: MOST_REWRITE, ENTERING: MOST_ENTERING, GREEN_WRITE: MOST_GREEN_WRITE,
          GREEN_LEAVING: MOST_GREEN_LEAVING, QUESTION_9: MOST_QUESTION_9, WIDE_QUESTION_9: MOST_WIDE_QUESTION_9,
          WIDE_LOAD: MOST_WIDE_LOAD, WIDE_SEARCH: MOST_WIDE_SEARCH, WIDE_WRITE: MOST_WIDE_WRITE,
          **dict.fromkeys(LOCKS, MOST_LOCK), **dict.fromkeys(SERIALS, MOST_SERIALS)}
# Every call of a row is the same, so that few are enough.
TIMES = 10


def measured():
    """The library's instructions of each row, and how many times those of the plain gate they are."""
    with tempfile.TemporaryDirectory() as folder:
        made = beside.program(folder)
        for name, size in lines.SIZES:
            for label, *case in beside.cases(size):
                if f"{name}: {label}" in ROWS:
                    plain, gate = beside.both(folder, made, label, *case, times=TIMES)
                    yield f"{name}: {label}", gate, gate / plain


def bounded():
    """The library's instructions of the rows that have a bound alone: question 9 on dense lines, a load of the longest
    file, in which all entries name objects by two bytes, a dense search, what a green zone asks of what leaves, locks,
    and serials."""
    with tempfile.TemporaryDirectory() as folder:
        made = search.program(folder)
        count = loading(folder, made, WIDE_LOAD, full.longest())
        label, line, stated = next(case for case in lines.searches() if case[0] == lines.DENSE_WIDE)
        return {WIDE_LOAD: count, WIDE_SEARCH: search.counted(folder, made, label, line, stated, times=TIMES)[1],
                QUESTION_9: question_9(folder, lines.FULL), WIDE_QUESTION_9: question_9(folder, lines.WIDE),
                GREEN_LEAVING: leaving_green(folder, made),
                **{row: locking(folder, made, *case) for row, case in LOCKS.items()},
                **{row: reading_serials(folder, made, row, make) for row, make in SERIALS.items()}}


def loading(folder, made, row, line):
    """A load of the line's file."""
    count, answer = one_call(folder, made, *write_files(folder, line.file(), b"", b""), "load", times=TIMES)
    expect(row, "0", answer)
    return count


def reading_serials(folder, made, row, make):
    """What the line's file takes more with serials than without."""
    return loading(folder, made, row, make().serialized()) - loading(folder, made, row, make())


def question_9(folder, size):
    """What a call that gets to question 10 takes more than one that question 8 refuses."""
    return next(more for label, _, _, more in parts.steps(folder, size, TIMES) if label == parts.QUESTION_9)


def leaving_green(folder, made):
    """What eight objects that leave take more in a green zone than in another one; both calls are accepted."""
    line, counts = full.green(**lines.FULL), []
    for line.green in (False, True):
        count, answer = one_call(folder, made, *write_case(folder, line, beside.leave_eight(line)), "operate",
                                 times=TIMES)
        expect(GREEN_LEAVING, "0", answer)
        counts.append(count)
    return counts[1] - counts[0]


def locking(folder, made, size, label):
    """What the case takes more than the creating of a partition, of the calls that the table `beside` has of locks."""
    counts = {}
    for named, call, line, record, stated in beside.lock_cases(size):
        if named in (label, beside.CREATING):
            counts[named], answer = one_call(folder, made, *write_case(folder, line, record), call, times=TIMES)
            expect(named, stated, answer)
    return counts[label] - counts[beside.CREATING]


def kept():
    table = configparser.ConfigParser(delimiters=("=",))
    table.read_string(KEPT.read_text(encoding="utf-8"))
    return {label: float(ratio) for label, ratio in table["library / plain C"].items()}


def main():
    if sys.argv[1:] not in ([], ["--write"]):
        sys.exit("tests/ratios.py [--write]")
    if not shutil.which("valgrind"):
        sys.exit("ratios: valgrind is not installed: it counts the instructions")
    counts, found = {}, {}
    for row, count, ratio in measured():
        counts[row], found[row] = count, ratio
    if set(found) != set(ROWS):
        sys.exit(f"ratios: the table 'beside' lacks {', '.join(set(ROWS) - set(found))}")
    counts |= bounded()
    for row, most in BOUNDS.items():
        if counts[row] > most:
            sys.exit(f"ratios: {row}: {counts[row]} instructions, over the bound of {most}")
    if sys.argv[1:]:
        KEPT.write_text(HEAD + "".join(f"{row} = {ratio:.2f}\n" for row, ratio in found.items()), encoding="utf-8")
        return
    held = kept()
    if set(held) != set(found):
        sys.exit("ratios: tables/ratios.ini has other rows than tests/ratios.py; --write makes it anew")
    slow = [f"{row}: {ratio:.2f}, kept is {held[row]:.2f}" for row, ratio in found.items()
            if ratio > SLOWER * held[row]]
    if slow:
        sys.exit("ratios: the library takes over a tenth more of the plain C gate's instructions than is kept\n"
                 + "\n".join(slow))
    print("ratios:", ", ".join(f"{ratio:.2f} ({row})" for row, ratio in found.items())
          + "; instructions: " + ", ".join(f"{counts[row]} of {most} ({row})" for row, most in BOUNDS.items()))


if __name__ == "__main__":
    main()
