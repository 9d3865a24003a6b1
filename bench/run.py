#!/usr/bin/env python3
"""Instructions by callgrind, in one run: calls beside a gate in plain C, which must first agree with the library, line
files rewritten, and how both grow with a chain; one search of the closure, whole calls, where their instructions go,
calls beside the second implementation; and the stack that a call takes.

    bench/run.py            all tables; needs rt, make, gcc, cargo and valgrind
    bench/run.py NAME..     some of them: load, beside, rewrite, growth, search, operate, parts, reference, stack
"""
import pathlib
import sys
import tempfile

TOP = pathlib.Path(__file__).resolve().parent.parent
sys.path.insert(0, str(TOP / "tests"))
import beside  # noqa: E402
import full  # noqa: E402
import lines  # noqa: E402
import parts  # noqa: E402
import search  # noqa: E402
import stack  # noqa: E402
import vectors  # noqa: E402
from measure import REFERENCE_TIMES, build, expect, one_call, write_case  # noqa: E402

CHAINS = (1, 10, 40)
# How many bytes a number has that never ends.
ENDLESS = 65535


def load_table(folder):
    program = build(f"{folder}/load", "gate", "bench/load.c", *beside.PLAIN)
    print(f"{'load check':<36}{'bytes':>6}{'answer':>8}{'plain C':>10}{'library':>10}{'ratio':>8}")
    cases = [("document 01's L", vectors.row(vectors.L), "0"), (beside.FULL_FILE, vectors.full_size(), "0"),
             (beside.FULL_SERIALS, beside.full_serials(), "0"), (beside.LONGEST_FILE, full.longest().file(), "0"),
             (beside.LONGEST_SERIALS, full.longest().serialized().file(), "0"),
             (f"{ENDLESS:,} bytes, no last one", bytes([255] * ENDLESS), "1")]
    for label, data, stated in cases:
        file = pathlib.Path(folder) / "line.bin"
        file.write_bytes(data)
        plain, first = one_call(folder, program, file, "plain")
        gate, second = one_call(folder, program, file, "gate")
        expect(label, stated, first, second)
        print(f"{label:<36}{len(data):>6}{first:>8}{plain:>10}{gate:>10}{gate / plain:>8.2f}")


def operate_table(folder):
    """Whole calls at full size, the file loaded in each; the state is the dense one, with a card inactive for locks."""
    program = build(f"{folder}/calls", "gate", "-Iinclude", "bench/calls.c")
    print(f"{'one operation call':<36}{'answer':>8}{'whole':>10}")
    line = lines.crossing()
    line.elsewhere.clear()
    last = max(n for n, o in line.objects.items() if o[0] == 3)
    raw = vectors.row([1, 1, 1, last, 1]) + bytes(range(16))
    cases = [("create a partition", vectors.row([5, 3]), "0"),
             ("create a green zone", vectors.row([13, 3]), "0"),
             ("destroy: refused, not empty", vectors.row([6, 1]), "15"),
             ("a driver writes data", raw, "0"),
             ("a driver reads eight objects", vectors.row([3, 1, 8] + [last, 0] * 8), "0"),
             ("a device reads a descriptor", vectors.row([4, 1, 1, line.own(1)[0], 0]), "0"),
             ("a device leaves: refused", vectors.row([11, 1]), "20")]
    # The last device is inactive from here on, and then locked too.
    card = line.devices
    aside = [("create a partition, a card inactive", vectors.row([5, 3]), "0"),
             ("lock a card", vectors.row([14, card]), "0")]
    locked = [("unlock a card", vectors.row([15, card]), "0"),
              ("a locked card comes in: refused", vectors.row([8, card, 1]), "23")]
    for asleep, locks, some in ((set(), set(), cases), ({(2, card)}, set(), aside), ({(2, card)}, {card}, locked)):
        line.asleep, line.locked = asleep, locks
        for label, record, stated in some:
            whole, answer = one_call(folder, program, *write_case(folder, line, record), "operate")
            expect(label, stated, answer)
            print(f"{label:<36}{answer:>8}{whole:>10}")


def reference_cases(size):
    """A label, what is called, a line, a record and the answer; a line of None if the case does not fit the size."""
    line = lines.leaving(**size)
    own, value = line.own(1)[0], len(line.values)
    yield "load check", "load", line, b"", "0"
    yield "fresh state", "fresh", line, b"", "0"
    yield "driver writes a descriptor", "operate", line, vectors.row([1, 1, 1, own, 0, value]), "0"
    for steps in CHAINS:
        fits = steps < value
        chain = lines.chain_out(steps, **size) if fits else None
        record = vectors.row([1, 1, 1, len(line.objects), 0, 2])
        yield f"write refused, chain of {steps}", "operate", chain, record, "19"
    yield "object leaves", "operate", line, vectors.row([12, 1, 1, len(line.objects)]), "0"
    yield "device leaves, refused", "operate", line, vectors.row([11, 1]), "20"


def reference_table(folder):
    """The library beside the second implementation, on the same bytes; both must give the stated answer."""
    program = build(f"{folder}/calls", "gate", "-Iinclude", "bench/calls.c")
    reference = vectors.reference_program("calls")
    print(f"{'beside the reference':<42}{'answer':>6}{'reference':>12}{'library':>10}{'ref/lib':>8}")
    for name, size in lines.SIZES:
        for label, call, line, record, stated in reference_cases(size):
            label = f"{name}: {label}"
            if line is None:
                print(f"{label:<42}{'more steps than values':>36}")
                continue
            paths = write_case(folder, line, record)
            gate, first = one_call(folder, program, *paths, call)
            other, second = one_call(folder, reference, *paths, call, times=REFERENCE_TIMES)
            expect(label, stated, first, second)
            print(f"{label:<42}{first:>6}{other:>12}{gate:>10}{other / gate:>8.1f}")


TABLES = {"load": load_table, "beside": beside.table, "rewrite": beside.rewrite_table, "growth": beside.growth_table,
          "search": search.table, "operate": operate_table, "parts": parts.table, "reference": reference_table,
          "stack": stack.table}
# The tables that have figures of the plain gate.
WITH_PLAIN = {"load", "beside", "rewrite", "growth"}


def main():
    names = sys.argv[1:] or list(TABLES)
    if not set(names) <= set(TABLES):
        sys.exit(f"bench/run.py [NAME..], a NAME is one of {', '.join(TABLES)}")
    with tempfile.TemporaryDirectory() as folder:
        if WITH_PLAIN & set(names):
            beside.agree(folder)
            print()
        for place, name in enumerate(names):
            if place:
                print()
            TABLES[name](folder)


if __name__ == "__main__":
    main()
