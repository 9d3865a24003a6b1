"""Where the instructions of a call go, at full size and wide: how much more a call takes that gets some questions
further, and what each function of the library takes by itself. Both show what limits the library
(docs/PERFORMANCE.md).
"""
import re

import lines
import vectors
from measure import TIMES, build, expect, one_call, run, write_case

# A function's part in a call, by the names that callgrind gives; what the compiler put into its caller counts there.
PARTS = [("load the file", r"(config|sound|varint)::"),
         ("the search of the closure", r"(closure|described|scene)::"),
         ("the other questions, 9 above all", r"(gate_operate|state::|questions::)"),
         ("carry out, and take apart", r"(effect|operation)::"),
         ("copy and clear (the host's C library)", r"__mem")]


# The step that tests/ratios.py holds to a bound.
QUESTION_9 = "9: the whole area"


def steps(folder, size, times=TIMES):
    """The same dense state; each call is refused later than the one before: label, answer, the call's instructions, and
    how many more they are."""
    program = build(f"{folder}/calls", "gate", "-Iinclude", "bench/calls.c")
    line = lines.leaving(**size)
    own, value = line.own(1)[0], len(line.values)
    write = vectors.row([1, 1, 1, own, 0, value])
    cases = [("1 to 8: the file", "short", write, "8"), (QUESTION_9, "operate", b"", "10"),
             ("10 to 16: the record", "operate", vectors.row([7, 1, 1]), "16"),
             ("17 to 19, and the effect", "operate", write, "0")]
    before = 0
    for label, call, record, stated in cases:
        whole, answer = one_call(folder, program, *write_case(folder, line, record), call, times=times)
        expect(label, stated, answer)
        yield label, answer, whole, whole - before
        before = whole


def steps_table(folder, head, size):
    print(f"{head:<36}{'answer':>8}{'whole':>10}{'more':>10}")
    for label, answer, whole, more in steps(folder, size):
        print(f"{label:<36}{answer:>8}{whole:>10}{more:>10}")


def by_function(folder, program, paths, times):
    """The instructions of each function by itself."""
    run("valgrind", "--tool=callgrind", f"--callgrind-out-file={folder}/out", program, *paths, times, "operate")
    text = run("callgrind_annotate", "--threshold=100", "--auto=no", f"{folder}/out").stdout
    found = {}
    for count, name in re.findall(r"^ *([\d,]+) \([ \d.]+%\) +\S*?:([\w:]+)", text, re.M):
        found[name] = found.get(name, 0) + int(count.replace(",", ""))
    return found


def functions_table(folder, head, size):
    """One call by its functions: what TIMES + 1 calls take more than one, divided."""
    program = build(f"{folder}/calls", "gate", "-Iinclude", "bench/calls.c")
    dense = lines.leaving(**size)
    own, value, last = dense.own(1)[0], len(dense.values), len(dense.objects)
    into_chain = vectors.row([1, 1, 1, last, 0, 2])
    cases = [(dense, vectors.row([1, 1, 1, own, 0, value])), (dense, vectors.row([11, 1])),
             (lines.chain_out(1, **size), into_chain), (lines.chain_out(40, **size), into_chain)]
    columns = []
    for line, record in cases:
        paths = write_case(folder, line, record)
        many, once = (by_function(folder, program, paths, n) for n in (TIMES + 1, 1))
        each = {name: (count - once.get(name, 0)) // TIMES for name, count in many.items()}
        column = [0] * len(PARTS)
        for name, count in each.items():
            part = next((i for i, (_, pattern) in enumerate(PARTS) if re.match(pattern, name)), None)
            if part is not None:
                column[part] += count
        columns.append(column)
    print(f"{head:<40}{'write':>10}{'leave':>10}{'chain 1':>10}{'chain 40':>10}")
    for (label, _), *counts in zip(PARTS, *columns):
        print(f"{label:<40}" + "".join(f"{n:>10}" for n in counts))
    print(f"{'together':<40}" + "".join(f"{sum(column):>10}" for column in columns))


def table(folder):
    steps_table(folder, "questions, one after the other", lines.FULL)
    print()
    functions_table(folder, "functions of one call", lines.FULL)
    print()
    steps_table(folder, "questions, on the wide line", lines.WIDE)
    print()
    functions_table(folder, "functions of one call, wide", lines.WIDE)
