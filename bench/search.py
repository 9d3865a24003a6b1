"""One search of the closure, by whole calls: a write that question 19 searches, beside the same write by a driver whom
question 17 refuses just before."""
import lines
from measure import TIMES, build, expect, one_call, write_case


def program(folder):
    return build(f"{folder}/calls", "gate", "-Iinclude", "bench/calls.c")


def counted(folder, made, label, line, stated, times=TIMES):
    """Instructions of all that comes before the search, and of the search with what comes after it."""
    line.strangers.add(lines.STRANGER)
    before, first = one_call(folder, made, *write_case(folder, line, line.rewrite(lines.STRANGER)), "operate",
                             times=times)
    whole, second = one_call(folder, made, *write_case(folder, line, line.rewrite(lines.AT_HOME)), "operate",
                             times=times)
    expect(f"{label}, before", "17", first)
    expect(label, stated, second)
    return before, whole - before


def table(folder):
    made = program(folder)
    print(f"{'search of the closure':<36}{'answer':>8}{'before':>10}{'search':>10}")
    for label, line, stated in lines.searches():
        before, search = counted(folder, made, label, line, stated)
        print(f"{label:<36}{stated:>8}{before:>10}{search:>10}")
