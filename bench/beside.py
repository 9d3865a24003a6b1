"""The library beside a gate in plain C (bench/plain): instructions of the same calls on the same bytes, and how both
grow with the length of a chain. Both must give the stated answer and leave the same areas, or the run ends.
"""
import pathlib

import full
import lines
import vectors
from layout import MOST_SERIAL, with_serials
from measure import TIMES, build, expect, one_call, run, write_case, write_files

TOP = pathlib.Path(__file__).resolve().parent.parent
PLAIN = sorted(str(path.relative_to(TOP)) for path in (TOP / "bench" / "plain").glob("*.c"))
CHAINS = (1, 10, 40)
# The largest files of lines of full size and of any, in edition 1 and, with a serial of three bytes for each card, in
# edition 2.
FULL_FILE, LONGEST_FILE = "96 objects, all else at its limit", "every count at its limit"
FULL_SERIALS, LONGEST_SERIALS = "96 objects, and 16 serials", "every count, and 16 serials"
ORDERS = ("rising", "falling", "shuffled")
# Generated calls that must agree before anything is counted: a gate that is wrong is no mark.
AGREEING = 200000
RAW = bytes(range(16))
# Rows that tests/ratios.py holds to bounds.
GREEN_WRITE = "green: driver writes eight descriptors, dense"
CREATING, LOCKING, UNLOCKING = "create a partition, dense", "lock a card, dense", "unlock a card, dense"
LOADING, LOADING_SERIALS = "load check", "load check, serials of three bytes"
# An answer that has a kind: the kind's words, and what it counts.
DONE, SHORT, KIND_UNIT = 0, 2, 2 ** 32
KINDS = {DONE: "done", SHORT: "short"}


def program(folder):
    return build(f"{folder}/beside", "gate", "-Iinclude", "bench/beside.c", *PLAIN)


def agree(folder):
    """Ends the run if the plain gate and the library differ."""
    made = build(f"{folder}/agree", "gate", "-Iinclude", "-Ibench", "bench/agree.c", "bench/linked.c",
                 *(f"tests/{name}.c" for name in ("inputs", "known", "line", "effect")), *PLAIN)
    print(run(made, AGREEING, 1).stdout, end="")


def both(folder, made, label, call, line, record, stated, times=TIMES):
    """Instructions of the plain gate and of the library for one case."""
    return counted(folder, made, label, call, write_case(folder, line, record), stated, times)


def counted(folder, made, label, call, paths, stated, times=TIMES):
    """The same for a case whose files are written."""
    expect(label, stated, run(made, call, *paths, 1, "both").stdout.strip())
    (plain, first), (gate, second) = (one_call(folder, made, call, *paths, who, times=times)
                                      for who in ("plain", "gate"))
    expect(label, stated, first, second)
    return plain, gate


def card_writes(line):
    """Eight items that device 1 may write with the values of the moment."""
    items = list(full.described(line, 1).items())[-8:]
    return vectors.row([2, 1, len(items)]) + b"".join(
        vectors.row([n, 0, put]) if line.objects[n][0] == 1 else vectors.row([n, 1]) + RAW for n, put in items)


def into_chain(line, steps):
    """A driver writes the value from which the chain has so many steps."""
    return vectors.row([1, 1, 1, line.first, 0, line.start[steps]])


def eight_values(line, last):
    """A driver writes eight descriptors, each with a value of six entries; the last value is given."""
    values = [line.kept[i % len(line.kept)] for i in range(7)] + [last]
    return vectors.row([1, 1, 8] + sum(([n, 0, v] for n, v in zip(line.descriptors, values)), []))


def green_cases(size):
    """The same of green zones (request N5), where nothing is searched for a driver's write or copy; and a write and a
    leaving of these in a zone that is not green."""
    line, kept, plain = full.green(**size), full.green(keeping=True, **size), full.green(**size)
    data, own, plain.green = line.data, line.descriptors, False
    pairs = sum(([n, into] for n, into in zip(own[:8], own[1:])), [])
    yield "green: driver writes data, dense", "operate", line, vectors.row([1, 1, 1, data[-1], 1]) + RAW, "0"
    yield GREEN_WRITE, "operate", line, eight_values(line, line.kept[-1]), "0"
    yield "the same write where 19 searches, dense", "operate", plain, eight_values(line, line.kept[-1]), "0"
    yield "green: driver copies eight descriptors, dense", "operate", line, vectors.row([3, 1, 8] + pairs), "0"
    yield "green: write refused by its last entry, dense", "operate", line, eight_values(line, line.breaking), "22"
    yield "green: object leaves, dense", "operate", line, vectors.row([12, 1, 1, data[-1]]), "0"
    yield "green: eight objects leave, dense", "operate", line, leave_eight(line), "0"
    yield "the same eight leave a zone that is not green", "operate", plain, leave_eight(line), "0"
    yield "green: object kept by what stays, dense", "operate", kept, vectors.row([12, 1, 1, data[-1]]), "20"
    absent, ring = full.green(**size), full.rings(**size)
    absent.asleep, ring.green = {(2, 1)}, True
    yield "green: activate a card, dense", "operate", absent, vectors.row([8, 1, 1]), "0"
    yield "green: ring card refused, dense", "operate", ring, vectors.row([8, 1, 1]), "22"


def lock_cases(size):
    """The same of a card's lock (request N6), beside the creating of a partition in the same state, which looks at the
    area and changes a byte of it too."""
    free, locked = full.without_device(**size), full.without_device(locked=True, **size)
    card = free.devices
    yield CREATING, "operate", free, vectors.row([5, 3]), "0"
    yield LOCKING, "operate", free, vectors.row([14, card]), "0"
    yield UNLOCKING, "operate", locked, vectors.row([15, card]), "0"
    yield "locked card refused, dense", "operate", locked, vectors.row([8, card, 1]), "23"


def leave_eight(line):
    """The external data but for the first, which values name."""
    return vectors.row([12, 1, 8] + line.data[1:])


def cases(size):
    """A label, what is called, a line, a record and the answer."""
    dense, little = full.mixed(**size), full.little(**size)
    last, data = len(dense.objects), dense.data
    write = vectors.row([1, 1, 1, last, 1]) + RAW
    copies = sum(([n, n + 1] for n in data[:-1]), [])
    yield LOADING, "load", dense, b"", "0"
    yield LOADING_SERIALS, "load", full.mixed(**size).serialized(), b"", "0"
    yield "fresh state", "fresh", dense, b"", "0"
    yield "driver writes data, little active", "operate", little, write, "0"
    yield "driver writes data, dense", "operate", dense, write, "0"
    line = full.links("rising", 6, **size)
    for steps in CHAINS:
        if steps in line.start:
            yield f"write refused, chain of {steps}", "operate", line, into_chain(line, steps), "19"
    yield "driver reads eight with copies, little active", "operate", little, vectors.row([3, 1, 8] + copies), "0"
    absent = full.without_device(**size)
    yield "activate a card, dense", "operate", absent, vectors.row([8, absent.devices, 1]), "0"
    yield "activate a ring card, dense", "operate", full.rings(**size), vectors.row([8, 1, 1]), "0"
    for steps in CHAINS[:2]:
        ring = full.ring_links(steps, **size)
        yield f"ring card refused, chain of {steps}", "operate", ring, vectors.row([8, ring.owner, 1]), "21"
    yield "object leaves, dense", "operate", dense, vectors.row([12, 1, 1, last]), "0"
    yield "card writes eight items, dense", "operate", dense, card_writes(dense), "0"
    yield from green_cases(size)
    yield from lock_cases(size)
    yield "rewrite the line", "rewrite", dense, b"", str(len(dense.file()))
    serials = full.mixed(**size).serialized()
    yield "rewrite the line, serials of three bytes", "rewrite", serials, b"", str(len(serials.file()))
    yield "first bad record, none, dense", "walk", dense, b"", "0"


def table(folder):
    made = program(folder)
    print(f"{'beside plain C':<56}{'answer':>6}{'plain C':>10}{'library':>10}{'ratio':>8}")
    for name, size in lines.SIZES:
        for label, call, line, record, stated in cases(size):
            label = f"{name}: {label}"
            plain, gate = both(folder, made, label, call, line, record, stated)
            print(f"{label:<56}{stated:>6}{plain:>10}{gate:>10}{gate / plain:>8.2f}")


def full_serials():
    """The largest file of a line of full size in edition 2, whose numbers have one byte each in edition 1."""
    numbers = list(vectors.full_size())
    return vectors.row(with_serials(numbers, [MOST_SERIAL] * numbers[2]))


def rewrite_table(folder):
    """Line files loaded and written again: document 01's, those of full size and the longest, into an area that is long
    enough and into none, which asks for the length."""
    made = program(folder)
    line_l, large, longest = vectors.row(vectors.L), vectors.full_size(), full.longest().file()
    serials, most = full_serials(), full.longest().serialized().file()
    cases = [("document 01's L", line_l, len(line_l), DONE), (FULL_FILE, large, len(large), DONE),
             ("the same, with no area", large, 0, SHORT), (FULL_SERIALS, serials, len(serials), DONE),
             (LONGEST_FILE, longest, len(longest), DONE), ("every count, with no area", longest, 0, SHORT),
             (LONGEST_SERIALS, most, len(most), DONE), ("the longest file, with no area", most, 0, SHORT)]
    print(f"{'rewriting':<36}{'bytes':>6}{'answer':>8}{'plain C':>10}{'library':>10}{'ratio':>8}")
    for label, file, room, kind in cases:
        paths = write_files(folder, file, bytes(room), b"")
        plain, gate = counted(folder, made, label, "rewrite", paths, str(kind * KIND_UNIT + len(file)))
        print(f"{label:<36}{len(file):>6}{KINDS[kind]:>8}{plain:>10}{gate:>10}{gate / plain:>8.2f}")


def growth_row(label, counts):
    return f"{label:<26}" + "".join(f"{n:>10}" for n in counts)


def growth_table(folder):
    """Writes that question 19 refuses by chains of growing length, all on one line for each order of numbers."""
    made = program(folder)
    print(f"{'numbers along the chain':<26}" + "".join(f"{order:>20}" for order in ORDERS))
    print(growth_row("instructions of a call", ("plain C", "library") * len(ORDERS)))
    chains = [full.links(order, 1) for order in ORDERS]
    longest, before, links = max(chains[0].start), None, []
    for steps in (1, *range(5, longest, 5), longest):
        counts = []
        for order, line in zip(ORDERS, chains):
            counts += both(folder, made, f"{order}, {steps}", "operate", line, into_chain(line, steps), "19")
        print(growth_row(f"chain of {steps}", counts))
        if before:
            links.append([(now - then) / (steps - before[0]) for now, then in zip(counts, before[1])])
        before = steps, counts
    print(growth_row("a further link, at least", [round(min(column)) for column in zip(*links)]))
    print(growth_row("a further link, at most", [round(max(column)) for column in zip(*links)]))
