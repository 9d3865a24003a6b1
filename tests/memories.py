"""The writer of line files on configurations in memory, which no host in C can give (request N1): the program `vectors`
beside the second implementation, on cases that the second implementation's generator makes.

    python3 tests/memories.py VECTORS MEMORIES REFERENCE_VECTORS

Every kind of answer must occur: written, too short, and refused by each of the questions 3, 5 and 6; each of them on
wide lines too, and on lines of edition 2. Lines must be written whose count of objects has two bytes (request N2), and
lines with serials of one byte, two and three; and edition and serials must be such that 3 refuses them, one way and the
other (request N7).
"""
import collections
import subprocess
import sys

from layout import (DEVICES, FIRST_EDITION, MARKS, MOST_DEVICES, MOST_OBJECTS, MOST_SERIAL, OBJECTS, SERIAL_BYTES,
                    SERIAL_EDITION, SMALL_ROOM, number)

SEEDS = range(1, 41)
KIND_UNIT = 2 ** 32
DONE, REFUSED, SHORT = 0, 1, 2
# Each kind of answer that must occur, by its name, and how often at least, on all lines and on wide ones.
KINDS = {"written": 200, "short": 100, "refused by 3": 500, "refused by 5": 100, "refused by 6": 100}
WIDE_KINDS = {"written": 20, "short": 10, "refused by 3": 20, "refused by 5": 10, "refused by 6": 10}
SERIAL_KINDS = {"written": 100, "short": 50, "refused by 3": 200, "refused by 5": 50, "refused by 6": 50}
# A case begins with what is called and its length in two bytes; its bytes are the area's length in two, and the memory,
# before which edition and serials stand if so much is called.
HEAD, LENGTH, WITH_SERIALS = 3, 2, 14
# A count of objects that has two bytes.
TWO_BYTES = 128
# What else must occur, and how often.
OTHERS = {"lines written whose count of objects has two bytes": 10,
          "lines written with a serial of 1 bytes": 25, "lines written with a serial of 2 bytes": 25,
          "lines written with a serial of 3 bytes": 25, "refusals of another edition": 20,
          "refusals of a serial that is too large": 20, "refusals of a serial in edition 1": 20}


def run(words, given=b""):
    """What a command prints that must not fail."""
    done = subprocess.run(words, input=given, capture_output=True, timeout=60)
    if done.returncode or done.stderr:
        sys.exit(f"memories.py: {words[0]} ends with {done.returncode} and says {done.stderr[:200]!r}")
    return done.stdout


def name_of(row):
    """The kind of answer that a row shows: place, answer, checksum of the area."""
    kind, number = divmod(int(row.split()[1]), KIND_UNIT)
    return {DONE: "written", SHORT: "short", REFUSED: f"refused by {number}"}.get(kind, f"kind {kind}")


def memories_of(cases):
    """The edition, the serials of the devices and the count of objects of each case, in their order; zeros at a case's
    end are left out, and so is all that is not called for."""
    at = 0
    while at < len(cases):
        end = at + HEAD + int.from_bytes(cases[at + 1:at + HEAD], "little")
        memory, marked = cases[at + HEAD + LENGTH:end], cases[at] == WITH_SERIALS
        memory += bytes(MARKS + OBJECTS + 1)
        edition = memory[0] if marked else FIRST_EDITION
        serials = [int.from_bytes(memory[place:place + SERIAL_BYTES], "little")
                   for place in range(1, MARKS, SERIAL_BYTES)] if marked else []
        counts = memory[MARKS:] if marked else memory
        yield edition, serials[1:min(counts[DEVICES], MOST_DEVICES) + 1], counts[OBJECTS]
        at = end


def others_of(edition, serials, objects, name):
    """Which of the other things a case and its answer are."""
    if name == "written":
        if objects >= TWO_BYTES:
            yield "lines written whose count of objects has two bytes"
        if edition == SERIAL_EDITION:
            yield from (f"lines written with a serial of {n} bytes" for n in {len(number(s)) for s in serials})
    if name == "refused by 3":
        if edition not in (FIRST_EDITION, SERIAL_EDITION):
            yield "refusals of another edition"
        elif any(serial > MOST_SERIAL for serial in serials):
            yield "refusals of a serial that is too large"
        elif edition == FIRST_EDITION and any(serials):
            yield "refusals of a serial in edition 1"


def demand(**tallies):
    """Ends the program if something occurred too seldom."""
    for what, (counted, least) in tallies.items():
        for name in least:
            if counted[name] < least[name]:
                sys.exit(f"memories.py: {what}: '{name}' {counted[name]} times, fewer than {least[name]}")


def compare(seed, rows, expected):
    """The same rows, and as many."""
    for row, other in zip(rows, expected):
        if row != other:
            sys.exit(f"memories.py: seed {seed}: the proved writer gives {row!r}, the reference {other!r}")
    if len(rows) != len(expected):
        sys.exit(f"memories.py: seed {seed}: {len(rows)} rows, and {len(expected)} of the reference")


def main():
    if len(sys.argv) != 4:
        sys.exit("usage: python3 tests/memories.py VECTORS MEMORIES REFERENCE_VECTORS")
    vectors, memories, reference = sys.argv[1:]
    seen, wide, marked, others = (collections.Counter() for _ in range(4))
    for seed in SEEDS:
        cases = run([memories, str(seed)])
        expected = run([reference], cases).splitlines()
        compare(seed, run([vectors], cases).splitlines(), expected)
        for (edition, serials, objects), name in zip(memories_of(cases), map(name_of, expected), strict=True):
            seen[name] += 1
            wide[name] += SMALL_ROOM < objects <= MOST_OBJECTS
            marked[name] += edition == SERIAL_EDITION
            others.update(others_of(edition, serials, objects, name))
    demand(all_lines=(seen, KINDS), wide_lines=(wide, WIDE_KINDS), lines_of_edition_2=(marked, SERIAL_KINDS),
           others=(others, OTHERS))
    told = ", ".join(f"{seen[name]} {name}" for name in KINDS)
    print(f"memories: {seen.total()} configurations in memory, {wide.total()} of wide lines and {marked.total()} of "
          f"edition 2, written as the reference writes them: {told}")


main()
