#!/usr/bin/env python3
"""Stored cases of the program `vectors`, with the answers that the second implementation (reference/) gives.

    tests/vectors.py            write crates/vectors/stdin, stdout and cases.txt
    tests/vectors.py --check    fail if what is stored differs

The cases are made here (those of the writer of files in vectors_write.py, of operation records in vectors_records.py,
of wide lines in vectors_wide.py, of the first bad record in vectors_first.py, of ring cards in vectors_rings.py, of
green zones in vectors_green.py, vectors_zones.py and vectors_far.py, of locks in vectors_locks.py, of serials in
vectors_serials.py) and judged elsewhere: answers and checksums are the reference's, by its program `vectors`. A named
case states its answer, and if the reference gives another, nothing is written and the check fails. A case is a byte
for what is called, its length in two bytes, lower byte first, and its bytes; its row is its place from 1, the answer,
and a checksum of what the call left (0 where it leaves nothing) or, in 12, a second answer. What is called:

    1         the load check, on a file
    2, 5, 6   a fresh state of a file, in an area of the length that its line needs, a byte shorter or longer (as for
              a small line if the file is refused), full of one byte
    3         question 9 of a file, after its length in a byte, and the bytes of the area that are not 0: a place in
              two bytes, and the byte
    4         question 10 of a record
    7, 11     the writer, on an area's length in two bytes and a configuration in memory; a column of its objects has
              97 bytes in 7, which is for small lines, and 193 in 11
    8         a fresh state of a file, after an area's length in two bytes
    9         an operation that creates partition 1: a file after its length in two bytes, an area's length in two
              bytes, and the bytes of the area that are not 0, as in 3
    10        the length of a file's state area
    12        the first bad record of an area, in the form of 9; the second answer, which is stated too, is that to an
              operation on the area whose record is empty
    13        an operation: its record after its length in two bytes, and then a file and an area in the form of 9
    14        the writer as in 11, with an edition in a byte and seventeen serials in four bytes each, lowest byte
              first, before the counts; those of 7 and 11 are of edition 1, and their serials are 0
"""
import os
import pathlib
import random
import subprocess
import sys

import vectors_first
import vectors_far
import vectors_green
import vectors_locks
import vectors_records
import vectors_rings
import vectors_serials
import vectors_wide
import vectors_write
import vectors_zones
from layout import (AREA, DEVICES_FROM, DRIVERS_FROM, LOCKS_FROM, MOST_DEVICES, MOST_DRIVERS, MOST_ENTRIES, MOST_VALUES,
                    SMALL_ROOM, record_at, row, two)

TOP = pathlib.Path(__file__).resolve().parent.parent
HOME = TOP / "crates" / "vectors"
LOAD, FRESH, FORMED, OPERATION, FRESH_SHORT, FRESH_LONG, WRITE = 1, 2, 3, 4, 5, 6, 7
FRESH_IN, CREATE_IN, STATE_BYTES, WRITE_WIDE, FIRST_BAD, OPERATE_IN, WRITE_SERIALS = 8, 9, 10, 11, 12, 13, 14
# What the program `vectors` takes in.
MOST_INPUT = 245760


# Document 01's file L, whose numbers have one byte each, by groups.
L = list((HOME.parent / "office" / "data" / "line.bin").read_bytes())
HEAD, OBJECTS, DEVICES, VALUES = L[:5], L[5:23], L[23:25], L[25:]


def with_numbers(*changes):
    """L with the numbers at these places changed."""
    out = list(L)
    for place, value in changes:
        out[place] = value
    return row(out)


def full_size():
    """The largest file of a small line: every other count at its limit, six entries in every value."""
    out = [1, MOST_DRIVERS, MOST_DEVICES, SMALL_ROOM, MOST_VALUES]
    for n in range(1, SMALL_ROOM + 1):
        out += [4, 2, n] if n <= 16 else [1, 2, (n - 1) % 16 + 1] if n <= 64 else [3, 1, (n - 1) % 16 + 1]
    out += range(1, MOST_DEVICES + 1)
    for v in range(1, MOST_VALUES + 1):
        out.append(MOST_ENTRIES)
        for j in range(MOST_ENTRIES):
            out += [16 * (j % 3 + 1) + v, 1, 0] if v <= 16 else [17 + (v * 7 + j) % 48, 1 + j % 3, 47 if j % 3 else 0]
    return row(out)


def named_counts():
    yield "document 01's file L", row(L), 0
    yield "no driver, device, object or value", row([1, 0, 0, 0, 0]), 0
    yield "every count at its limit, and 96 objects", full_size(), 0
    yield "values at the limit, 47", row([1, 0, 0, 0, 47] + [0] * 47), 0
    yield "one value more, 48", row([1, 0, 0, 0, 48] + [0] * 48), 3
    yield "as many objects as a small line has, 96", row([1, 0, 0, 96, 0] + [3, 0, 0] * 96), 0
    yield "one object more, 97", row([1, 0, 0, 97, 0] + [3, 0, 0] * 97), 0
    yield "drivers at the limit, 16", row([1, 16, 0, 0, 0]), 0
    yield "one driver more, 17", row([1, 17, 0, 0, 0]), 3
    yield "one device more, 17", row([1, 0, 17, 0, 0]), 3
    yield "six entries", row([1, 0, 0, 1, 1, 3, 0, 0, 6] + [1, 1, 0] * 6), 0
    yield "seven entries", row([1, 0, 0, 1, 1, 3, 0, 0, 7] + [1, 1, 0] * 7), 3
    yield "an empty file", b"", 1
    yield "edition 0", row([0, 0, 0, 0, 0]), 3
    yield "edition 2", row([2, 0, 0, 0, 0]), 0


def named_numbers():
    groups = [("counts", 1, 5), ("objects", 5, 23), ("devices", 23, 25), ("values", 25, 45)]
    for name, first, last in groups:
        for place in range(first, last):
            yield f"L cut in its {name}, after {place} numbers", row(L[:place]), 1
        yield f"L with a number of its {name} without a last byte", row(L[:first]) + b"\x81", 1
    yield "a number in two bytes where one would do", bytes([0x81, 0]) + row(L[1:]), 2
    yield "a number in three bytes where one would do", bytes([0x81, 0x80, 0]) + row(L[1:]), 2
    yield "a number of four bytes", bytes([0x81, 0x80, 0x80, 1]) + row(L[1:]), 2
    yield "nine bytes without a last one", bytes([0xFF] * 9), 1
    yield "nine bytes and a last one", bytes([0xFF] * 9 + [1]), 2
    yield "a number of 65,535", bytes([0xFF, 0xFF, 3]), 3
    yield "a number of 65,536", bytes([0x80, 0x80, 4]), 3
    yield "a number of 65,536 as the values' count", bytes([1, 0, 0, 0, 0x80, 0x80, 4]), 3
    yield "a number of 2,097,151", bytes([0xFF, 0xFF, 0x7F]), 3
    yield "a byte left over", row(L) + b"\0", 4
    yield "a malformed byte left over", row(L) + b"\x80", 4


def named_fields():
    yield "kind 0", with_numbers((5, 0)), 3
    yield "kind 5", with_numbers((5, 5)), 3
    yield "owner class 3", with_numbers((6, 3)), 3
    yield "an external object with an owner", with_numbers((19, 1)), 3
    yield "owner 0 of a driver's object", with_numbers((22, 0)), 3
    yield "a driver as owner that is not there", with_numbers((22, 3)), 3
    yield "a device as owner that is not there", with_numbers((7, 3)), 3
    yield "a driver as owner where there are none", row([1, 0, 0, 1, 0, 3, 1, 1]), 3
    yield "the same file, ending after the class", row([1, 0, 0, 1, 0, 3, 1]), 1
    yield "a hardcoded value that is not there", with_numbers((23, 6)), 3
    yield "hardcoded value 0, which has no entries", with_numbers((23, 0)), 0
    yield "an entry for object 0", with_numbers((26, 0)), 3
    yield "an entry for an object that is not there", with_numbers((26, 7)), 3
    yield "mode 0", with_numbers((27, 0)), 3
    yield "mode 4", with_numbers((27, 4)), 3
    yield "a stored value by mode 1", with_numbers((28, 1)), 3
    yield "a stored value for an object of kind 3", with_numbers((36, 1)), 3
    yield "a stored value that is not there", with_numbers((40, 6)), 3


def named_hardcoded():
    yield "5: a device without a hardcoded descriptor", with_numbers((5, 1)), 5
    yield "5: a device with two", with_numbers((8, 4), (44, 0)), 5
    yield "5: an external hardcoded descriptor", with_numbers((17, 4)), 5
    yield "5: a driver's hardcoded descriptor", with_numbers((20, 4)), 5
    yield "6: a hardcoded value names another device's object", with_numbers((26, 4)), 6
    yield "6: a hardcoded value names an external object", with_numbers((26, 5)), 6
    yield "6: a hardcoded value names a hardcoded descriptor", with_numbers((26, 1)), 6
    yield "a hardcoded value writes its own kind 1", with_numbers((27, 2)), 0
    yield "a hardcoded value reads and writes its own kind 1", with_numbers((27, 3)), 0
    yield "both 5 and 6: 5 is asked first", with_numbers((17, 4), (26, 4)), 5
    yield "both 4 and 5: 4 is asked first", with_numbers((17, 4)) + b"\0", 4


def generated_files(rnd):
    """Small configurations, some of them spoilt in one number or one byte."""
    for i in range(200):
        d, v, n, k = rnd.randrange(4), rnd.randrange(4), rnd.randrange(9), rnd.randrange(5)
        out, kinds = [1, d, v, n, k], []
        for o in range(1, n + 1):
            if o <= v and rnd.random() < 0.95:
                one = [4, 2, o]
            else:
                c = rnd.choice([0] + [1] * (d > 0) + [2] * (v > 0))
                one = [rnd.choice([1, 1, 2, 3]), c, 0 if c == 0 else rnd.randrange(1, (d if c == 1 else v) + 1)]
            kinds.append(one[0])
            out += one
        out += [rnd.choice([0, rnd.randrange(k + 1)]) for _ in range(v)]
        for _ in range(k):
            count = rnd.randrange(4) if n else 0
            out.append(count)
            for _ in range(count):
                o, mode = rnd.randrange(1, n + 1), rnd.randrange(1, 4)
                out += [o, mode, rnd.randrange(k + 1) if kinds[o - 1] == 1 and mode > 1 else 0]
        if rnd.random() < 0.3:
            out[rnd.randrange(len(out))] = rnd.randrange(130)
        data = bytearray(row(out))
        if rnd.random() < 0.1:
            data[rnd.randrange(len(data))] = rnd.randrange(256)
        yield f"generated file {i + 1}", bytes(data)


def named_fresh():
    for length in (AREA - 1, AREA, AREA + 1):
        yield f"fresh: an area of {length} bytes", row(L), length, 0 if length == AREA else 7
    yield "fresh: a refused file comes before the area's length", row(L) + b"\0", AREA - 1, 4
    yield "fresh: every hardcoded value", row([1, 0, 3, 3, 3, 4, 2, 3, 4, 2, 1, 4, 2, 2, 3, 2, 1, 0, 0, 0]), AREA, 0
    yield "fresh: every count at its limit, and 96 objects", full_size(), AREA, 0


# A well formed state of L: partitions 1 and 2 exist and 3 is destroyed; driver 1, device 1 and object 5 are in 1,
# device 2 in 2; object 2 holds value 3 and object 6 some bytes.
ACTIVE = {1: 1, 2: 1, 3: 2, DRIVERS_FROM: 1, DEVICES_FROM: 1, DEVICES_FROM + 1: 2, record_at(1): 1, record_at(1) + 1: 1,
          record_at(2): 1, record_at(2) + 1: 3, record_at(3): 2, record_at(3) + 1: 2, record_at(4): 2, record_at(5): 1,
          record_at(6): 1, record_at(6) + 1: 200, record_at(6) + 16: 7}


def named_areas():
    """Areas of L, each broken in one rule of 'Well formed'; a change is a byte of the state above."""
    yield "9: the state as it is", {}, 0
    yield "9: status byte 0 is not 0", {0: 1}, 9
    yield "9: a status of 3", {9: 3}, 0
    yield "9: a destroyed partition beside", {9: 2}, 0
    yield "9: a driver in a partition never used", {DRIVERS_FROM: 5, record_at(6): 5}, 9
    yield "9: a driver in a destroyed partition", {DRIVERS_FROM: 3, record_at(6): 3}, 9
    yield "9: a driver in partition 64", {DRIVERS_FROM: 64, record_at(6): 64}, 9
    yield "9: a driver in partition 255", {DRIVERS_FROM: 255, record_at(6): 255}, 9
    yield "9: an absent driver's byte", {DRIVERS_FROM + 2: 1}, 9
    yield "9: the last absent driver's byte", {DRIVERS_FROM + 15: 1}, 9
    yield "9: a device in a destroyed partition", {DEVICES_FROM: 3, record_at(1): 3, record_at(2): 3}, 9
    yield "9: an absent device's byte", {DEVICES_FROM + 2: 1}, 9
    yield "9: an external object in a partition never used", {record_at(5): 4}, 9
    yield "9: an external object in a destroyed partition", {record_at(5): 3}, 9
    yield "9: a driver's object elsewhere", {record_at(6): 2}, 9
    yield "9: a device's object elsewhere", {record_at(2): 2}, 9
    yield "9: a device's object in none", {record_at(2): 0}, 9
    yield "9: a value number above K", {record_at(2) + 1: 6}, 9
    yield "9: a byte behind a value number", {record_at(2) + 2: 1}, 9
    yield "9: the last byte behind a value number", {record_at(2) + 16: 1}, 9
    yield "9: a hardcoded descriptor with another value", {record_at(1) + 1: 2}, 9
    yield "9: a byte behind a hardcoded value", {record_at(1) + 16: 1}, 9
    yield "9: an absent object in a partition", {record_at(7): 1}, 9
    yield "9: an absent object's contents", {record_at(7) + 1: 1}, 9
    yield "9: the last byte of the last record", {LOCKS_FROM - 1: 1}, 9
    yield "9: any contents of kind 3", {record_at(5) + 9: 255}, 0


def case(label, call, data, stated=None, left=None):
    """A case and, if it is a named one, the answer that it states; some state what else stands in their row."""
    return label, bytes([call]) + two(len(data)) + data, stated, left


def patches(area):
    """The bytes of an area that are not 0, each after its place."""
    return b"".join(two(place) + bytes([byte]) for place, byte in sorted(area.items()) if byte)


def on_area(file, length, area):
    """The bytes of a case that has a file, and an area of a length of its own."""
    return two(len(file)) + file + two(length) + patches(area)


def small_cases():
    for named in (named_counts(), named_numbers(), named_fields(), named_hardcoded()):
        for label, data, stated in named:
            yield case(label, LOAD, data, stated)
    for label, data in generated_files(random.Random(1)):
        yield case(label, LOAD, data)
    for label, file, length, stated in named_fresh():
        yield case(label, {AREA - 1: FRESH_SHORT, AREA: FRESH, AREA + 1: FRESH_LONG}[length], file, stated)
    for label, changes, stated in named_areas():
        yield case(label, FORMED, bytes([len(L)]) + row(L) + patches({**ACTIVE, **changes}), stated)
    for label, record, stated in vectors_records.named():
        yield case(label, OPERATION, record, stated)
    # An area's length, and a configuration in memory without the zeros at its end.
    for label, length, memory, stated in vectors_write.cases(L, full_size()):
        yield case(label, WRITE, two(length) + bytes(memory).rstrip(b"\0"), stated)


def wide_cases():
    for named in (vectors_wide.files(), vectors_wide.named_objects()):
        for label, data, stated in named:
            yield case(label, LOAD, data, stated)
    file = row(vectors_write.last_hardcoded(97))
    for call, length, stated in ((FRESH, "as it needs", 0), (FRESH_SHORT, "shorter", 7), (FRESH_LONG, "longer", 7)):
        yield case(f"fresh: object 97 is hardcoded, an area {length}", call, file, stated)
    for label, file, length, stated in vectors_wide.fresh_lengths():
        yield case(f"fresh: {label}", FRESH_IN, two(length) + file, stated)
    for label, file, length, stated in vectors_wide.lengths():
        yield case(f"operate: {label}", CREATE_IN, on_area(file, length, {}), stated)
    for named in (vectors_wide.absent(), vectors_wide.present()):
        for label, file, length, area, stated in named:
            yield case(label, CREATE_IN, on_area(file, length, area), stated)
    for label, file, stated in vectors_wide.needed():
        yield case(label, STATE_BYTES, file, stated)
    for label, record, stated in vectors_wide.records():
        yield case(label, OPERATION, record, stated)
    for label, length, memory, stated in vectors_write.wide_cases(L, vectors_wide.wide_size()):
        yield case(label, WRITE_WIDE, two(length) + bytes(memory).rstrip(b"\0"), stated)


def operations(calls):
    for label, file, length, area, record, stated in calls:
        yield case(label, OPERATE_IN, two(len(record)) + record + on_area(file, length, area), stated)


def first_bad(calls):
    for label, file, length, area, stated, answer in calls:
        told = f"; answer {answer}" if answer else ""
        yield case(f"first bad: {label}{told}", FIRST_BAD, on_area(file, length, area), stated, answer)


def ring_cases():
    yield from (case(label, LOAD, data, stated) for label, data, stated in vectors_rings.files(L))
    for label, length, memory, stated in vectors_write.ring_cases(L):
        yield case(label, WRITE, two(length) + bytes(memory).rstrip(b"\0"), stated)
    yield from operations(vectors_rings.calls(L))


def green_cases():
    yield from operations([*vectors_green.calls(L), *vectors_zones.calls(L)])
    yield from (case(label, OPERATION, record, stated) for label, record, stated in vectors_zones.records())
    yield from first_bad(vectors_zones.first_bad())
    for label, change, stated in vectors_zones.formed():
        yield case(label, FORMED, bytes([len(L)]) + row(L) + patches({**ACTIVE, **change}), stated)
    yield from operations(vectors_far.calls(L))


def lock_cases():
    yield from operations(vectors_locks.calls(L))
    yield from (case(label, OPERATION, record, stated) for label, record, stated in vectors_locks.records())
    yield from first_bad(vectors_locks.first_bad(L))
    for label, file, length, stated in vectors_locks.fresh(L):
        yield case(label, FRESH_IN, two(length) + file, stated)


def serial_cases():
    yield from (case(label, LOAD, data, stated) for label, data, stated in vectors_serials.files(L))
    yield from (case(label, OPERATION, record, stated) for label, record, stated in vectors_serials.records())
    yield from operations(vectors_serials.calls(L))
    yield from first_bad(vectors_serials.first_bad(L))
    for label, file, length in vectors_serials.fresh(L):
        yield case(f"fresh: {label}", FRESH_IN, two(length) + file, 0)
        yield case(f"{label}: its area's length", STATE_BYTES, file, length)
    for label, length, memory, stated in vectors_serials.writes(L):
        yield case(label, WRITE_SERIALS, two(length) + bytes(memory).rstrip(b"\0"), stated)


def cases():
    """In the order in which they came to be: the bytes of those that were there stay as they were, but for the lengths
    of areas."""
    yield from small_cases()
    yield from wide_cases()
    yield from first_bad(vectors_first.cases())
    yield from ring_cases()
    yield from green_cases()
    yield from lock_cases()
    yield from serial_cases()


def reference_program(name):
    """A program of the reference, built for release in the folder that tests/reference.sh uses too."""
    folder = TOP / "target" / "reference"
    subprocess.run(["cargo", "build", "--offline", "--locked", "--quiet", "--release", "--manifest-path",
                    str(TOP / "reference" / "Cargo.toml")], check=True,
                   env={**os.environ, "CARGO_TARGET_DIR": str(folder)})
    return folder / "release" / name


def judged(stdin):
    """The reference's rows for the cases."""
    return subprocess.run([str(reference_program("vectors"))], input=stdin, stdout=subprocess.PIPE, check=True).stdout


def files():
    """The three files, by name; ends the program if the reference does not answer what a named case states."""
    made = list(cases())
    stdin = b"".join(data for _, data, _, _ in made)
    if len(stdin) > MOST_INPUT:
        sys.exit(f"the cases have {len(stdin)} bytes, and the program takes {MOST_INPUT}")
    stdout = judged(stdin)
    rows = [[int(word) for word in line.split()] for line in stdout.decode().splitlines()]
    if [place for place, _, _ in rows] != list(range(1, len(made) + 1)):
        sys.exit(f"the reference gives {len(rows)} rows for {len(made)} cases, or not in their order")
    wrong, listed = [], []
    for (label, _, *stated), (place, *found) in zip(made, rows):
        listed.append(f"{place} {found[0]} {label}\n")
        for one, other in zip(stated, found):
            if one not in (None, other):
                wrong.append(f"{label}: stated {one}, the reference answers {other}")
    if wrong:
        sys.exit("\n".join(wrong))
    return {"stdin": stdin, "stdout": stdout, "cases.txt": "".join(listed).encode()}


def main():
    if sys.argv[1:] not in ([], ["--check"]):
        sys.exit("tests/vectors.py [--check]")
    made = files()
    for name, data in made.items():
        path = HOME / name
        if len(sys.argv) == 1:
            path.write_bytes(data)
        elif not path.exists() or path.read_bytes() != data:
            sys.exit(f"{name} is not what tests/vectors.py makes")
    print("vectors:", len(made["stdout"].splitlines()), "cases,", len(made["stdin"]), "bytes")


if __name__ == "__main__":
    main()
