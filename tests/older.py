#!/usr/bin/env python3
"""Stores calls on state areas of before request N6, which have no lock bytes: what a library of that time answered,
what it left in the area, and what it read into the answer area.

    tests/older.py LIBRARY    write tests/stored/older.txt, by a libgate.a whose areas have 1,728 and 3,360 bytes

tests/host.sh makes the calls again, on the same areas with sixteen zeros at their ends, and must get the very rows
(tests/older.c, which has the form of a row). The file is history: it is not written again for a later library. Records
of codes that were unknown then are not in it: they were refused for that.
"""
import collections
import pathlib
import random
import subprocess
import sys
import tempfile

from vectors import L, full_size
from vectors_green import STAYING, staying
from vectors_rings import FED, with_entry
from vectors_wide import data, wide_size
from layout import (CONTENT, DEVICES_FROM, DRIVERS_FROM, MOST_ITEMS, PARTITIONS, RECORD, RECORDS_FROM, SMALL_ROOM,
                    MOST_OBJECTS, number, record_at, row)

TOP = pathlib.Path(__file__).resolve().parent.parent
STORED = TOP / "tests" / "stored" / "older.txt"
# The lengths of that time, and the codes: no list of records and no row is about another one.
LENGTHS = {room: RECORDS_FROM + RECORD * room for room in (SMALL_ROOM, MOST_OBJECTS)}
CODES = range(1, 14)
WRITES, READS, CREATES, LISTS = (1, 2), (3, 4), (5, 13), (9, 12)
BY_DRIVER, BY_CARD = (1, 3, 7, 10), (2, 4, 8, 11)
ANSWER = 128
# The answers that must come on lines of each kind; 1 to 6 are a file's.
WANTED = {0, *range(7, 23)}
HEAD = """\
# Calls on state areas of before request N6, with what a library of that time answered and left. tests/older.c has the
# form of a row, tests/older.py made them, and tests/host.sh makes the calls anew, on areas with sixteen zeros more.
"""


class Line:
    """A line file as its numbers, and what of it a record is made of."""

    def __init__(self, name, numbers, shift=None):
        """A line of L's objects, whose numbers are larger by `shift`, gets records that are made for L."""
        self.name, self.file, self.shift = name, row(numbers), shift
        _, self.drivers, self.cards, count, self.values = numbers[:5]
        self.objects = {n: tuple(numbers[5 + 3 * (n - 1):8 + 3 * (n - 1)]) for n in range(1, count + 1)}
        self.room = SMALL_ROOM if count <= SMALL_ROOM else MOST_OBJECTS

    def of(self, *wanted):
        """The objects of these kinds and classes, or all where there are none of them."""
        return [n for n, o in self.objects.items() if o[0] in wanted[0] and o[1] in wanted[1]] or [*self.objects, 1]


def lifted(name, line, objects):
    """A line like document 01's L with so many objects: its own are the last ones, and what stands before them is
    external data."""
    shift = objects - line[3]
    values = [n + shift if place % 4 == 1 else n for place, n in enumerate(line[25:])]
    numbers = line[:3] + [objects] + line[4:5] + [3, 0, 0] * shift + line[5:25] + values
    return Line(f"{name} among {objects} objects", numbers, shift)


def digits(data):
    return data.hex() or "-"


def some(rnd, most):
    """A number from 1 to `most`, seldom one that may be beyond."""
    return rnd.randint(1, most) if most and rnd.random() < 0.97 else rnd.choice((0, most + 1, 300))


def item(rnd, line):
    n = rnd.choice(line.of((1, 2, 3), (0, 1, 2)))
    form = 0 if line.objects.get(n, (1,))[0] == 1 else 1
    if rnd.random() < 0.02:
        form = 1 - form
    return row([n, form]) + (number(rnd.randint(0, line.values)) if form == 0 else rnd.randbytes(CONTENT))


def listed(rnd, line, code):
    count = rnd.choice((1, 1, 1, 2, 2, 3, MOST_ITEMS))
    out = number(count)
    for _ in range(count):
        if code in WRITES:
            out += item(rnd, line)
        elif code in LISTS:
            out += number(rnd.choice(line.of((1, 2, 3), (0,))))
        else:
            kinds = (1,) if rnd.random() < 0.5 else (2, 3)
            pair = [rnd.choice(line.of(kinds, (0, 1, 2))), rnd.choice(line.of(kinds, (0, 1, 2)))]
            out += row([pair[0], rnd.choice((0, pair[1]))])
    return out


def made_for_l(rnd, shift):
    """What leads somewhere on L: its driver's writes and copies, what its first card then may do, and who comes and
    goes."""
    two, four, five = (n + shift for n in (2, 4, 5))
    return rnd.choice(([row([1, 1, 1, two, 0, rnd.randint(0, 5)])] * 4)
                      + [row([2, 1, 1, five, 1]) + rnd.randbytes(CONTENT), row([4, 1, 1, two, rnd.choice((0, four))]),
                         row([3, 1, 1, two, two]), row([9, 1, 1, five]), row([12, 1, 1, five]), row([8, 1, 1]),
                         row([8, 2, 2]), row([11, 1]), row([11, 2]), row([rnd.choice((5, 6)), 3])])


def any_record(rnd, line):
    """A record most of whose numbers exist; few partitions, so that things meet in one."""
    if line.shift is not None and rnd.random() < 0.7:
        return made_for_l(rnd, line.shift)
    code = rnd.choice((*CODES, 1, 2, 3, 4))
    if code in BY_DRIVER or code in BY_CARD:
        out = row([code, some(rnd, line.drivers if code in BY_DRIVER else line.cards)])
    else:
        out = row([code, some(rnd, 3)])
    if code in (7, 8):
        out += number(some(rnd, 2))
    elif code in WRITES + READS + LISTS:
        out += listed(rnd, line, code)
    kind = rnd.random()
    return out[:rnd.randrange(len(out))] if kind < 0.02 else out + b"\0" if kind < 0.03 else out


def opening(rnd, line, green):
    """Partitions 1 and 2, the first a green zone if `green`; then nearly all is brought in, in any order."""
    inward = [[7, n, rnd.choice((1, 1, 1, 2))] for n in range(1, line.drivers + 1)]
    inward += [[8, n, rnd.choice((1, 1, 1, 2))] for n in range(1, line.cards + 1)]
    external = [n for n, o in line.objects.items() if o[1] == 0][-2 * MOST_ITEMS:]
    for at in range(0, len(external), MOST_ITEMS):
        some_of = external[at:at + MOST_ITEMS]
        inward.append([9, rnd.choice((1, 1, 1, 2)), len(some_of), *some_of])
    rnd.shuffle(inward)
    return [row(record) for record in [[13 if green else 5, 1], [5, 2], *inward[:24]]]


def damages(rnd, line):
    """Bytes of an area that break a rule, most of them, each by its place."""
    count, room = len(line.objects), line.room
    yield {0: 1}
    yield {PARTITIONS - 1: 4}
    yield {DRIVERS_FROM + 15: 1}
    yield {DEVICES_FROM + 15: 9}
    yield {record_at(rnd.randint(1, count) if count else 1): PARTITIONS}
    yield {LENGTHS[room] - 1: 1, record_at(room): 1}
    yield {record_at(rnd.randint(1, room)) + rnd.randint(0, CONTENT): rnd.randint(1, 255)}


def patched(changes):
    return "".join(f" {place}:{byte:02x}" for place, byte in sorted(changes.items()))


def session(seed, line, calls, green=False):
    """From a fresh state: what the papers let a host do, many records, and now and then a damaged area, an area of
    another length or a short answer area, each put right by the next fresh state."""
    rnd = random.Random(seed)
    length = LENGTHS[line.room]
    begin = [f"area {length}", f"answer {ANSWER}", "fresh"]
    yield from [f"# {line.name}", f"line {digits(line.file)}", "length", *begin]
    yield from (f"do {digits(record)}" for record in opening(rnd, line, green))
    for _ in range(calls):
        yield f"do {digits(any_record(rnd, line))}"
    for change in damages(rnd, line):
        yield from [f"put{patched(change)}", "bad", "do 0501", f"area {length}", "fresh"]
    other = LENGTHS[SMALL_ROOM + MOST_OBJECTS - line.room]
    for wrong in (0, length - 1, length + 1, other):
        yield from [f"area {wrong}", "fresh", "bad", "do 0501"]
    yield from [*begin, "do 0503", f"answer {ANSWER - 1}", "do 0504", f"answer {ANSWER + 1}", "do 0504"]


def sequence(line):
    """Document 01's marked sequence over L, or over L among more objects, and after it reads, a card's write and what
    destroys the partitions."""
    one, two, four, five, six = (n + line.shift for n in (1, 2, 4, 5, 6))
    yield from [f"# {line.name}, document 01's sequence", f"line {digits(line.file)}", "length",
                f"area {LENGTHS[line.room]}", f"answer {ANSWER}", "fresh"]
    for record in ([5, 1], [5, 2], [7, 1, 1], [8, 1, 1], [8, 2, 2], [9, 1, 1, five], [1, 1, 1, two, 0, 3],
                   [12, 1, 1, five], [1, 1, 1, two, 0, 4], [1, 1, 1, two, 0, 5], [1, 1, 1, four, 0, 3],
                   [1, 1, 1, one, 0, 0], [1, 2, 1, two, 0, 0], [6, 2], [4, 1, 1, two, four], [4, 1, 1, two, 0],
                   [3, 1, 2, two, 0, five, six], [3, 1, 1, two, two], [2, 1, 1, five, 1] + [9] * CONTENT,
                   [3, 1, 1, five, six], [11, 2], [6, 2], [6, 2], [5, 2], [1, 1, 1, two, 0, 0], [12, 1, 1, five],
                   [11, 1], [10, 1], [6, 1]):
        yield f"do {digits(row(record))}"


def refused_files():
    """Files that questions 1 to 6 refuse: the area does not count."""
    yield f"area {LENGTHS[SMALL_ROOM]}"
    short = list(L)
    for name, file in (("1", row(L)[:-1]), ("2", bytes([0x81, 0]) + row(L[1:])), ("3", row([1, 17, 0, 0, 0])),
                       ("4", row(L) + b"\0"), ("5", row(short[:5] + [1] + short[6:])),
                       ("6", row(short[:26] + [4] + short[27:]))):
        yield from [f"# Refused by {name}", f"line {digits(file)}", "length", "fresh", "bad", "do 0501"]


def calls():
    kept = Line("A line on which green zones keep objects", staying([(4, 3, 0)], [(5, 1, 0)], [(6, 2, 0), (9, 1, 0)]))
    assert len(kept.objects) * 3 == len(STAYING)
    small = Line("File L", L, 0)
    wide, least = (lifted("File L", L, n) for n in (MOST_OBJECTS, SMALL_ROOM + 1))
    for line in (small, wide, least):
        yield from sequence(line)
    circle = with_entry(L, 2, 3, 3)
    ring, fed = Line("A ring", circle, 0), Line("A ring that feeds another card", FED)
    for seed, line, count, green in (
            (1, small, 60, False), (2, small, 60, True), (3, kept, 60, True), (4, ring, 30, False), (5, fed, 30, True),
            (6, wide, 60, False), (7, wide, 60, True), (8, least, 40, False),
            (13, lifted("A ring", circle, SMALL_ROOM + 1), 30, False),
            (9, Line("Nothing", data(0)), 8, False), (10, Line("96 objects of data", data(SMALL_ROOM)), 12, False)):
        yield from session(seed, line, count, green)
    yield from full_lines()
    yield from refused_files()


def full_lines():
    """Lines with every count at its limit: 96 objects, and 192."""
    full, most = decoded(full_size()), wide_size()
    yield from session(11, Line("Every count at its limit, 96 objects", full), 60)
    yield from session(12, Line("Every count at its limit, 192 objects", most), 60)


def decoded(file):
    """The numbers of a file."""
    numbers, low = [], 0
    for place, byte in enumerate(file):
        if byte < 128:
            value = sum((b & 127) << 7 * i for i, b in enumerate(file[low:place + 1]))
            numbers.append(value)
            low = place + 1
    return numbers


def judged(library, rows):
    """The rows with what the library answers and leaves."""
    with tempfile.TemporaryDirectory() as folder:
        program = f"{folder}/older"
        subprocess.run(["gcc", "-std=c11", "-O2", "-Iinclude", "-o", program, "tests/older.c", library], check=True,
                       cwd=TOP)
        done = subprocess.run([program, "--as-long"], input=HEAD + "\n".join(rows) + "\n", stdout=subprocess.PIPE,
                              text=True, check=True)
    return done.stdout


def tally(text):
    """The answers of operations, and the codes that were accepted, by the room of the line."""
    answers, accepted, room = collections.defaultdict(collections.Counter), collections.defaultdict(set), None
    for line in text.splitlines():
        words = line.split()
        if words[0] == "length":
            room = int(words[2])
        elif words[0] == "do":
            answers[room][int(words[3])] += 1
            if words[3] == "0":
                accepted[room].add(int(words[1][:2], 16))
    for length in LENGTHS.values():
        missing, unmet = WANTED - set(answers[length]), set(CODES) - accepted[length]
        if missing or unmet:
            sys.exit(f"older: areas of {length} bytes: never answered {sorted(missing)}, accepted {sorted(unmet)}")
    return answers


def main():
    if len(sys.argv) != 2:
        sys.exit("tests/older.py LIBRARY")
    text = judged(str(pathlib.Path(sys.argv[1]).resolve()), list(calls()))
    answers = tally(text)
    STORED.write_text(text, encoding="utf-8")
    print(f"older: {sum(c.total() for c in answers.values())} operations, {len(text)} bytes")


if __name__ == "__main__":
    main()
