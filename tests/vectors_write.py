"""Stored cases of the writer of configuration files (request N1), for tests/vectors.py.

A case is an area's length and a configuration in memory, which may hold anything; its answer has a kind and a number,
which `done`, `refused` and `short` make one. The area is full of one byte before the call, and its checksum after the
call tells whether a byte out of place has changed. The columns of these cases have room for small lines, whatever the
writer's own have; those of request N2 (`wide_cases`) have room for all.
"""
import random

from layout import DEVICES, DRIVERS, MOST_DEVICES, MOST_ENTRIES, MOST_VALUES, OBJECTS, SMALL, VALUES, WIDE

# An area that L and all smaller files fit into, and one for the largest.
ROOM, LARGE_ROOM = 64, 1300
SMALLEST = [1, 0, 0, 0, 0]


def done(length):
    return length


def refused(question):
    return (1 << 32) + question


def short(length):
    return (2 << 32) + length


def memory_of(numbers, columns=SMALL):
    """The configuration in memory of a file's numbers, with 0 where nothing is named."""
    out, rest = bytearray(columns.end), iter(numbers[1:])
    for count in (DRIVERS, DEVICES, OBJECTS, VALUES):
        out[count] = next(rest)
    for n in range(1, out[OBJECTS] + 1):
        for column in (columns.kinds, columns.classes, columns.owners):
            out[column + n] = next(rest)
    for n in range(1, out[DEVICES] + 1):
        out[columns.hardcoded + n] = next(rest)
    for value in range(1, out[VALUES] + 1):
        out[columns.counts + value] = next(rest)
        for entry in range(1, out[columns.counts + value] + 1):
            for part in range(3):
                out[columns.entry(value, entry) + part] = next(rest)
    return out


def named_places(memory, columns=SMALL):
    """The places that are part of the line."""
    v, n, k = (memory[count] for count in (DEVICES, OBJECTS, VALUES))
    yield from (DRIVERS, DEVICES, OBJECTS, VALUES)
    for column in (columns.kinds, columns.classes, columns.owners):
        yield from range(column + 1, column + n + 1)
    yield from range(columns.hardcoded + 1, columns.hardcoded + v + 1)
    for value in range(1, k + 1):
        yield columns.counts + value
        yield from range(columns.entry(value, 1), columns.entry(value, memory[columns.counts + value] + 1))


def noisy(memory, byte, columns=SMALL):
    """The same line with other bytes, by their places, where nothing is named."""
    out = bytearray(byte(place) for place in range(columns.end))
    for place in named_places(memory, columns):
        out[place] = memory[place]
    return out


def changed(memory, *changes):
    """A memory with the bytes at these places changed."""
    out = bytearray(memory)
    for place, byte in changes:
        out[place] = byte
    return out


def named_lengths(line_l, largest):
    for length in (0, 44, 45, 46, 4096):
        yield f"write: L into {length} bytes", length, memory_of(line_l), done(45) if length >= 45 else short(45)
    yield "write: L into an area of the most bytes", 65535, memory_of(line_l), done(45)
    for length in (0, 4, 5, 6):
        answer = done(5) if length >= 5 else short(5)
        yield f"write: the smallest line into {length} bytes", length, memory_of(SMALLEST), answer
    for length in (1201, 1202):
        answer = done(1202) if length >= 1202 else short(1202)
        yield f"write: the largest line into {length} bytes", length, memory_of(largest), answer


def named_lines(line_l):
    """Sound lines."""
    one = [1, 0, 0, 1, 1, 1, 0, 0]
    yield "write: a value without entries", ROOM, memory_of(one + [0]), done(9)
    yield "write: a value with six entries", ROOM, memory_of(one + [6] + [1, 1, 0, 1, 2, 1, 1, 3, 1] * 2), done(27)
    twins = [1, 0, 0, 1, 2, 1, 0, 0] + [2, 1, 1, 0, 1, 2, 2] * 2
    yield "write: two values with the same entries", ROOM, memory_of(twins), done(22)
    yield "write: drivers alone, at the limit", ROOM, changed(memory_of(SMALLEST), (DRIVERS, 16)), done(5)
    values = changed(memory_of(SMALLEST), (VALUES, 47))
    yield "write: values without entries, at the limit", ROOM, values, done(52)
    line, last = memory_of(line_l), SMALL.entry(5, 1)
    yield "write: hardcoded number 0", ROOM, changed(line, (SMALL.hardcoded + 1, 0)), done(45)
    yield "write: a stored value of K by mode 3", ROOM, changed(line, (last + 1, 3), (last + 2, 5)), done(45)
    yield "write: a stored value of 0 by mode 2", ROOM, changed(line, (last + 2, 0)), done(45)


def named_noise(line_l):
    """Lines with noise in all places that name nothing."""
    line, smallest = memory_of(line_l), memory_of(SMALLEST)
    yield "write: L with noise where nothing is named", ROOM, noisy(line, lambda at: (at * 7 + 13) % 256), done(45)
    yield "write: the smallest line with noise", ROOM, noisy(smallest, lambda at: 255 - at % 3), done(5)
    # Value 0 has no entries, whatever stands at place 0: here six that question 6 would refuse.
    at_0 = [(SMALL.counts, 6)] + [(SMALL.entry(0, j) + part, (3, 2, 0)[part]) for j in range(1, 7) for part in range(3)]
    yield ("write: hardcoded number 0 and entries at place 0", ROOM,
           changed(line, (SMALL.hardcoded + 1, 0), *at_0), done(45))


def broken_counts(columns=SMALL):
    """Each count alone out of range, with nothing else that could be refused before 5. (97 and 128 objects are more
    than the small lines' columns hold: the writer's own are longer, and the last objects have kind 0 there.)"""
    # What stands behind the last kind is the first of the classes: with 3 there, one object more has a kind too.
    kinds = [(columns.kinds + n, 3) for n in range(columns.most + 1)] + [(columns.classes, 3)]
    names = {DRIVERS: ("drivers", 17, []), DEVICES: ("devices", 17, []), OBJECTS: ("objects", columns.most + 1, kinds),
             VALUES: ("values", 48, [])}
    for count, (name, first, others) in names.items():
        for byte in (first, 128, 255):
            if byte > (columns.most if count == OBJECTS else 0):
                memory = changed(memory_of(SMALLEST, columns), (count, byte), *others)
                yield f"write: {byte} {name}", ROOM, memory, refused(3)
    if columns is SMALL:
        yield "write: every byte 255", ROOM, bytearray([255] * columns.end), refused(3)


# Two drivers and three objects: of driver 2, external, of driver 1.
OBJECTS_ONLY = [1, 2, 0, 3, 0, 3, 1, 2, 1, 0, 0, 2, 1, 1]


def broken_objects(line_l, largest):
    line = memory_of(OBJECTS_ONLY)
    yield "write: three objects", ROOM, line, done(14)
    for n, name, column, byte in (
            (1, "kind 0", SMALL.kinds, 0), (1, "kind 5", SMALL.kinds, 5), (3, "kind 0", SMALL.kinds, 0),
            (3, "kind 5", SMALL.kinds, 5), (1, "class 3", SMALL.classes, 3), (2, "class 7", SMALL.classes, 7),
            (3, "class 7", SMALL.classes, 7), (1, "owner 3", SMALL.owners, 3), (2, "owner 1", SMALL.owners, 1),
            (3, "owner 3", SMALL.owners, 3)):
        yield f"write: object {n} of {name}", ROOM, changed(line, (column + n, byte)), refused(3)
    yield "write: owner 0 of the first driver's object", ROOM, changed(line, (SMALL.owners + 1, 0)), refused(3)
    yield "write: owner 0 of the last driver's object", ROOM, changed(line, (SMALL.owners + 3, 0)), refused(3)
    yield "write: owner 255 of an external object", ROOM, changed(line, (SMALL.owners + 2, 255)), refused(3)
    yield "write: a device's object without devices", ROOM, changed(line, (SMALL.classes + 1, 2)), refused(3)
    line = memory_of(line_l)
    yield "write: class 7 of a device's object", ROOM, changed(line, (SMALL.classes + 2, 7)), refused(3)
    for n, byte in ((1, 0), (4, 3)):
        yield f"write: owner {byte} of a device's object {n}", ROOM, changed(line, (SMALL.owners + n, byte)), refused(3)
    line = memory_of(largest)
    yield "write: kind 5 of object 96", LARGE_ROOM, changed(line, (SMALL.kinds + SMALL.most, 5)), refused(3)


def broken_values(line_l, largest):
    """Hardcoded numbers, entry counts, and each part of an entry; in L the last value is 5, and each has one entry."""
    line = memory_of(line_l)
    for device, byte in ((1, 6), (2, 6), (2, 255)):
        yield (f"write: hardcoded number {byte} of device {device}", ROOM,
               changed(line, (SMALL.hardcoded + device, byte)), refused(3))
    for value, count in ((5, 7), (5, 255)):
        yield f"write: {count} entries of value {value}", ROOM, changed(line, (SMALL.counts + value, count)), refused(3)
    # What stands behind the sixth entry is the next value's: with it, nothing but the count is wrong.
    twelve = memory_of([1, 0, 0, 1, 2, 3, 0, 0] + [6, *[1, 1, 0] * 6] * 2)
    yield "write: 7 entries of value 1", ROOM, changed(twelve, (SMALL.counts + 1, 7)), refused(3)
    for value, part, name, byte in (
            (1, 0, "object", 0), (1, 0, "object", 7), (5, 0, "object", 0), (5, 0, "object", 255),
            (1, 1, "mode", 0), (1, 1, "mode", 4), (5, 1, "mode", 0), (5, 1, "mode", 255)):
        yield (f"write: value {value}, an entry of {name} {byte}", ROOM,
               changed(line, (SMALL.entry(value, 1) + part, byte)), refused(3))
    for value, stored, name in ((1, 1, "a stored value by mode 1"), (3, 1, "a stored value for an object of kind 3"),
                                (4, 6, "a stored value above K"), (5, 255, "a stored value of 255")):
        yield f"write: {name}", ROOM, changed(line, (SMALL.entry(value, 1) + 2, stored)), refused(3)
    hardcoded = changed(line, (SMALL.entry(3, 1), 1), (SMALL.entry(3, 1) + 2, 1))
    yield "write: a stored value for an object of kind 4", ROOM, hardcoded, refused(3)
    second = changed(line, (SMALL.counts + 5, 2))
    yield "write: a second entry that is zeros", ROOM, second, refused(3)
    line = memory_of(largest)
    yield "write: 200 entries of value 1", LARGE_ROOM, changed(line, (SMALL.counts + 1, 200)), refused(3)
    yield ("write: hardcoded number 48 of device 16", LARGE_ROOM,
           changed(line, (SMALL.hardcoded + MOST_DEVICES, 48)), refused(3))
    yield "write: 7 entries of value 47", LARGE_ROOM, changed(line, (SMALL.counts + MOST_VALUES, 7)), refused(3)
    yield ("write: the last entry of value 47 stores 48", LARGE_ROOM,
           changed(line, (SMALL.entry(MOST_VALUES, MOST_ENTRIES) + 2, 48)), refused(3))


# Changes of L, each with the question that refuses it alone.
FAULT_3 = [(SMALL.entry(5, 1) + 1, 4)]
FAULT_5 = [(SMALL.kinds + 5, 4)]
FAULT_6 = [(SMALL.entry(1, 1), 4)]


def asked_5_and_6(line_l):
    line, stored = memory_of(line_l), SMALL.entry(5, 1) + 2
    for name, changes in (("a device without a hardcoded descriptor", [(SMALL.kinds + 1, 3)]),
                          ("the last device without one", [(SMALL.kinds + 3, 3)]),
                          ("the last device's belongs to the first", [(SMALL.owners + 3, 1)]),
                          ("a device with two", [(SMALL.kinds + 2, 4), (SMALL.hardcoded + 1, 0), (stored, 0)]),
                          ("an external hardcoded descriptor", FAULT_5),
                          ("a driver's hardcoded descriptor", [(SMALL.kinds + 6, 4)])):
        yield f"write, 5: {name}", ROOM, changed(line, *changes), refused(5)
    for name, changes in (("another device's object", FAULT_6),
                          ("an external object", [(SMALL.entry(1, 1), 5)]),
                          ("the object of a driver of its number", [(SMALL.entry(1, 1), 6)]),
                          ("a hardcoded descriptor", [(SMALL.entry(1, 1), 1)])):
        yield f"write, 6: a hardcoded value names {name}", ROOM, changed(line, *changes), refused(6)
    for mode in (2, 3):
        yield (f"write: a hardcoded value names its own kind 1 by mode {mode}", ROOM,
               changed(line, (SMALL.entry(2, 1) + 1, mode)), done(45))
    yield "write, 6: the first device's value for the last", ROOM, changed(line, (SMALL.hardcoded + 2, 1)), refused(6)


def ring_cases(line_l):
    """Request N4: hardcoded values that write their own device's kind 1 objects."""
    line, entry = memory_of(line_l), SMALL.entry(1, 1)
    for mode in (2, 3):
        yield (f"write: a ring by mode {mode}, stored value K", ROOM, changed(line, (entry + 1, mode), (entry + 2, 5)),
               done(45))
        yield (f"write: a ring by mode {mode}, a stored value above K", ROOM,
               changed(line, (entry + 1, mode), (entry + 2, 6)), refused(3))
        yield (f"write, 6: a hardcoded value writes another device's kind 1 by mode {mode}", ROOM,
               changed(line, (entry, 4), (entry + 1, mode), (entry + 2, 3)), refused(6))


def orders(line_l):
    """Several faults: the first of 3, 5, 6 and the area's length decides."""
    line = memory_of(line_l)
    for name, changes, length, answer in (
            ("3 and 5", FAULT_3 + FAULT_5, ROOM, 3), ("3 and 6", FAULT_3 + FAULT_6, ROOM, 3),
            ("5 and 6", FAULT_5 + FAULT_6, ROOM, 5), ("3, 5 and 6", FAULT_3 + FAULT_5 + FAULT_6, ROOM, 3),
            ("3 and a short area", FAULT_3, 44, 3), ("5 and a short area", FAULT_5, 44, 5),
            ("6 and a short area", FAULT_6, 44, 6), ("3, 5, 6 and no area", FAULT_3 + FAULT_5 + FAULT_6, 0, 3)):
        yield f"write: {name}", length, changed(line, *changes), refused(answer)


def generated(line_l, rnd):
    """L with bytes changed at random among those that are named, and sometimes others; no answer is stated."""
    line = memory_of(line_l)
    places = list(named_places(line))
    for i in range(10):
        out = bytearray(line)
        for _ in range(rnd.choice([1, 1, 2, 3])):
            place = rnd.choice(places) if rnd.random() < 0.9 else rnd.randrange(SMALL.entry(5, 7))
            out[place] = rnd.choice([0, 1, 2, 3, 4, 5, 6, 7, rnd.randrange(256)])
        yield f"write: changed at random {i + 1}", rnd.choice([44, 45, 50, 63, ROOM]), out, None


def cases(line_l, largest):
    """All of them: label, area's length, memory, the answer stated. `line_l` and `largest` are rows of numbers."""
    yield from named_lengths(line_l, largest)
    yield from named_lines(line_l)
    yield from named_noise(line_l)
    yield from broken_counts()
    yield from broken_objects(line_l, largest)
    yield from broken_values(line_l, largest)
    yield from asked_5_and_6(line_l)
    yield from orders(line_l)
    yield from generated(line_l, random.Random(2))


# An area that the largest file fits into.
WIDE_ROOM = 2048


def naming(objects, named, kind=3, mode=1, stored=0):
    """A line of external objects of one kind, with one value, whose entry names an object."""
    return [1, 0, 0, objects, 1] + [kind, 0, 0] * objects + [1, named, mode, stored]


def last_hardcoded(objects):
    """A line of one device, whose hardcoded descriptor is the last object and reads its other descriptor, object 1."""
    return [1, 0, 1, objects, 1] + [1, 2, 1] + [3, 0, 0] * (objects - 2) + [4, 2, 1] + [1] + [1, 1, 1, 0]


def wide_lengths(largest):
    """Files up to the largest, into an area of just their length and into a byte less."""
    lines = [([1, 0, 0, n, 0] + [3, 0, 0] * n, f"{n} objects", length)
             for n, length in ((0, 5), (96, 293), (97, 296), (127, 386), (128, 390), (192, 582))]
    for numbers, name, length in lines + [(largest, "the largest wide line", 1773)]:
        yield f"write: {name} into {length} bytes", length, memory_of(numbers, WIDE), done(length)
        yield f"write: {name} into a byte less", length - 1, memory_of(numbers, WIDE), short(length)


def wide_entries():
    """An entry's object in one byte or two, up to the last object and above it."""
    for named, answer in ((127, done(586)), (128, done(587)), (192, done(587)), (193, refused(3))):
        yield f"write: an entry of object {named} of 192", WIDE_ROOM, memory_of(naming(192, named), WIDE), answer
    yield "write: an entry of object 97 of 96", WIDE_ROOM, memory_of(naming(96, 97), WIDE), refused(3)
    # By its number modulo 128 the object would be of another kind, which decides whether a value may be stored there.
    stored = changed(memory_of(naming(192, 192, mode=2, stored=1), WIDE), (WIDE.kinds + 192, 1))
    yield "write: an entry that stores into object 192", WIDE_ROOM, stored, done(587)
    stored = changed(memory_of(naming(192, 192, kind=1, mode=2, stored=1), WIDE), (WIDE.kinds + 192, 3))
    yield "write: an entry that stores into object 192 of kind 3", WIDE_ROOM, stored, refused(3)


def wide_faults():
    """Faults of the last objects, by each of the writer's questions."""
    line = memory_of([1, 0, 0, 192, 0] + [3, 0, 0] * 192, WIDE)
    for n, name, column, byte, question in ((97, "kind 5", WIDE.kinds, 5, 3), (128, "kind 0", WIDE.kinds, 0, 3),
                                            (192, "kind 5", WIDE.kinds, 5, 3), (192, "class 3", WIDE.classes, 3, 3),
                                            (192, "owner 1", WIDE.owners, 1, 3), (192, "kind 4", WIDE.kinds, 4, 5)):
        yield f"write: object {n} of {name}", WIDE_ROOM, changed(line, (column + n, byte)), refused(question)
    last = memory_of(last_hardcoded(97), WIDE)
    yield "write: object 97 is the only hardcoded one", WIDE_ROOM, last, done(301)
    yield "write, 5: and it is none", WIDE_ROOM, changed(last, (WIDE.kinds + 97, 3)), refused(5)
    yield "write, 6: its value names itself", WIDE_ROOM, changed(last, (WIDE.entry(1, 1), 97)), refused(6)


def wide_cases(line_l, largest):
    """The cases whose columns have room for all lines; `largest` has every count at its limit."""
    yield from wide_lengths(largest)
    yield from wide_entries()
    yield from broken_counts(WIDE)
    yield from wide_faults()
    for name, numbers, length in (("L", line_l, 45), ("128 objects", naming(128, 128), 395)):
        memory = noisy(memory_of(numbers, WIDE), lambda at: (at * 7 + 13) % 256, WIDE)
        yield f"write: {name} in long columns with noise", WIDE_ROOM, memory, done(length)
