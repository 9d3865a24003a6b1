"""Stored cases of request N2, lines of up to 192 objects, for tests/vectors.py: how long a state area a line needs, and
objects whose numbers have two bytes."""
from layout import (AREA, CONTENT, DRIVERS_FROM, MOST_DEVICES, MOST_DRIVERS, MOST_ENTRIES, MOST_ITEMS, MOST_OBJECTS,
                    MOST_VALUES, SMALL_ROOM, WIDE_AREA, area_of, locks_from, number, record_at, row)
from vectors_write import last_hardcoded, naming, refused

# The lines and the lengths of the request's table.
TABLE_LINES = (0, SMALL_ROOM, SMALL_ROOM + 1, MOST_OBJECTS)
TABLE_LENGTHS = (AREA - 1, AREA, AREA + 1, WIDE_AREA - 1, WIDE_AREA, WIDE_AREA + 1)
# How long an area of a case can be, and the answer to a case that is none.
MOST_AREA, NO_CASE = 4096, 255


def data(objects):
    """A line of external data alone, as numbers."""
    return [1, 0, 0, objects, 0] + [3, 0, 0] * objects


def wide_size():
    """The largest file, as numbers: every count at its limit, six entries in every value, each with an object in two
    bytes. Objects 1 to 16 are the devices' hardcoded descriptors, the next 160 descriptors of the
    devices in turn, and the last 16 the drivers' data."""
    out = [1, MOST_DRIVERS, MOST_DEVICES, MOST_OBJECTS, MOST_VALUES]
    for n in range(1, MOST_OBJECTS + 1):
        owner = (n - 1) % MOST_DEVICES + 1
        out += [4, 2, owner] if n <= 16 else [1, 2, owner] if n <= 176 else [3, 1, owner]
    out += range(1, MOST_DEVICES + 1)
    for v in range(1, MOST_VALUES + 1):
        out.append(MOST_ENTRIES)
        for j in range(MOST_ENTRIES):
            # A device's own descriptors are every sixteenth object: three of them have two bytes.
            own = 16 * (8 + j % 3) + v
            out += [own, 1, 0] if v <= 16 else [128 + (v * 7 + j) % 49, 1 + j % 3, 47 if j % 3 else 0]
    return out


def files():
    """Files: label, bytes, answer."""
    for objects, answer in ((127, 0), (128, 0), (192, 0), (193, 3)):
        yield f"{objects} objects", row(data(objects)), answer
    yield "288 objects, 32 modulo 256, and the file's end", row([1, 0, 0, 288, 0]), 3
    yield "every count at its limit, 192 objects", row(wide_size()), 0
    yield "192 objects, cut before the last byte", row(data(192))[:-1], 1
    yield "a count of objects cut in its two bytes", bytes([1, 0, 0, 192]), 1
    yield "127 objects, their count in two bytes", bytes([1, 0, 0, 255, 0, 0]), 2
    yield "192 objects, their count in three bytes", bytes([1, 0, 0, 192, 129, 0, 0]), 2
    for objects, named, answer in ((192, 127, 0), (192, 128, 0), (192, 192, 0), (192, 193, 3), (128, 129, 3),
                                   (127, 128, 3), (96, 97, 3)):
        yield f"an entry of object {named} of {objects}", row(naming(objects, named)), answer
    head, tail = row(naming(128, 1)[:-3]), row([1, 0])
    yield "an entry of object 127 in two bytes", head + bytes([255, 0]) + tail, 2
    yield "an entry of object 128 in three bytes", head + bytes([128, 129, 0]) + tail, 2
    yield "an entry of an object cut in its two bytes", head + bytes([128]), 1


def last_of_192(kind, *entry):
    """A line of 192 external objects, the last of them of another kind than the rest, with one entry."""
    others = 1 if kind != 1 else 3
    return row([1, 0, 0, 192, 1] + [others, 0, 0] * 191 + [kind, 0, 0] + [1, *entry])


def named_objects():
    """By its number modulo 128, object 192 would be object 64, which is of another kind or another's: label, bytes,
    answer."""
    yield "a stored value for object 192, of kind 1", last_of_192(1, 192, 2, 1), 0
    yield "a stored value for object 192, of kind 3", last_of_192(3, 192, 2, 1), 3
    own = [1, 0, 1, 192, 1, 4, 2, 1] + [3, 0, 0] * 190 + [3, 2, 1, 1]
    yield "6: a hardcoded value reads its own object 192", row(own + [1, 192, 1, 0]), 0
    yield "6: a hardcoded value reads object 64, which is external", row(own + [1, 64, 1, 0]), 6
    line = last_hardcoded(97)
    yield "object 97 is the only hardcoded descriptor", row(line), 0
    yield "5: object 97 was to be the hardcoded descriptor", row(line[:-8] + [3] + line[-7:]), 5
    yield "5: object 97 is one too many", row([1, 0, 1, 97, 0, 4, 2, 1] + [3, 0, 0] * 95 + [4, 2, 1, 0]), 5


def lengths():
    """Areas by their lengths, for both calls: label, file, length, answer."""
    for objects in TABLE_LINES:
        for length in TABLE_LENGTHS:
            yield (f"{objects} objects in {length} bytes", row(data(objects)), length,
                   0 if length == area_of(objects) else 7)
    for length in (0, MOST_AREA):
        yield f"97 objects in {length} bytes", row(data(97)), length, 7
    yield "193 objects come before the area's length", row([1, 0, 0, 193, 0]), AREA, 3
    yield "a wide line with a byte left over comes before it", row(data(97)) + b"\0", AREA, 4


def fresh_lengths():
    yield from lengths()
    yield "every count at its limit", row(wide_size()), WIDE_AREA, 0
    yield "object 192 is hardcoded", row(last_hardcoded(192)), WIDE_AREA, 0
    yield "no case: a longer area than there is", row(data(0)), MOST_AREA + 1, NO_CASE


def absent():
    """Areas with a byte set where there is no object, in the longer area and in the shorter: label, file, length, bytes
    by their places, answer."""
    for objects, last in ((97, 192), (191, 192), (0, 96), (95, 96)):
        line, length, behind = row(data(objects)), area_of(objects), record_at(objects + 1)
        cases = {"the state as it is": {}, "the partition of the next": {1: 1, behind: 1},
                 "the last byte": {locks_from(objects) - 1: 1}}
        if objects + 1 < last:
            cases |= {"a byte of the next": {behind + 1: 1}, f"the partition of {last}": {1: 1, record_at(last): 1}}
        for name, changes in cases.items():
            yield f"9: {objects} objects, {name}", line, length, changes, 9 if changes else 0


def present():
    """Areas of 192 objects with bytes of the last: label, file, length, bytes by their places, answer."""
    last = record_at(192)
    values = row([1, 0, 0, 192, 1] + [1, 0, 0] * 192 + [0])
    # The driver's partition decides where its objects are, the last too.
    driver = row([1, 1, 0, 192, 0] + [3, 0, 0] * 191 + [3, 1, 1])
    there = {2: 1, DRIVERS_FROM: 2, last: 2, last + CONTENT: 255}
    for name, line, changes, answer in (
            ("object 192 is where its driver is, with any contents", driver, there, 0),
            ("object 192 is not where its driver is", driver, {**there, last: 0}, 9),
            ("object 192 holds a value", values, {last + 1: 1}, 0),
            ("object 192 holds a value that is not there", values, {last + 1: 2}, 9),
            ("the last byte behind a value", values, {last + CONTENT: 1}, 9)):
        yield f"9: {name}", line, WIDE_AREA, changes, answer
    line, held = row(last_hardcoded(97)), record_at(97) + 1
    yield "9: object 97 holds its hardcoded value", line, WIDE_AREA, {held: 1}, 0
    yield "9: object 97 holds another", line, WIDE_AREA, {}, 9


def needed():
    """Lines whose area's length is asked for: label, bytes, answer."""
    for objects in (0, 96, 97, 192):
        yield f"length: {objects} objects", row(data(objects)), area_of(objects)
    yield "length: drivers and values at their limits, no object", row([1, 16, 0, 0, 47] + [0] * 47), AREA
    wrong = last_hardcoded(97)
    for question, line in ((1, row(wrong)[:-1]), (1, b""), (2, bytes([1, 0, 0, 255, 0, 0])),
                           (3, row([1, 0, 0, 193, 0])), (4, row(wrong) + b"\0"),
                           (5, row(wrong[:-8] + [3] + wrong[-7:])), (6, row(wrong[:-3] + [97] + wrong[-2:]))):
        yield f"length: refused by {question}, a file of {len(line)} bytes", line, refused(question)


def records():
    """Records with objects in two bytes: label, bytes, answer."""
    raw = bytes(range(1, CONTENT + 1))
    longest = row([1, 16, MOST_ITEMS]) + b"".join(row([n, 1]) + raw for n in range(185, 193))
    yield "10: the longest record", longest, 0
    yield "10: the longest record, a byte left over", longest + b"\0", 10
    yield "10: objects 127, 128, 191 and 192", row([9, 1, 4, 127, 128, 191, 192]), 0
    yield "10: object 127 in two bytes", row([9, 1, 1]) + bytes([255, 0]), 10
    yield "10: object 128 cut in its two bytes", row([9, 1, 1]) + number(128)[:1], 10
    yield "10: pairs of objects in two bytes", row([4, 1, 2, 192, 128, 191, 0]), 0
