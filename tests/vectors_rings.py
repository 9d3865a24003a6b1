"""Stored cases of request N4, devices that write their own descriptors from the hardcoded one, for tests/vectors.py:
files by question 6, and operations on areas of every kind, also such as no list of calls reaches. Answers are stated
from the papers; nothing here searches."""
from layout import (AREA, DEVICES_FROM, MOST_DEVICES, MOST_ENTRIES, MOST_OBJECTS, MOST_VALUES, SMALL_ROOM, WIDE_AREA,
                    record_at, row)

# The first value of document 01's L, which is device 1's: the places of its entry's object, mode and stored value.
OBJECT, MODE, STORED = 26, 27, 28
# Partitions 1 and 2 exist, and the hardcoded descriptors of L, objects 1 and 3, hold their values.
READY = {1: 1, 2: 1, record_at(1) + 1: 1, record_at(3) + 1: 2}
ENTER_TWO = [8, 2, 2]


def with_entry(line_l, *entry):
    """L with another entry in its first value."""
    out = list(line_l)
    out[OBJECT:STORED + 1] = entry
    return out


def changed(line, *changes):
    out = list(line)
    for place, byte in changes:
        out[place] = byte
    return out


def files(line_l):
    """Label, bytes, answer."""
    for mode in (2, 3):
        for name, entry, answer in (
                ("its own kind 1, stored value K", (2, mode, 5), 0),
                ("its own kind 1, a value above K", (2, mode, 6), 3),
                ("another device's kind 1", (4, mode, 3), 6), ("its own hardcoded descriptor", (1, mode, 0), 6),
                ("a driver's object of its number", (6, mode, 0), 6)):
            yield f"a hardcoded value writes {name}, by mode {mode}", row(with_entry(line_l, *entry)), answer
        # Object 5, which is external, as a transfer descriptor; and object 2, device 1's, as data.
        external, data = changed(line_l, (17, 1)), changed(line_l, (8, 3), (44, 0))
        yield f"a hardcoded value writes an external kind 1, by mode {mode}", row(with_entry(external, 5, mode, 3)), 6
        yield f"a hardcoded value writes its own data, by mode {mode}", row(with_entry(data, 2, mode, 0)), 0
    yield "a hardcoded value reads its own kind 1, with a stored value", row(with_entry(line_l, 2, 1, 3)), 3
    # The last entry that a value may have, and the last device that there may be.
    six = [1, 0, 1, 8, 1, 4, 2, 1] + [1, 2, 1] * MOST_ENTRIES + [1, 0, 0, 1, MOST_ENTRIES]
    six += sum(([n, 3, 0] for n in range(2, MOST_ENTRIES + 1)), [])
    yield "6: the last of six entries writes an external kind 1", row(six + [8, 3, 0]), 6
    yield "six entries write the device's own kind 1", row(six + [7, 3, 0]), 0
    count = MOST_DEVICES
    line = [1, 0, count, 2 * count, count] + owned(4, count) + owned(1, count) + list(range(1, count + 1))
    for c in range(1, count + 1):
        line += [1, count + (1 if c == count else c), 3, 0]
    yield "6: the last device of all writes device 1's kind 1", row(line), 6


def owned(kind, count):
    """An object of this kind for each of so many devices, as a file has them."""
    return sum(([kind, 2, c] for c in range(1, count + 1)), [])


def inside(device, partition, *objects):
    """A device and objects in a partition."""
    return {DEVICES_FROM + device - 1: partition, **{record_at(n): partition for n in objects}}


def example_r(line_l):
    """The request's R: device 1 reads and writes its own object 2, and puts value 3 there, which writes object 5."""
    ring, enter = with_entry(line_l, 2, 3, 3), [8, 1, 1]
    active, data = inside(1, 1, 1, 2), {record_at(5): 1}
    for name, area, record, answer in (
            ("a ring comes in before what it names", {}, enter, 21),
            ("a ring comes in after what it names", data, enter, 0),
            ("a ring comes in with what it names elsewhere", {record_at(5): 2}, enter, 21),
            ("a ring comes in with an old value in its descriptor", {**data, record_at(2) + 1: 4}, enter, 0),
            ("a ring into a partition that is not there: 14 before 21", {}, [8, 1, 3], 14),
            ("a ring that is in: 16 before 21", active, enter, 16),
            ("what a ring can write stays", {**active, **data}, [12, 1, 1, 5], 20),
            ("a ring goes out", {**active, **data}, [11, 1], 0),
            ("a ring does what its value says", {**active, **data}, [2, 1, 1, 2, 0, 3], 0),
            ("a ring puts another value than it says", {**active, **data}, [2, 1, 1, 2, 0, 4], 18),
            ("a ring reads its descriptor", {**active, **data}, [4, 1, 1, 2, 0], 0)):
        yield f"R: {name}", ring, area, record, answer
    yield "R: a ring that is never read", with_entry(line_l, 2, 2, 4), {}, enter, 0
    yield "R: no entries at all, and an own descriptor", changed(line_l, (23, 0)), {record_at(1) + 1: 0}, enter, 0


def unreached(line_l):
    """L, with no ring. Device 1 is in 1, and what its object 2 holds leads it out: no list of calls leads there."""
    for name, held in (("to object 4, which is in none", 4), ("to object 5, which is in 2", 3)):
        area = {**inside(1, 1, 1, 2), record_at(2) + 1: held, record_at(5): 2}
        yield f"21: device 1 gets {name}, and 2 comes in", line_l, area, ENTER_TWO, 21
        yield f"21 is not for drivers: device 1 gets {name}", line_l, area, [7, 1, 1], 0
    area = {**inside(1, 1, 1, 2), record_at(2) + 1: 4}
    yield "21 is not for external objects: device 1 gets out", line_l, area, [9, 1, 1, 5], 0
    yield "21: device 2 comes in, and device 1 stays inside", line_l, inside(1, 1, 1, 2), ENTER_TWO, 0
    yield "21: 11 before 21", line_l, area, [8, 3, 2], 11
    yield "21: device 2 comes in to where device 1 gets to it", line_l, {**area, record_at(5): 1}, [8, 2, 1], 0
    bare = changed(line_l, (24, 0))
    label = "21: device 2 comes in with no entries, and device 1 gets out"
    yield label, bare, {**area, record_at(3) + 1: 0}, ENTER_TWO, 21
    yield "19 is not for devices: device 1 gets out, and reads", line_l, area, [4, 1, 1, 2, 0], 0
    area = {record_at(4) + 1: 5}
    yield "21: device 2 comes in with an old value, which is cleared", line_l, area, ENTER_TWO, 0


# Device 1's ring puts value 3 into object 2, which puts value 4 into object 5, an external descriptor. Device 2 reads
# that one, by value 5 in its object 4; and value 4 reads object 6.
FED = [1, 0, 2, 6, 5, 4, 2, 1, 1, 2, 1, 4, 2, 2, 1, 2, 2, 1, 0, 0, 3, 0, 0, 1, 2,
       1, 2, 3, 3, 1, 4, 1, 0, 1, 5, 2, 4, 1, 6, 1, 0, 1, 5, 1, 0]


def fed(_):
    """The device that comes in stays inside, and another one is led out by what it puts."""
    there = {**inside(2, 1, 3, 4, 5), record_at(4) + 1: 5}
    for name, place, answer in (("in none", 0, 21), ("in 2", 2, 21), ("in 1", 1, 0)):
        yield f"21: device 1 feeds device 2, object 6 {name}", FED, {**there, record_at(6): place}, [8, 1, 1], answer


def six_entries(_):
    """A device whose hardcoded value reads and writes all of its six descriptors, as many as a value has entries. The
    last is given value 2, which reads object 8; the others value 3, which has no entries."""
    own = list(range(2, 2 + MOST_ENTRIES))
    line = [1, 0, 1, 8, 3, 4, 2, 1] + [1, 2, 1] * MOST_ENTRIES + [3, 0, 0, 1, MOST_ENTRIES]
    for n in own:
        line += [n, 3, 2 if n == own[-1] else 3]
    line += [1, 8, 1, 0, 0]
    yield "21: a ring of six entries, the last leads out", line, {}, [8, 1, 1], 21
    yield "21: a ring of six entries, all inside", line, {record_at(8): 1}, [8, 1, 1], 0


def last_device(_):
    """All devices that there may be, each with a ring of its own; the last one's leads to an external object."""
    count = MOST_DEVICES
    last = 2 * count + 1
    line = [1, 0, count, last, count + 1] + owned(4, count) + owned(1, count) + [3, 0, 0] + list(range(1, count + 1))
    for c in range(1, count + 1):
        line += [1, count + c, 3, count + 1 if c == count else 0]
    line += [1, last, 2, 0]
    held = {record_at(c) + 1: c for c in range(1, count + 1)}
    enter = [8, count, 2]
    yield "21: the last device's ring leads out", line, held, enter, 21
    yield "21: the last device's ring stays inside", line, {**held, record_at(last): 2}, enter, 0


def last_value(_):
    """A ring that puts the last value of all, which names object 3."""
    line = [1, 0, 1, 3, MOST_VALUES, 4, 2, 1, 1, 2, 1, 3, 0, 0, 1, 1, 2, 3, MOST_VALUES] + [0] * (MOST_VALUES - 2)
    line += [1, 3, 3, 0]
    yield "21: a ring puts the last value of all, object 3 in none", line, {}, [8, 1, 1], 21
    yield "21: a ring puts the last value of all, object 3 in 1", line, {record_at(3): 1}, [8, 1, 1], 0


def last_object(_):
    """The last object of a small line is the device's own descriptor; what its ring puts there names object 1."""
    last = SMALL_ROOM
    line = [1, 0, 1, last, 2] + [3, 0, 0] * (last - 2) + [4, 2, 1, 1, 2, 1, 1, 1, last, 3, 2, 1, 1, 3, 0]
    area = {record_at(1) + 1: 0, record_at(last - 1) + 1: 1}
    for name, place, answer in (("in none", 0, 21), ("in 1", 1, 0)):
        label = f"21: the ring in a small line's last object leads to object 1, {name}"
        yield label, line, {**area, record_at(1): place}, [8, 1, 1], answer


def read_on(_):
    """Device 1's object 2 reads object 3, an external descriptor, which holds a value that names object 4. A descriptor
    that is in none has no value to be read."""
    line = [1, 0, 1, 4, 3, 4, 2, 1, 1, 2, 1, 1, 0, 0, 3, 0, 0, 1, 1, 2, 1, 0, 1, 3, 1, 0, 1, 4, 1, 0]
    area = {**inside(1, 1, 1, 2, 4), record_at(2) + 1: 2, record_at(3) + 1: 3}
    yield "20: a descriptor that is in none is not read on", line, area, [12, 1, 1, 4], 0
    yield "20: a descriptor that is in 1 is read on", line, {**area, record_at(3): 1}, [12, 1, 1, 4], 20


def many_turns(_):
    """Six devices with rings. The first one's counts a value down through an external descriptor, thirty steps; at the
    end of it the next device is let read that descriptor, and goes through all of them again, and so on to the last,
    which comes to the data at the end: a search that looks at a value and a device at a time takes over 100 turns."""
    count, steps = 6, 30
    shared = count + 1
    gate = {c: shared + c - 1 for c in range(2, count + 1)}
    own = {c: shared + count - 1 + c for c in range(1, count + 1)}
    data = own[count] + 1
    opens = {c: steps + count + 1 - c for c in range(2, count + 1)}
    reads = {c: steps + count - 1 + c for c in range(1, count + 1)}
    wired = {c: reads[count] + c for c in range(1, count + 1)}
    values = {1: [gate[2], 2, opens[2]], **{v: [shared, 2, v - 1] for v in range(2, steps + 1)}}
    for c in range(2, count + 1):
        values[opens[c]] = [shared, 1, 0] + ([gate[c + 1], 2, opens[c + 1]] if c < count else [data, 1, 0])
    for c in range(1, count + 1):
        values[reads[c]] = [shared, 3, steps] if c == 1 else [gate[c], 1, 0]
        values[wired[c]] = [own[c], 3, reads[c]]
    line = [1, 0, count, data, wired[count]] + owned(4, count) + [1, 0, 0] * count + owned(1, count) + [3, 0, 0]
    line += wired.values()
    for v in range(1, wired[count] + 1):
        line += [len(values[v]) // 3] + values[v]
    area = {record_at(shared): 1, **{record_at(n): 1 for n in gate.values()}}
    area |= {record_at(c) + 1: wired[c] for c in wired}
    for c in range(2, count + 1):
        area |= inside(c, 1, c, own[c])
    yield "21: rings go round in over 100 turns, and out", line, area, [8, 1, 1], 21
    yield "21: rings go round in over 100 turns, inside", line, {**area, record_at(data): 1}, [8, 1, 1], 0


def wide_calls():
    """Object 192 is the device's own descriptor, 191 its hardcoded one; what it puts names object 130. By its number
    modulo 128 that would be object 2, which is in the partition."""
    line = [1, 0, 1, MOST_OBJECTS, 2] + [3, 0, 0] * (MOST_OBJECTS - 2) + [4, 2, 1, 1, 2, 1, 1]
    line += [1, MOST_OBJECTS, 3, 2, 1, 130, 3, 0]
    held = {1: 1, record_at(MOST_OBJECTS - 1) + 1: 1, record_at(2): 1}
    for name, area, answer in (("which is in none", {}, 21), ("which is in the partition", {record_at(130): 1}, 0)):
        label = f"21: a wide line's ring leads to object 130, {name}"
        yield label, row(line), WIDE_AREA, {**held, **area}, row([8, 1, 1]), answer
    # Without a ring: the device reads object 192, which holds the value of before, and that names object 130.
    quiet = line[:-7] + [MOST_OBJECTS, 1, 0, 1, 130, 3, 0]
    label, old = "21: a wide line's device comes in with an old value, which is cleared", record_at(MOST_OBJECTS) + 1
    yield label, row(quiet), WIDE_AREA, {**held, old: 2}, row([8, 1, 1]), 0


def calls(line_l):
    """Label, file, the area's length, its bytes by their places, the record, answer."""
    for named in (example_r, unreached, fed):
        for label, line, area, record, stated in named(line_l):
            yield label, row(line), AREA, {**READY, **area}, row(record), stated
    for named in (six_entries, last_device, last_value, last_object, read_on, many_turns):
        for label, line, area, record, stated in named(line_l):
            yield label, row(line), AREA, {1: 1, 2: 1, record_at(1) + 1: 1, **area}, row(record), stated
    yield from wide_calls()
