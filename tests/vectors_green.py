"""Stored cases of request N5, green zones, for tests/vectors.py: the request's sessions as operations on the areas that
they lead to, each clause of the green rule alone, what is stored by which record, cards that come in, and what leaves;
on areas of every kind, also such as no list of calls reaches. (vectors_zones.py has standings and records of code 13.)
Answers are stated from the papers; nothing here looks at an entry."""
from layout import (AREA, CONTENT, DEVICES_FROM, DRIVERS_FROM, MOST_ENTRIES, MOST_ITEMS, MOST_OBJECTS, WIDE_AREA,
                    record_at, row)
from vectors_rings import changed, inside, with_entry

PLAIN, DESTROYED, GREEN = 1, 2, 3
# Where L has the kind of object 2, and the last stored value of all, which is for that object.
KIND_TWO, LAST_STORED = 8, 44
# The hardcoded descriptors of L hold their values.
FRESH_L = {record_at(1) + 1: 1, record_at(3) + 1: 2}
FIRST = 1


def objects_in(partition, *objects):
    return {record_at(n): partition for n in objects}


def driver_in(driver, partition, *objects):
    """A driver and objects in a partition."""
    return {DRIVERS_FROM + driver - 1: partition, **objects_in(partition, *objects)}


def held(**values):
    """What descriptors hold, by `o` and their number."""
    return {record_at(int(name[1:])) + FIRST: value for name, value in values.items()}


def session(name, line, fresh, steps):
    """A case for each record of a session; a step is a record, its answer, and the bytes that it changes."""
    area = dict(fresh)
    for place, (record, answer, change) in enumerate(steps, 1):
        yield f"{name}, {place}: {' '.join(map(str, record))}", line, dict(area), record, answer
        area |= change


def sessions(line_l):
    """The request's three examples; the second also in a zone that is not green."""
    into = [([13, 1], 0, {1: GREEN}), ([7, 1, 1], 0, driver_in(1, 1, 6)), ([8, 1, 1], 0, inside(1, 1, 1, 2)),
            ([9, 1, 1, 5], 0, objects_in(1, 5)), ([1, 1, 1, 2, 0, 3], 0, held(o2=3)), ([12, 1, 1, 5], 20, {})]
    broken = [([1, 1, 1, 2, 0, 4], 22, {}), ([1, 1, 1, 2, 0, 2], 22, {}), ([3, 1, 1, 2, 0], 0, {}),
              ([3, 1, 1, 2, 2], 0, {}), ([1, 1, 1, 2, 0, 0], 0, held(o2=0)), ([12, 1, 1, 5], 0, objects_in(0, 5))]
    out = [([6, 1], 15, {}), ([10, 1], 0, driver_in(1, 0, 6)), ([11, 1], 0, inside(1, 0, 1, 2)),
           ([6, 1], 0, {1: DESTROYED}), ([13, 1], 14, {}), ([5, 1], 14, {})]
    yield from session("L", line_l, FRESH_L, into + broken + out)
    # No device at all: object 1 is a driver's descriptor, and value 1 writes object 2, which is external.
    bare = [1, 1, 0, 2, 1, 1, 1, 1, 3, 0, 0, 1, 2, 2, 0]
    for code, standing, answer in ((13, GREEN, 20), (5, PLAIN, 0)):
        steps = [([code, 1], 0, {1: standing}), ([7, 1, 1], 0, driver_in(1, 1, 1)), ([9, 1, 1, 2], 0, objects_in(1, 2)),
                 ([1, 1, 1, 1, 0, 1], 0, held(o1=1)), ([12, 1, 1, 2], answer, {} if answer else objects_in(0, 2)),
                 ([10, 1], 0, {})]
        yield from session(f"no device, code {code}", bare, {}, steps)
    ring = with_entry(line_l, 2, 3, 3)
    yield from session("R", ring, FRESH_L, [([13, 1], 0, {1: GREEN}), ([9, 1, 1, 5], 0, objects_in(1, 5)),
                                            ([8, 1, 1], 22, {})])


# Driver 1 is in zone 1 with its descriptors 5 and 6 and data 9, device 1 with 1 and 2, and the external 7 and 8; driver
# 2 with its descriptor 11 and device 2 with 3 and 4 are in zone 2, which is not green. Object 10 is external data.
OBJECTS = [4, 2, 1, 1, 2, 1, 4, 2, 2, 1, 2, 2, 1, 1, 1, 1, 1, 1, 2, 0, 0, 3, 0, 0, 3, 1, 1, 3, 0, 0, 1, 1, 2]
ZONES = {2: PLAIN, **driver_in(1, 1, 5, 6, 7, 8, 9), **inside(1, 1, 1, 2), **driver_in(2, 2, 11), **inside(2, 2, 3, 4)}


def line_of(*values, hardcoded=(0, 0)):
    """Values are lists of entries, from 1."""
    line = [1, 2, 2, 11, len(values)] + OBJECTS + list(hardcoded)
    for entries in values:
        line += [len(entries)] + sum(map(list, entries), [])
    return line


def both(label, line, area, record, answer, plain=0):
    """A case in a green zone, and the same where zone 1 is not green: no device reads what is written."""
    yield f"22: {label}", line, {1: GREEN, **ZONES, **area}, record, answer
    if answer:
        yield f"not green: {label}", line, {1: PLAIN, **ZONES, **area}, record, plain


def clauses(_):
    """A driver stores a value whose one entry breaks one clause of the rule, or none."""
    for name, entry, area, answer in (
            ("data of another zone", (10, 1, 0), objects_in(2, 10), 22),
            ("data of another green zone", (10, 1, 0), {3: GREEN, **objects_in(3, 10)}, 22),
            ("data in none", (10, 1, 0), {}, 22), ("data in none, written", (10, 2, 0), {}, 22),
            ("a function descriptor in none", (7, 3, 0), objects_in(0, 7), 22),
            ("another zone's descriptor, read", (4, 1, 0), {}, 22),
            ("another zone's hardcoded descriptor", (3, 1, 0), {}, 22),
            ("a hardcoded descriptor in none", (3, 1, 0), inside(2, 0, 3, 4), 22),
            ("itself, read", (5, 1, 0), {}, 0), ("itself, written", (5, 2, 0), {}, 22),
            ("the zone's descriptor, given a value that keeps the rule", (2, 3, 2), {}, 22)):
        yield from both(name, line_of([entry], [(8, 1, 0)]), area, [1, 1, 1, 5, 0, 1], answer)
    for mode in (1, 2, 3):
        for name, named, answer in (("function descriptor", 7, 0), ("data", 8, 0), ("hardcoded descriptor", 1, 22),
                                    ("descriptor", 2, 0 if mode == 1 else 22)):
            label = f"the zone's {name} by mode {mode}"
            yield from both(label, line_of([(named, mode, 0)]), {}, [1, 1, 1, 5, 0, 1], answer)


def entries(_):
    """The first and the last of six entries, and values without any."""
    good = [(8, 1, 0), (8, 2, 0), (8, 3, 0), (7, 3, 0), (2, 1, 0)]
    write = [1, 1, 1, 5, 0, 1]
    assert len(good) + 1 == MOST_ENTRIES
    yield from both("six entries that keep the rule", line_of(good + [(7, 2, 0)]), {}, write, 0)
    for name, entry in (("in none", (10, 1, 0)), ("hardcoded", (1, 1, 0)), ("a descriptor, written", (2, 2, 0))):
        yield from both(f"the last of six entries names what is {name}", line_of(good + [entry]), {}, write, 22)
        yield from both(f"the first of six entries names what is {name}", line_of([entry] + good), {}, write, 22)
    yield from both("value 0, and 1 would break the rule", line_of([(10, 1, 0)]), {}, [1, 1, 1, 5, 0, 0], 0)
    yield from both("a value with no entries", line_of([], [(10, 1, 0)]), {}, write, 0)
    yield from both("the value behind one that breaks the rule", line_of([(10, 1, 0)], []), {}, [1, 1, 1, 5, 0, 2], 0)


# Value 1 names object 10, which is in none, and value 2 data of the zone.
STORES = line_of([(10, 1, 0)], [(8, 1, 0)])
RAW = [1] * CONTENT


def items(_):
    """What a write stores into which object, and what is asked before 22."""
    raw = [7, 1, *RAW, 8, 1, *RAW, 9, 1, *RAW]
    for name, record, answer in (
            ("bytes that look like a value", [1, 1, 3, *raw], 0),
            ("bytes, and last a value that breaks the rule", [1, 1, 4, *raw, 5, 0, 1], 22),
            ("bytes, and last a value that keeps it", [1, 1, 4, *raw, 5, 0, 2], 0),
            ("first a value that breaks the rule, then bytes", [1, 1, 4, 5, 0, 1, *raw], 22),
            ("a device's descriptor", [1, 1, 1, 2, 0, 1], 22), ("a device's descriptor, kept", [1, 1, 1, 2, 0, 2], 0)):
        yield from both(name, STORES, {}, record, answer)
    zones = {1: GREEN, **ZONES}
    for name, area, record, answer in (
            ("11 before 22: value 3 of 2", zones, [1, 1, 2, 5, 0, 1, 6, 0, 3], 11),
            ("12 before 22", zones, [1, 1, 2, 5, 0, 1, 5, 0, 1], 12), ("13 before 22", zones, [1, 1, 1, 1, 0, 1], 13),
            ("16 before 22", {**zones, **driver_in(1, 0, 5, 6, 9)}, [1, 1, 1, 5, 0, 1], 16),
            ("17 before 22", zones, [1, 1, 2, 5, 0, 1, 11, 0, 2], 17),
            ("17 before 22, by a source", {**zones, **held(o5=1)}, [3, 1, 2, 5, 6, 11, 0], 17),
            ("17 before 22, by a destination", {**zones, **held(o5=1)}, [3, 1, 1, 5, 11], 17)):
        yield name, STORES, area, record, answer


def copies(_):
    """A copy is judged by what its sources hold before the call, and only where it is stored into a descriptor."""
    data = {record_at(n) + FIRST: 1 for n in (7, 8)}
    for name, area, record, answer in (
            ("data to data", data, [3, 1, 1, 8, 9], 0), ("a function descriptor to data", data, [3, 1, 1, 7, 9], 0),
            ("what breaks the rule", held(o5=1), [3, 1, 1, 5, 6], 22),
            ("what breaks the rule, of a device", held(o2=1), [3, 1, 1, 2, 6], 22),
            ("what breaks the rule, onto itself", held(o5=1), [3, 1, 1, 5, 5], 22),
            ("what breaks the rule, to nobody", held(o5=1), [3, 1, 1, 5, 0], 0),
            ("what breaks the rule, to nobody and then to one", held(o5=1), [3, 1, 2, 5, 0, 5, 6], 22),
            ("what breaks the rule to nobody, and another", held(o5=1, o6=2), [3, 1, 2, 5, 0, 6, 2], 0),
            ("what keeps the rule, onto what breaks it", held(o5=2, o6=1), [3, 1, 1, 5, 6], 0),
            ("value 0, onto what breaks it", held(o6=1), [3, 1, 1, 5, 6], 0),
            ("two, the second breaks the rule", held(o5=2, o6=1), [3, 1, 2, 5, 2, 6, 5], 22),
            ("two, the first breaks the rule", held(o5=2, o6=1), [3, 1, 2, 6, 5, 5, 2], 22),
            ("two, the second breaks the rule before the first is done", held(o5=2, o6=1), [3, 1, 2, 5, 6, 6, 2], 22),
            ("data, and last what breaks the rule", {**data, **held(o5=1)}, [3, 1, 2, 8, 9, 5, 6], 22)):
        yield from both(f"a copy of {name}", STORES, area, record, answer)


def eight(_):
    """Eight descriptors of a driver, and external data. Value 1 names the data, value 2 the first descriptor."""
    count, data = MOST_ITEMS, MOST_ITEMS + 1
    line = [1, 1, 0, data, 2] + [1, 1, 1] * count + [3, 0, 0, 1, data, 1, 0, 1, 1, 1, 0]
    zone = {1: GREEN, **driver_in(1, 1, *range(1, data))}
    pairs = [3, 1, count] + sum(([n, n % count + 1] for n in range(1, data)), [])
    for name, value, answer in (("breaks the rule", 1, 22), ("keeps it", 2, 0)):
        write = [1, 1, count] + sum(([n, 0, 2 if n < count else value] for n in range(1, data)), [])
        yield f"22: the last of eight items {name}", line, zone, write, answer
        stored = {record_at(n) + FIRST: 2 if n < count else value for n in range(1, data)}
        yield f"22: the last of eight copies {name}", line, {**zone, **stored}, pairs, answer
    yield "22: the last of eight items, its data in the zone", line, {**zone, **objects_in(1, data)}, [
        1, 1, count] + sum(([n, 0, 1] for n in range(1, data)), []), 0


# Device 1 reads its object 2, device 2 its object 4. Value 1 names object 10, value 2 reads object 6, value 5 nothing.
READING = line_of([(10, 1, 0)], [(6, 1, 0)], [(2, 1, 0)], [(4, 1, 0)], [], hardcoded=(3, 4))
READING_HELD = held(o1=3, o3=4)


def unsearched(_):
    """No list of calls leads to these areas: a device is led out already. In a green zone nothing is searched."""
    inner, outer = {**READING_HELD, **held(o2=1)}, {**READING_HELD, **held(o4=1)}
    for name, record in (("writes value 0 elsewhere", [1, 1, 1, 5, 0, 0]), ("writes data", [1, 1, 1, 9, 1, *RAW]),
                         ("reads", [3, 1, 1, 9, 0]), ("copies data", [3, 1, 1, 8, 9])):
        for where, area in (("the zone", inner), ("another zone", outer)):
            label = f"the driver {name}, and a device of {where} is led out"
            yield f"no 19: {label}", READING, {1: GREEN, **ZONES, **area}, record, 0
            yield f"19: {label}", READING, {1: PLAIN, **ZONES, **area}, record, 19
    zones = {1: GREEN, **ZONES}
    for name, area in (("its own", outer), ("a green", inner)):
        yield f"19: a driver of zone 2, and a device of {name} zone is led out", READING, {**zones, **area}, [
            1, 2, 1, 11, 0, 0], 19
    led = {**READING_HELD, **held(o6=1)}
    yield from both("what is stored keeps the rule, and reads what does not", READING, led, [1, 1, 1, 2, 0, 2], 0)
    yield "19: the same in a zone that is not green", READING, {1: PLAIN, **ZONES, **led}, [1, 1, 1, 2, 0, 2], 19
    yield from both("what a device reads is stored", READING, READING_HELD, [1, 1, 1, 2, 0, 1], 22, 19)


def by_devices(line_l):
    """Codes 2 and 4 are as before in a green zone. Both devices of L are there, and device 1 reads object 2."""
    area = {1: GREEN, **FRESH_L, **inside(1, 1, 1, 2), **inside(2, 1, 3, 4), **objects_in(1, 5)}
    for name, value, record, answer in (
            ("writes data", 3, [2, 1, 1, 5, 1, *RAW], 0), ("writes a descriptor", 4, [2, 1, 1, 4, 0, 3], 0),
            ("writes another value", 4, [2, 1, 1, 4, 0, 5], 18), ("reads", 3, [4, 1, 1, 2, 0], 0),
            ("copies what is not described", 4, [4, 1, 1, 2, 4], 18)):
        yield f"green: a device {name}", line_l, {**area, **held(o2=value)}, record, answer


def entering(line_l):
    """Device 1 of L comes into a green zone, or into another one, with this entry in its hardcoded value."""
    enter = [8, 1, 1]
    data = changed(line_l, (KIND_TWO, 3), (LAST_STORED, 0))
    for name, line, area, green, plain in (
            ("reads its descriptor", line_l, {}, 0, 0),
            ("writes its descriptor, value 0", with_entry(line_l, 2, 2, 0), {}, 22, 0),
            ("reads and writes its descriptor, value 0", with_entry(line_l, 2, 3, 0), {}, 22, 0),
            ("has a ring that stays inside", with_entry(line_l, 2, 3, 3), objects_in(1, 5), 22, 0),
            ("has a ring that leads out: 22 before 21", with_entry(line_l, 2, 3, 3), {}, 22, 21),
            ("writes its own data", with_entry(data, 2, 2, 0), {}, 0, 0),
            ("reads and writes its own data", with_entry(data, 2, 3, 0), {}, 0, 0)):
        yield f"green: a device {name}", line, {1: GREEN, 2: PLAIN, **FRESH_L, **area}, enter, green
        yield f"not green: a device {name}", line, {1: PLAIN, 2: GREEN, **FRESH_L, **area}, enter, plain
    ring, ready = with_entry(line_l, 2, 3, 3), {1: GREEN, **FRESH_L}
    for name, area, record, answer in (
            ("11", {}, [8, 3, 1], 11), ("14, destroyed", {1: DESTROYED}, enter, 14),
            ("14, never used", {}, [8, 1, 2], 14),
            ("16", {2: GREEN, **inside(1, 2, 1, 2)}, enter, 16)):
        yield f"{name} before 22, for a device", ring, {**ready, **area}, record, answer
    # Device 1 is led out to object 4 already, which is in none: no list of calls leads there.
    outside = {**ready, 2: GREEN, **inside(1, 1, 1, 2), **held(o2=2), **objects_in(1, 5)}
    yield "21 alone: device 2 comes into a green zone", line_l, outside, [8, 2, 2], 21
    yield "no 21: device 2 comes to where device 1 gets to it", line_l, outside, [8, 2, 1], 0
    quiet = changed(line_l, (23, 0))
    yield "green: a device with no entries", quiet, {**ready, record_at(1) + FIRST: 0}, enter, 0
    # The last of six entries writes; the others read the device's own descriptors.
    for name, mode, answer in (("writes", 2, 22), ("reads", 1, 0)):
        six = [1, 0, 1, 7, 1, 4, 2, 1] + [1, 2, 1] * MOST_ENTRIES + [1, MOST_ENTRIES]
        six += sum(([n, 1, 0] for n in range(2, MOST_ENTRIES + 1)), []) + [MOST_ENTRIES + 1, mode, 0]
        yield f"green: a device of six entries, the last {name}", six, {1: GREEN, **held(o1=1)}, enter, answer


# Object 3 is driver 2's descriptor and 7 driver 1's, 8 an external one, 9 device 1's, 10 device 2's; 4 is driver 1's
# data, 5 device 1's, and 6 is external.
STAYING = [4, 2, 1, 4, 2, 2, 1, 1, 2, 3, 1, 1, 3, 2, 1, 3, 0, 0, 1, 1, 1, 1, 0, 0, 1, 2, 1, 1, 2, 2]
ALL_IN = {1: GREEN, 2: PLAIN, **driver_in(1, 1, 4, 7), **driver_in(2, 1, 3), **inside(1, 1, 1, 5, 9),
          **inside(2, 1, 2, 10), **objects_in(1, 6, 8)}
# What leaves: the record by which, and the data of it.
LEAVING = (([10, 1], 4), ([11, 1], 5), ([12, 1, 1, 6], 6))


def staying(*values, hardcoded=(0, 0)):
    line = [1, 2, 2, 10, len(values)] + STAYING + list(hardcoded)
    for named in values:
        line += [len(named)] + sum(map(list, named), [])
    return line


def strict(_):
    """No device reads a descriptor that names what leaves: only the green zone keeps it."""
    for record, data in LEAVING:
        code = record[0]
        for mode in (1, 2, 3):
            line = staying([(data, mode, 0)])
            yield f"20: code {code}, what stays names it by mode {mode}", line, {**ALL_IN, **held(o3=1)}, record, 20
        for name, area, answer in (
                ("but the zone is not green", {1: PLAIN, **held(o3=1)}, 0), ("no descriptor holds it", {}, 0),
                ("in another zone", {**driver_in(2, 2, 3), **held(o3=1)}, 0),
                ("in another green zone", {2: GREEN, **driver_in(2, 2, 3), **held(o3=1)}, 0),
                ("in a green zone, and it leaves another", {1: PLAIN, 2: GREEN, **driver_in(2, 2, 3), **held(o3=1)}, 0),
                ("in none", {**driver_in(2, 0, 3), **held(o3=1)}, 0), ("a device's", held(o10=1), 20)):
            yield f"20: code {code}, named by a descriptor, {name}", line, {**ALL_IN, **area}, record, answer
        six = staying([(8, 1, 0)] * (MOST_ENTRIES - 1) + [(data, 1, 0)])
        yield f"20: code {code}, named by the last of six entries", six, {**ALL_IN, **held(o3=1)}, record, 20
        others = staying([(n, 3, 0) for n in (4, 5, 6) if n != data])
        yield f"20: code {code}, others are named", others, {**ALL_IN, **held(o3=1)}, record, 0


def together(_):
    """What names it leaves with it."""
    for record, data, own in (([10, 1], 4, 7), ([11, 1], 5, 9), ([12, 1, 2, 6, 8], 6, 8), ([12, 1, 2, 8, 6], 6, 8)):
        area = {**ALL_IN, record_at(own) + FIRST: 1}
        label = f"20: {' '.join(map(str, record))}, what names it leaves with it"
        yield label, staying([(data, 3, 0)]), area, record, 0
        yield f"{label}, and one stays", staying([(data, 3, 0)]), {**area, **held(o3=1)}, record, 20
        yield f"{label}, the descriptor is named", staying([(own, 1, 0)]), {**ALL_IN, **held(o3=1)}, record, 20
    yield "20: 12 1 1 6, an external one stays", staying([(6, 1, 0)]), {**ALL_IN, **held(o8=1)}, [12, 1, 1, 6], 20
    own = staying([(9, 1, 0), (5, 2, 0)], hardcoded=(1, 0))
    yield "20: a device leaves with what its hardcoded value names", own, {**ALL_IN, **held(o1=1)}, [11, 1], 0
    for name, change, answer in (("16", objects_in(0, 6), 16), ("17", objects_in(2, 6), 17)):
        area = {**ALL_IN, **held(o3=1), **change}
        yield f"{name} before 20 in a green zone", staying([(6, 1, 0)]), area, [12, 1, 1, 6], answer


def reached(_):
    """Device 2 reads its object 10. By value 2 it puts value 3, which names object 6, into object 8 and reads that."""
    line = staying([(10, 1, 0)], [(8, 3, 3)], [(6, 1, 0)], hardcoded=(0, 1))
    for name, values, answer in (("by reach alone", held(o10=2), 20), ("by both", held(o10=3), 20),
                                 ("by what stays alone", held(o3=3), 20), ("by none", {}, 0)):
        area = {**ALL_IN, **held(o2=1), **values}
        yield f"20: {name}", line, area, [12, 1, 1, 6], answer
        plain = 0 if name == "by what stays alone" else answer
        yield f"20: {name}, not green", line, {**area, 1: PLAIN}, [12, 1, 1, 6], plain


def eight_leave(_):
    """Eight external objects of data and an external descriptor, whose value 1 names the last of them."""
    last, holder = MOST_ITEMS, MOST_ITEMS + 1
    line = [1, 0, 0, holder, 2] + [3, 0, 0] * last + [1, 0, 0, 1, last, 1, 0, 1, 1, 1, 0]
    area = {1: GREEN, **objects_in(1, *range(1, holder + 1))}
    eight_objects = [12, 1, last, *range(1, last + 1)]
    for value, name, answer in ((0, "nobody names", 0), (1, "the last is named", 20), (2, "the first is named", 20)):
        yield f"20: eight leave, {name}", line, {**area, record_at(holder) + FIRST: value}, eight_objects, answer
    leaves = [12, 1, last, *range(1, last), holder]
    for value, name in ((1, "another, which stays"), (2, "the first")):
        label = f"20: eight leave, and the last, a descriptor, names {name}"
        yield label, line, {**area, record_at(holder) + FIRST: value}, leaves, 0
    yield "20: the last, which stays, names none of seven", line, {**area, record_at(holder) + FIRST: 1}, [
        12, 1, last - 1, *range(1, last)], 0


def wide_calls():
    """Objects 191 and 192 are a driver's descriptors, the others data. Value 1 names object 130, which by its number
    modulo 128 would be object 2; value 2 names that."""
    last = MOST_OBJECTS
    line = row([1, 1, 0, last, 2] + [3, 0, 0] * (last - 2) + [1, 1, 1] * 2 + [1, 130, 3, 0, 1, 2, 3, 0])
    base = {1: GREEN, **driver_in(1, 1, last - 1, last)}
    far, near = objects_in(1, 130), objects_in(1, 2)
    write, copy = [1, 1, 1, last, 0, 1], [3, 1, 1, last - 1, last]
    source, kept = record_at(last - 1) + FIRST, record_at(last) + FIRST
    for name, area, record, answer in (
            ("130 is named, which is in none", near, write, 22), ("130 is named, which is in the zone", far, write, 0),
            ("130 is named by what is copied, which is in none", {**near, source: 1}, copy, 22),
            ("130 is named by what is copied, which is in the zone", {**far, source: 1}, copy, 0),
            ("what stays names it", {**far, **near, kept: 1}, [12, 1, 1, 130], 20),
            ("what stays names 2", {**far, **near, kept: 2}, [12, 1, 1, 130], 0),
            ("what stays names 130", {**far, **near, kept: 1}, [12, 1, 1, 2], 0),
            ("the driver leaves with what names 130", {**far, kept: 1}, [10, 1], 0)):
        yield f"green, 192 objects: {name}", line, WIDE_AREA, {**base, **area}, row(record), answer
    ring = row([1, 0, 1, 97, 1, 4, 2, 1] + [3, 0, 0] * 95 + [1, 2, 1, 1, 1, 97, 3, 0])
    for name, standing, answer in (("green", GREEN, 22), ("not green", PLAIN, 0)):
        yield f"{name}, 97 objects: a ring", ring, WIDE_AREA, {1: standing, **held(o1=1)}, row([8, 1, 1]), answer


def calls(line_l):
    """Label, file, the area's length, its bytes by their places, the record, answer."""
    for named in (sessions, clauses, entries, items, copies, eight, unsearched, by_devices, entering, strict, together,
                  reached, eight_leave):
        for label, line, area, record, stated in named(line_l):
            yield label, row(line), AREA, area, row(record), stated
    yield from wide_calls()
