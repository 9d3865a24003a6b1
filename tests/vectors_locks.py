"""Stored cases of request N6, lock-out, for tests/vectors.py: the request's session as operations on the areas that it
leads to, question 23 by each of its codes and between the others, records of codes 14 and 15, areas of the older
lengths, and areas that break a rule of the lock bytes, which also state the first bad record: none, for the walk does
not look at them. Answers are stated from the papers; nothing here looks at a lock. (vectors_wide.py has the areas whose
length is a byte off.)"""
from layout import (AREA, DRIVERS_FROM, LOCKS_FROM, MOST_DEVICES, SMALL_ROOM, WIDE_AREA, WIDE_LOCKS_FROM, area_of,
                    locks_from, record_at, row)
from vectors_first import BROKEN, WELL
from vectors_green import DESTROYED, FRESH_L, GREEN, PLAIN, driver_in, held, objects_in, session
from vectors_rings import inside, with_entry
from vectors_wide import data
from vectors_write import refused

LOCK, UNLOCK, ENTER, LEAVE = 14, 15, 8, 11
# A short record for each of the two.
SHORT_LOCKS = {LOCK: [LOCK, 1], UNLOCK: [UNLOCK, 1]}
LOCKED = 1
FAR = 2000
# As many devices as there may be, each with its hardcoded descriptor and nothing else, on a small line and a wide one.
ALL = range(1, MOST_DEVICES + 1)
FULL = [1, 0, MOST_DEVICES, MOST_DEVICES, 0] + sum(([4, 2, c] for c in ALL), []) + [0] * MOST_DEVICES
WIDE_FULL = [1, 0, MOST_DEVICES, SMALL_ROOM + 1, 0] + FULL[5:5 + 3 * MOST_DEVICES]
WIDE_FULL += [3, 0, 0] * (SMALL_ROOM + 1 - MOST_DEVICES) + [0] * MOST_DEVICES


def objects_of(line):
    """How many objects a line has whose counts have one byte each."""
    return line[3]


def locked(line, *devices):
    """The lock bytes of these devices, where the line's area has them."""
    return {locks_from(objects_of(line)) + c - 1: LOCKED for c in devices}


def example(line_l):
    """The request's session."""
    on, off = locked(line_l, 1), {LOCKS_FROM: 0}
    steps = [([LOCK, 1], 0, on), ([LOCK, 1], 23, {}), ([5, 1], 0, {1: PLAIN}), ([ENTER, 1, 1], 23, {}),
             ([ENTER, 1, 9], 14, {}), ([UNLOCK, 1], 0, off), ([UNLOCK, 1], 23, {}),
             ([ENTER, 1, 1], 0, inside(1, 1, 1, 2)), ([LOCK, 1], 16, {}), ([UNLOCK, 1], 16, {}), ([LOCK, 3], 11, {}),
             ([LOCK, 0], 11, {}), ([LEAVE, 1], 0, inside(1, 0, 1, 2)), ([LOCK, 1], 0, on)]
    yield from session("locks, L", line_l, FRESH_L, steps)


def between(line_l):
    """Question 23 among the others: behind 9, 10, 11, 14 and 16, before 22 and 21; and a lock is one device's alone."""
    on, second, in_two = locked(line_l, 1), locked(line_l, 2), inside(2, 1, 3, 4)
    for name, area, record, answer in (
            ("14 before 23, destroyed", {**on, 1: DESTROYED}, [ENTER, 1, 1], 14),
            ("14 before 16", inside(1, 2, 1, 2), [ENTER, 1, 9], 14), ("11 before 23", on, [ENTER, 1, 64], 11),
            ("11 before 23, partition 0", on, [ENTER, 1, 0], 11), ("10 before 23", on, [ENTER, 1, 1, 1], 10),
            ("16 before 23, code 8", {**second, **inside(1, 2, 1, 2)}, [ENTER, 1, 1], 16),
            ("16 before 23, code 15", {**second, **inside(1, 1, 1, 2)}, [UNLOCK, 1], 16),
            ("16 before 23, code 14", {**second, **inside(1, 1, 1, 2)}, [LOCK, 1], 16),
            ("another is locked: device 2 comes in", on, [ENTER, 2, 1], 0),
            ("another is locked: device 2 is locked too", on, [LOCK, 2], 0),
            ("another is locked: device 2 is not unlocked", on, [UNLOCK, 2], 23),
            ("another is locked: device 1 comes in", second, [ENTER, 1, 2], 0),
            ("both are locked: device 2 does not come in", {**on, **second}, [ENTER, 2, 2], 23),
            ("both are locked: device 2 is unlocked", {**on, **second}, [UNLOCK, 2], 0),
            ("another is active: device 1 is locked", in_two, [LOCK, 1], 0),
            ("another is active: device 1 is unlocked", {**on, **in_two}, [UNLOCK, 1], 0),
            ("another is active: device 1 does not come in", {**on, **in_two}, [ENTER, 1, 1], 23)):
        yield f"locks: {name}", line_l, {1: PLAIN, 2: PLAIN, **FRESH_L, **area}, record, answer
    ring = with_entry(line_l, 2, 3, 3)
    for name, standing, without in (("22, in a green zone", GREEN, 22), ("21, a ring leads out", PLAIN, 21)):
        for area, answer in ((on, 23), (second, without)):
            label = f"locks: {'23 before' if answer == 23 else 'another is locked:'} {name}"
            yield label, ring, {1: standing, **FRESH_L, **area}, [ENTER, 1, 1], answer


def led_out(line_l):
    """Device 2 is in 1 and gets to object 2, device 1's, which no list of calls leads to. Nothing is searched for where
    a device is locked or unlocked, nor where a locked one is to come in."""
    on, out = locked(line_l, 1), {1: PLAIN, 2: PLAIN, **FRESH_L, **inside(2, 1, 3, 4), **held(o4=5)}
    for name, area, record, answer in (
            ("23 before 21", on, [ENTER, 1, 2], 23), ("device 1 is locked", {}, [LOCK, 1], 0),
            ("device 1 is unlocked", on, [UNLOCK, 1], 0)):
        yield f"locks: {name}, another device is led out", line_l, {**out, **area}, record, answer


def others(line_l):
    """No other code looks at a lock: what a locked device would do is stopped by 16, and the rest is done."""
    area = {1: PLAIN, **FRESH_L, **locked(line_l, 1), **driver_in(1, 1, 6)}
    for name, change, record, answer in (
            ("writes", {}, [2, 1, 1, 2, 0, 1], 16), ("reads", {}, [4, 1, 1, 2, 0], 16), ("leaves", {}, [LEAVE, 1], 16)):
        yield f"locks: a locked device {name}", line_l, {**area, **change}, record, answer
    for name, change, record, answer in (
            ("a partition is created", {}, [5, 2], 0), ("a green zone is created", {}, [13, 2], 0),
            ("a partition is destroyed", {2: PLAIN, **locked(line_l, 2)}, [6, 2], 0),
            ("a partition is not empty", {}, [6, 1], 15),
            ("driver 2 and not device 2 comes in", locked(line_l, 2), [7, 2, 1], 0),
            ("a driver leaves", {}, [10, 1], 0),
            ("a driver writes", {}, [1, 1, 1, 6, 1] + [7] * 16, 0), ("a driver reads", {}, [3, 1, 1, 6, 0], 0),
            ("an object comes in", {}, [9, 1, 1, 5], 0), ("an object leaves", objects_in(1, 5), [12, 1, 1, 5], 0),
            ("another device leaves", inside(2, 1, 3, 4), [LEAVE, 2], 0)):
        yield f"locks: {name} while device 1 is locked", line_l, {**area, **change}, record, answer
    # Driver 1 is active: it is not device 1, and stays where it is.
    without = {**area, LOCKS_FROM: 0}
    yield "locks: device 1 is locked while driver 1 is active", line_l, without, [LOCK, 1], 0
    yield "locks: device 1 is unlocked while driver 1 is active", line_l, area, [UNLOCK, 1], 0


def in_rooms(line, name):
    """The last of sixteen devices, in a room."""
    last = MOST_DEVICES
    for label, area, record, answer in (
            ("lock the last", {}, [LOCK, last], 0), ("lock the last again", locked(line, last), [LOCK, last], 23),
            ("unlock the last", locked(line, last), [UNLOCK, last], 0),
            ("the last comes in, all but it locked", locked(line, *ALL[:-1]), [ENTER, last, 1], 0),
            ("the last does not come in", locked(line, last), [ENTER, last, 1], 23)):
        yield f"locks, {name}: {label}", line, {1: PLAIN, **area}, record, answer


def in_one_room():
    """More of sixteen devices on a small line; and of those of a wide one, where object 97 has its record in the place
    of a small line's lock bytes."""
    last = MOST_DEVICES
    for label, area, record, answer in (
            ("lock the first", {}, [LOCK, 1], 0), ("one behind the last", {}, [LOCK, last + 1], 11),
            ("unlock the last, all but it locked", locked(FULL, *ALL[:-1]), [UNLOCK, last], 23),
            ("lock the last, all but it locked", locked(FULL, *ALL[:-1]), [LOCK, last], 0)):
        yield f"locks, 16 devices: {label}", FULL, {1: PLAIN, **area}, record, answer
    there = {record_at(SMALL_ROOM + 1): 1, record_at(SMALL_ROOM + 1) + 1: LOCKED}
    for record, answer in (([ENTER, 1, 1], 0), ([UNLOCK, 1], 23), ([LOCK, 2], 0)):
        label = f"locks, object 97 is in 1: {' '.join(map(str, record))}"
        yield label, WIDE_FULL, {1: PLAIN, **there}, record, answer


def named(line_l):
    """Records of both codes as operations: how many numbers, and which devices."""
    for code, area in ((LOCK, FRESH_L), (UNLOCK, {**FRESH_L, **locked(line_l, 1)})):
        for name, record, answer in (
                ("a second number", [code, 1, 1], 10), ("no number", [code], 10),
                ("a byte left over", [code, 1, 0], 10), ("device 0", [code, 0], 11),
                ("device 17", [code, MOST_DEVICES + 1], 11), ("device 257, 1 modulo 256", [code, 257], 11),
                ("device 2,000", [code, FAR], 11)):
            yield f"code {code}, {name}", line_l, area, record, answer
    for code in (16, 17):
        yield f"code {code} is unknown", line_l, FRESH_L, [code, 1], 10


def lengths(line_l):
    """Areas of the lengths of before, a byte less and a byte more, and of those of now."""
    for length in (LOCKS_FROM - 1, LOCKS_FROM, LOCKS_FROM + 1, AREA, WIDE_LOCKS_FROM, WIDE_AREA):
        yield f"locks, L in {length} bytes", line_l, length, FRESH_L, [LOCK, 1], 0 if length == AREA else 7
    wide = [1, 0, 1, SMALL_ROOM + 1, 0, 4, 2, 1] + [3, 0, 0] * SMALL_ROOM + [0]
    for length in (WIDE_LOCKS_FROM - 1, WIDE_LOCKS_FROM, WIDE_LOCKS_FROM + 1, WIDE_AREA):
        yield f"locks, 97 objects in {length} bytes", wide, length, {}, [LOCK, 1], 0 if length == WIDE_AREA else 7


def calls(line_l):
    """Label, file, the area's length, its bytes by their places, the record, answer."""
    for group in (example, between, led_out, others, named):
        for label, line, area, record, stated in group(line_l):
            yield label, row(line), AREA, area, row(record), stated
    for line, name in ((FULL, "16 devices"), (WIDE_FULL, "16 devices and 97 objects")):
        for label, _, area, record, stated in in_rooms(line, name):
            yield label, row(line), area_of(objects_of(line)), area, row(record), stated
    for label, line, area, record, stated in in_one_room():
        yield label, row(line), area_of(objects_of(line)), area, row(record), stated
    for label, line, length, area, record, stated in lengths(line_l):
        yield label, row(line), length, area, row(record), stated
    yield from refused_by_nine(line_l)


def refused_by_nine(line_l):
    """A lock on an active device is no 23, whatever is asked for."""
    area = {1: PLAIN, 2: PLAIN, **FRESH_L, **inside(1, 1, 1, 2), **locked(line_l, 1)}
    for record in ([LOCK, 1], [UNLOCK, 1], [ENTER, 1, 1], [LEAVE, 1], [LOCK, 2], [5, 3], [6, 2], []):
        text = " ".join(map(str, record)) or "an empty record"
        yield f"9: an active device is locked, {text}", row(line_l), AREA, area, row(record), 9


def records():
    """Records by question 10 alone: label, bytes, answer."""
    for code in (LOCK, UNLOCK):
        for device in (0, 1, MOST_DEVICES, MOST_DEVICES + 1, FAR, 65535):
            yield f"10: code {code}, device {device}", row([code, device]), 0
        yield f"10: code {code}, device 65,536", row([code, 65536]), 0
        for name, record in (("cut after 1 bytes", row([code])), ("cut in its device", row([code]) + b"\x81"),
                             ("a byte left over", row([code, 1]) + b"\0"), ("a second device", row([code, 1, 2])),
                             ("a device in two bytes", bytes([code, 0x81, 0])),
                             ("the code in two bytes", bytes([code + 128, 0, 1]))):
            yield f"10: code {code}, {name}", record, 10
    for code in (16, 17, 128 + LOCK):
        yield f"10: code {code} is unknown", row([code, 1]), 10


def rules(line, active):
    """Lock bytes of a line: what stands where, and the answer to an empty record. `active` is a device that is in 1."""
    first, last = locks_from(objects_of(line)), area_of(objects_of(line)) - 1
    present = line[2]
    for byte in (1, 2, 255):
        for c in sorted({1, present}):
            # An active device's byte may not be 1 either.
            answer = WELL if byte == LOCKED and c != active else BROKEN
            yield f"the lock byte of device {c} is {byte}", {first + c - 1: byte}, answer
    if present < MOST_DEVICES:
        for place in (first + present, last):
            yield f"the lock byte of device {place - first + 1}, which is absent", {place: LOCKED}, BROKEN


def broken(line_l):
    """Label, line, the area's bytes, and the answer to an empty record."""
    last = MOST_DEVICES
    for name, line, active, area in (
            ("L", line_l, 0, FRESH_L), ("L, device 1 in 1", line_l, 1, {**FRESH_L, **inside(1, 1, 1, 2)}),
            ("L, device 2 in 1", line_l, 2, {**FRESH_L, **inside(2, 1, 3, 4)}), ("16 devices", FULL, 0, {}),
            ("16 devices, the last in 1", FULL, last, inside(last, 1, last))):
        for label, change, answer in rules(line, active):
            yield f"{name}: {label}", line, {1: PLAIN, **area, **change}, answer
    yield from in_between(line_l)
    # Each by itself, for they are looked at eight at a time, and then one after the other.
    for c in ALL:
        yield f"no device: lock byte {c}", data(0), locked(data(0), c), BROKEN
    for byte in (2, 255):
        yield f"no device: lock byte 1 is {byte}", data(0), {LOCKS_FROM: byte}, BROKEN
    for name, area, answer in (
            ("the last is locked", locked(WIDE_FULL, last), WELL),
            ("the last lock byte is 2", {WIDE_AREA - 1: 2}, BROKEN),
            ("the first lock byte is 255", {WIDE_LOCKS_FROM: 255}, BROKEN),
            ("the last is locked and active", {**inside(last, 1, last), **locked(WIDE_FULL, last)}, BROKEN)):
        yield f"16 devices and 97 objects: {name}", WIDE_FULL, {1: PLAIN, **area}, answer
    yield "97 objects, no device: the last lock byte", data(SMALL_ROOM + 1), {WIDE_AREA - 1: LOCKED}, BROKEN


def in_between(line_l):
    """Devices that are neither the first nor the last, and zones other than a plain partition 1."""
    odd, even = ALL[::2], ALL[1::2]
    active = {place: byte for c in odd for place, byte in inside(c, 1, c).items()}
    yield "16 devices: the odd ones in 1, the even ones locked", FULL, {1: PLAIN, **active, **locked(FULL, *even)}, WELL
    middle = MOST_DEVICES // 2
    for c in (middle, middle + 1):
        yield f"16 devices: {c} is locked and active", FULL, {1: PLAIN, **inside(c, 1, c), **locked(FULL, c)}, BROKEN
    for name, p, standing in (("in 2", 2, PLAIN), ("in a green zone", 1, GREEN), ("in 63", 63, PLAIN)):
        area = {p: standing, **FRESH_L, **inside(1, p, 1, 2), **locked(line_l, 1)}
        yield f"L: device 1 is locked and {name}", line_l, area, BROKEN


def first_bad(line_l):
    """Label, file, the area's length, its bytes by their places, what is told, and the answer to an empty record."""
    for label, line, area, answer in broken(line_l):
        yield f"locks, {label}", row(line), area_of(objects_of(line)), area, 0, answer
    spoilt = {LOCKS_FROM: 2, AREA - 1: LOCKED}
    for label, change, place in (("object 2", {record_at(2): 9}, 2),
                                 ("the last record", {LOCKS_FROM - 1: 1}, SMALL_ROOM),
                                 ("a driver", {DRIVERS_FROM: 9, record_at(6): 9}, 6)):
        yield f"locks, and {label}", row(line_l), AREA, {**FRESH_L, **spoilt, **change}, place, BROKEN
    for objects, length in ((0, LOCKS_FROM), (SMALL_ROOM + 1, WIDE_LOCKS_FROM)):
        yield f"{objects} objects in {length} bytes", row(data(objects)), length, {}, refused(7), 7


def fresh(line_l):
    """A fresh state over an area full of other bytes, by its length: label, file, length, answer."""
    for name, line, length, answer in (
            ("L", line_l, AREA, 0), ("16 devices", FULL, AREA, 0),
            ("16 devices and 97 objects", WIDE_FULL, WIDE_AREA, 0), ("L", line_l, LOCKS_FROM - 1, 7),
            ("L", line_l, LOCKS_FROM, 7), ("L", line_l, LOCKS_FROM + 1, 7),
            ("97 objects", data(SMALL_ROOM + 1), WIDE_LOCKS_FROM, 7)):
        text = f"of {length} bytes" if answer else "whose lock bytes are not 0"
        yield f"fresh: {name} in an area {text}", row(line), length, answer
