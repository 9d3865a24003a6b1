"""Stored cases of request N3, the first bad object record of a state area, for tests/vectors.py: areas that break one
rule of 'Well formed', in a record, in the bytes before the records, or in both. A case states the place that is told,
and the answer to an operation whose record is empty: 10 where the area is well formed. Both are stated from the papers;
nothing here walks over an area."""
from layout import (AREA, CONTENT, DEVICES_FROM, DRIVERS_FROM, MOST_DEVICES, MOST_DRIVERS, MOST_OBJECTS, PARTITIONS,
                    RECORD, SMALL_ROOM, WIDE_AREA, area_of, locks_from, record_at, row)
from vectors_wide import MOST_AREA, NO_CASE, data
from vectors_write import refused

WELL, BROKEN = 10, 9
# In every area below partition 1 exists, 2 is destroyed, 3 exists too, and the others were never used.
STATUSES = {1: 1, 2: 2, 3: 1}
FIRST, LAST = 1, CONTENT
# A byte behind the value, by the object whose it is: the eighth of the contents, and the ninth.
BEHIND = {1: FIRST + 7, 3: FIRST + 8}


def small(label, line, area, place):
    """A case of a small line, broken if a record is."""
    return label, row(line), AREA, {**STATUSES, **area}, place, BROKEN if place else WELL


# Three external objects, and a driver in partition 1 that owns none. Its byte stands where the status of a partition 64
# would, and the byte of object 1, which is in 1 too, where that of a partition 96 would.
EXTERNAL = [1, 1, 0, 3, 0] + [3, 0, 0] * 3
EXTERNAL_AREA = {DRIVERS_FROM: 1, record_at(1): 1}


def partitions():
    """The partition byte of an external object names no existing partition."""
    yield small("external objects, in 1 and in none", EXTERNAL, EXTERNAL_AREA, 0)
    yield small("external objects, in 1 and in 3", EXTERNAL, {**EXTERNAL_AREA, record_at(3): 3}, 0)
    for n in (1, 3):
        for partition, name in ((2, "destroyed"), (4, "never used"), (PARTITIONS, "no partition"),
                                (255, "no partition")):
            area = {**EXTERNAL_AREA, record_at(n): partition}
            yield small(f"object {n} of 3 in {partition}, {name}", EXTERNAL, area, n)
    yield small("object 3 of 3 in 96, no partition", EXTERNAL, {**EXTERNAL_AREA, record_at(3): record_at(1)}, 3)


# Three transfer descriptors of a driver, which is in 1. There are two values: no other count is as many.
K = 2
OWNED = [1, 1, 0, 3, K] + [1, 1, 1] * 3 + [0] * K
OWNED_AREA = {DRIVERS_FROM: 1, record_at(1): 1, record_at(2): 1, record_at(3): 1}


def owned():
    """A driver's object is elsewhere than its driver; kind 1 holds no value number."""
    yield small("a driver's objects, where it is", OWNED, OWNED_AREA, 0)
    yield small("a driver's objects, in none with it", OWNED, {}, 0)
    for n in (1, 3):
        at = record_at(n)
        yield small(f"object {n} of 3 holds value K", OWNED, {**OWNED_AREA, at + FIRST: K}, 0)
        for name, change in (("in none, its driver in 1", {at: 0}), ("in 3, its driver in 1", {at: 3}),
                             ("holds value K + 1", {at + FIRST: K + 1}),
                             ("has a byte behind its value", {at + BEHIND[n]: 1}),
                             ("has a last byte behind its value", {at + LAST: 1})):
            yield small(f"object {n} of 3 {name}", OWNED, {**OWNED_AREA, **change}, n)
        yield small(f"object {n} of 3 in 1, its driver in none", OWNED, {at: 1}, n)
        yield small(f"object {n} of 3 in none holds value K + 1", OWNED, {at + FIRST: K + 1}, n)


# A device in 1 with its hardcoded descriptor and another one, and a device in 3 with its hardcoded descriptor; both
# have value 1 of two.
DEVICES = [1, 0, 2, 3, 2, 4, 2, 1, 1, 2, 1, 4, 2, 2, 1, 1, 0, 0]
HELD = {record_at(1) + FIRST: 1, record_at(3) + FIRST: 1}
DEVICES_AREA = {DEVICES_FROM: 1, DEVICES_FROM + 1: 3, record_at(1): 1, record_at(2): 1, record_at(3): 3, **HELD}


def devices():
    """A device's object is elsewhere than its device; kind 4 holds another value than the file's."""
    yield small("devices' objects, where they are", DEVICES, DEVICES_AREA, 0)
    yield small("a fresh state", DEVICES, HELD, 0)
    yield small("object 2 of 3 where the other device is", DEVICES, {**DEVICES_AREA, record_at(2): 3}, 2)
    for n, other in ((1, 3), (3, 1)):
        at = record_at(n)
        for name, change in (("where the other device is", {at: other}), ("in none, its device in one", {at: 0}),
                             ("is hardcoded and holds 0", {at + FIRST: 0}),
                             ("is hardcoded and holds another value", {at + FIRST: 2}),
                             ("is hardcoded, with a byte behind", {at + BEHIND[n]: 1}),
                             ("is hardcoded, with a last byte behind", {at + LAST: 1})):
            yield small(f"object {n} of 3 {name}", DEVICES, {**DEVICES_AREA, **change}, n)
        yield small(f"object {n} of 3 in none is hardcoded and holds 0", DEVICES, {**HELD, at + FIRST: 0}, n)


def free():
    """Contents of kinds 2 and 3 are free, in a partition and in none."""
    line = [1, 0, 0, 2, 0, 2, 0, 0, 3, 0, 0]
    full = {record_at(n) + i: 256 - i for n in (1, 2) for i in range(FIRST, LAST + 1)}
    yield small("kinds 2 and 3, any contents, in none", line, full, 0)
    yield small("kinds 2 and 3, any contents, in partitions", line, {**full, record_at(1): 1, record_at(2): 3}, 0)


def absent():
    """A record that is no object's has a byte."""
    for objects, line in ((3, EXTERNAL), (0, data(0))):
        for n in (objects + 1, SMALL_ROOM):
            at = record_at(n)
            for name, place in (("the partition", at), ("a byte", at + FIRST), ("the second byte", at + FIRST + 1),
                                ("the last byte", at + LAST)):
                yield small(f"{objects} objects, {name} of {n}", line, {place: 1}, n)


def twice():
    """Two records are broken, and the smaller number counts."""
    one, two, three, four, last = (record_at(n) for n in (1, 2, 3, 4, SMALL_ROOM))
    for name, change, place in (
            ("objects 1 and 3", {one: 3, three: 3}, 1), ("objects 2 and 3", {two + LAST: 1, three + FIRST: K + 1}, 2),
            ("object 3 and the next record", {three: 2, four: 1}, 3),
            ("object 1 and the last record", {one + FIRST: K + 1, last + LAST: 1}, 1),
            ("the next record and the last", {four + LAST: 1, last: 1}, 4),
            ("partition and contents of object 2", {two: 0, two + FIRST: K + 1}, 2)):
        yield small(f"two faults: {name}", OWNED, {**OWNED_AREA, **change}, place)


# Two drivers, one device with its hardcoded descriptor, and an external object. The second driver owns nothing.
HEAD = [1, 2, 1, 2, 0, 4, 2, 1, 3, 0, 0, 0]
HEAD_AREA = {DRIVERS_FROM + 1: 1, DEVICES_FROM: 1, record_at(1): 1, record_at(2): 3}


def head():
    """The bytes before the records break a rule of their own, and no record breaks one: no place, and yet 9. A device
    has always a hardcoded descriptor, which would be broken with its own byte: only absent ones break alone."""
    yield small("a driver that owns nothing", HEAD, HEAD_AREA, 0)
    owner, absent_driver, absent_device = DRIVERS_FROM + 1, DRIVERS_FROM + 2, DEVICES_FROM + 1
    for name, change in (
            ("status 0 is 1", {0: 1}), ("status 0 is 255, an object in none", {0: 255, record_at(2): 0}),
            ("a status of 3", {4: 3}),
            ("the last status is 255", {PARTITIONS - 1: 255}), ("a driver in 2, destroyed", {owner: 2}),
            ("a driver in 4, never used", {owner: 4}), ("a driver in 64", {owner: PARTITIONS}),
            ("an absent driver's byte", {absent_driver: 1}),
            ("the last driver's byte", {DRIVERS_FROM + MOST_DRIVERS - 1: 1}),
            ("an absent device's byte", {absent_device: 1}),
            ("the last device's byte", {DEVICES_FROM + MOST_DEVICES - 1: 1})):
        # 3 is the standing of a green zone (request N5).
        answer = WELL if change == {4: 3} else BROKEN
        yield f"before the records: {name}", row(HEAD), AREA, {**STATUSES, **HEAD_AREA, **change}, 0, answer
    change = {0: 1, DRIVERS_FROM + 2: 1, record_at(2): 4}
    yield small("before the records and object 2", HEAD, {**HEAD_AREA, **change}, 2)


# An external object in 3, and two objects of a driver in 1.
HOUSE = [1, 1, 0, 3, 0, 3, 0, 0, 3, 1, 1, 3, 1, 1]
HOUSE_AREA = {DRIVERS_FROM: 1, record_at(1): 3, record_at(2): 1, record_at(3): 1}


def last_owners():
    """Objects of the last driver and of the last device there may be, where these are: in the last partition."""
    hardcoded = MOST_DEVICES
    line = [1, MOST_DRIVERS, MOST_DEVICES, hardcoded + 1, 0]
    for n in range(1, hardcoded + 1):
        line += [4, 2, n]
    line += [3, 1, MOST_DRIVERS] + [0] * MOST_DEVICES
    last = PARTITIONS - 1
    area = {last: 1, DRIVERS_FROM: last, DRIVERS_FROM + MOST_DRIVERS - 1: last,
            DEVICES_FROM + MOST_DEVICES - 1: last, record_at(hardcoded): last, record_at(hardcoded + 1): last}
    yield small("objects of the last driver and device, in the last partition", line, area, 0)
    destroyed = {**STATUSES, DRIVERS_FROM + MOST_DRIVERS - 1: 2}
    label = "before the records: the last driver in 2, destroyed"
    yield label, row([1, MOST_DRIVERS, 0, 0, 0]), AREA, destroyed, 0, BROKEN


def with_head():
    """A record is broken because of the bytes before it."""
    for name, change, place in (
            ("the status of 1 is 2", {1: 2}, 2), ("the status of 1 is 0", {1: 0}, 2),
            ("the status of 1 is 3", {1: 3}, 0), ("the status of 3 is 2", {3: 2}, 1),
            ("the driver is in 3", {DRIVERS_FROM: 3}, 2),
            ("the driver is in 2, destroyed", {DRIVERS_FROM: 2}, 2), ("the driver is in none", {DRIVERS_FROM: 0}, 2),
            ("the driver is in 3, and object 2", {DRIVERS_FROM: 3, record_at(2): 3}, 3),
            ("the driver is in 2 with its objects", {DRIVERS_FROM: 2, record_at(2): 2, record_at(3): 2}, 2),
            ("the driver is in 64 with its objects", {DRIVERS_FROM: 64, record_at(2): 64, record_at(3): 64}, 2)):
        yield small(f"objects with their driver: {name}", HOUSE, {**HOUSE_AREA, **change}, place)
    yield small("objects with their device: the device is in 3", DEVICES, {**DEVICES_AREA, DEVICES_FROM: 3}, 1)
    moved = {DEVICES_FROM + 1: 2, record_at(3): 2}
    yield small("objects with their device: both are in 2", DEVICES, {**DEVICES_AREA, **moved}, 3)


def ends():
    """Lines that fill their room, and the least wide one: the last object is a transfer descriptor of a driver in 1,
    the others are external data."""
    for objects, places in (
            (SMALL_ROOM, {"as it is": 0, "its driver elsewhere": 96, "the last byte": 96}),
            (SMALL_ROOM + 1, {"as it is": 0, "object 1 in 2": 1, "its driver elsewhere": 97, "the next record": 98,
                              "the last byte": 192}),
            (MOST_OBJECTS, {"its driver elsewhere": 192, "the last byte": 192})):
        line = [1, 1, 0, objects, 0] + [3, 0, 0] * (objects - 1) + [1, 1, 1]
        length, last = area_of(objects), record_at(objects)
        changes = {"as it is": {}, "object 1 in 2": {record_at(1): 2}, "its driver elsewhere": {DRIVERS_FROM: 3},
                   "the next record": {last + RECORD: 1}, "the last byte": {locks_from(objects) - 1: 1}}
        for name, place in places.items():
            area = {**STATUSES, DRIVERS_FROM: 1, last: 1, **changes[name]}
            yield f"{objects} objects, {name}", row(line), length, area, place, BROKEN if place else WELL


def refusals():
    """A refused file comes before the area's length, and that before the rules."""
    no_hardcoded, others_named = DEVICES[:5] + [1] + DEVICES[6:], DEVICES[:-2] + [1, 3, 1, 0, 0]
    for question, line in ((1, row(DEVICES)[:-1]), (2, bytes([1, 0, 0, 255, 0, 0])), (3, row([1, 0, 0, 193, 0])),
                           (4, row(DEVICES) + b"\0"), (5, row(no_hardcoded)), (6, row(others_named))):
        yield f"a file refused by {question}", line, AREA - 1, {0: 1}, refused(question), question
    for objects, lengths in ((3, (0, AREA - 1, AREA + 1, WIDE_AREA, MOST_AREA)), (SMALL_ROOM + 1, (AREA,))):
        for length in lengths:
            yield f"{objects} objects in {length} bytes", row(data(objects)), length, {}, refused(7), 7
    yield "no case: a longer area than there is", row(data(0)), MOST_AREA + 1, {}, NO_CASE, 0


def cases():
    """Label, file, the area's length, its bytes by their places, what is told, and the operation's answer."""
    for named in (partitions(), owned(), devices(), free(), absent(), twice(), head(), last_owners(), with_head(),
                  ends(), refusals()):
        yield from named
