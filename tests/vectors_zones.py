"""Stored cases of request N5 that are not about the green rule, for tests/vectors.py: what a standing of 3 lets pass,
records of code 13, and areas with green zones by question 9, which also states the first bad record. Answers are stated
from the papers."""
from layout import (AREA, DEVICES_FROM, DRIVERS_FROM, MOST_OBJECTS, PARTITIONS, WIDE_AREA, record_at, row)
from vectors_first import BROKEN, DEVICES, DEVICES_AREA, EXTERNAL, HEAD, HEAD_AREA, HOUSE, HOUSE_AREA, STATUSES, WELL
from vectors_green import DESTROYED, FRESH_L, GREEN, PLAIN, driver_in, objects_in
from vectors_rings import inside

# A partition, and the last one; standings that there are not: the least, two that end in the bits of 3, the largest.
SOME, LAST = 7, PARTITIONS - 1
NO_STANDINGS = (4, 7, 131, 255)


def creating(line_l):
    """Codes 5 and 13 on a partition of every standing, and code 13 with every kind of partition number."""
    for code in (5, 13):
        for standing, answer in ((0, 0), (PLAIN, 14), (DESTROYED, 14), (GREEN, 14), (4, 9)):
            yield f"code {code} on a standing of {standing}", line_l, {SOME: standing}, [code, SOME], answer
    for partition, answer in ((LAST, 0), (0, 11), (PARTITIONS, 11), (70, 11), (65535, 11)):
        yield f"code 13 with partition {partition}", line_l, {}, [13, partition], answer
    # Unknown until request N6: lock and unlock a card.
    for code, answer in ((14, 0), (15, 23)):
        yield f"code {code} on a fresh state", line_l, {}, [code, 1], answer
    yield "code 13, a byte left over", line_l, {}, [13, 1, 0], 10
    yield "code 13 with two partitions", line_l, {}, [13, 1, 2], 10


def existing(line_l):
    """A green zone exists for every other code that names one."""
    zone, data = {1: GREEN}, objects_in(1, 5)
    for name, area, record, answer in (
            ("destroyed, empty", {}, [6, 1], 0), ("destroyed, a driver in it", driver_in(2, 1), [6, 1], 15),
            ("destroyed, a device in it", inside(1, 1, 1, 2), [6, 1], 15),
            ("destroyed, an object in it", data, [6, 1], 15), ("destroyed again", {1: DESTROYED}, [6, 1], 14),
            ("a driver comes in", {}, [7, 1, 1], 0), ("a device comes in", {}, [8, 2, 1], 0),
            ("an object comes in", {}, [9, 1, 1, 5], 0), ("an object leaves", data, [12, 1, 1, 5], 0),
            ("a driver leaves", driver_in(1, 1, 6), [10, 1], 0), ("a device leaves", inside(1, 1, 1, 2), [11, 1], 0)):
        yield f"a green zone: {name}", line_l, {**zone, **area}, record, answer
    last = {LAST: GREEN, **objects_in(LAST, 5)}
    yield "the last partition, green: an object leaves", line_l, last, [12, LAST, 1, 5], 0


def calls(line_l):
    """Label, file, the area's length, its bytes by their places, the record, answer."""
    for named in (creating, existing):
        for label, line, area, record, stated in named(line_l):
            yield label, row(line), AREA, {**FRESH_L, **area}, row(record), stated


def records():
    """Records by question 10 alone: label, bytes, answer."""
    for partition in (0, 1, LAST, PARTITIONS, 70, 65535):
        yield f"10: code 13, partition {partition}", row([13, partition]), 0
    yield "10: code 13, partition 65,536", row([13, 65536]), 0
    yield "10: code 13, cut after 1 bytes", row([13]), 10
    yield "10: code 13, cut in its partition", row([13]) + b"\x81", 10
    yield "10: code 13, a byte left over", row([13, 1]) + b"\0", 10
    yield "10: code 13, a partition in two bytes", row([13]) + bytes([0x81, 0]), 10
    yield "10: code 13 in two bytes", bytes([0x8D, 0, 1]), 10
    for code, answer in ((14, 0), (15, 0), (141, 10)):
        yield f"10: code {code}", row([code, 1]), answer


def standings():
    """Status bytes: by themselves, and where nobody's byte can be green, at place 0."""
    for place in (4, LAST):
        for standing in (GREEN, *NO_STANDINGS):
            answer = WELL if standing == GREEN else BROKEN
            yield f"a standing of {standing} at place {place}", HEAD, {**HEAD_AREA, place: standing}, 0, answer
    for standing in (GREEN, 4):
        yield f"a standing of {standing} at place 0", HEAD, {**HEAD_AREA, 0: standing}, 0, BROKEN


def named_by():
    """Partition bytes that name a partition of standing 3, also where another byte before the records breaks a rule, or
    of a standing that there is not; what is in 1 is a driver that owns nothing, a driver and its objects, a device and
    its objects, or an external object."""
    for name, line, area, place in (
            ("a driver that owns nothing", [1, 1, 0, 0, 0], {DRIVERS_FROM: 1}, 0),
            ("a driver and its objects", HOUSE, HOUSE_AREA, 2), ("a device and its objects", DEVICES, DEVICES_AREA, 1),
            ("an external object", EXTERNAL, {record_at(2): 1}, 2)):
        yield f"{name} in a green zone", line, {**area, 1: GREEN}, 0, WELL
        yield f"{name} in a green zone, and another is broken", line, {**area, 1: GREEN, SOME: 4}, 0, BROKEN
        for standing in NO_STANDINGS[:3]:
            yield f"{name} in a zone of standing {standing}", line, {**area, 1: standing}, place, BROKEN
    green = {1: GREEN, 3: GREEN}
    for name, line, area, place in (("driver", HOUSE, {**HOUSE_AREA, DRIVERS_FROM: 3}, 2),
                                    ("device", DEVICES, {**DEVICES_AREA, DEVICES_FROM: 3}, 1)):
        yield f"a {name} in another green zone than its objects", line, {**area, **green}, place, BROKEN


def formed():
    """An area of L in use, with another standing for its first partition: label, the byte, answer."""
    for standing in (GREEN, *NO_STANDINGS):
        yield f"9: what is in use is in a zone of standing {standing}", {1: standing}, 0 if standing == GREEN else 9


def first_bad():
    """Label, file, the area's length, its bytes by their places, what is told, and the answer to an empty record."""
    for named in (standings(), named_by()):
        for label, line, area, place, answer in named:
            yield label, row(line), AREA, {**STATUSES, **area}, place, answer
    wide = row([1, 0, 0, MOST_OBJECTS, 0] + [3, 0, 0] * MOST_OBJECTS)
    for standing, place, answer in ((GREEN, 0, WELL), (4, MOST_OBJECTS, BROKEN)):
        yield (f"{MOST_OBJECTS} objects, the last in a zone of standing {standing}", wide, WIDE_AREA,
               {LAST: standing, record_at(MOST_OBJECTS): LAST}, place, answer)
