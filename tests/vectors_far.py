"""More stored cases of green zones (request N5), for tests/vectors.py: those that only another number, another place or
another code tells. Each was made for a fault of the code that no case before it told."""
from layout import AREA, MOST_OBJECTS, WIDE_AREA, record_at, row
from vectors_green import (ALL_IN, FIRST, FRESH_L, GREEN, LEAVING, PLAIN, READING, READING_HELD, ZONES, both, driver_in,
                           held, line_of, staying)
from vectors_rings import changed, inside

# The last value of a line, which is the 47th: 46 without entries come before it.
BEFORE_LAST = [[]] * 46


def leaving(_):
    """What leaves is named by the last value, by the first of six entries, by data that look like a value; and the zone
    is that of the device that leaves."""
    for name, area, record, answer in (
            ("20: the last of 47 values names what leaves", {**ALL_IN, **held(o3=47)}, [12, 1, 1, 6], 20),
            ("20: the value before the last of 47 is held", {**ALL_IN, **held(o3=46)}, [12, 1, 1, 6], 0)):
        yield name, staying(*BEFORE_LAST, [(6, 1, 0)]), area, record, answer
    for record, data in LEAVING:
        yield f"20: code {record[0]}, named by the first of six entries", staying(
            [(data, 1, 0)] + [(8, 1, 0)] * 5), {**ALL_IN, **held(o3=1)}, record, 20
    yield "20: data looks like a value that names what leaves", staying([(6, 1, 0)]), {
        **ALL_IN, record_at(4) + FIRST: 1}, [12, 1, 1, 6], 0
    yield "20: device 1 leaves a green zone, driver 1 is elsewhere", staying([(5, 1, 0)]), {
        **ALL_IN, **driver_in(1, 2, 4, 7), **held(o3=1)}, [11, 1], 20
    yield "20: device 2 leaves a green zone, device 1 is elsewhere", staying([(10, 1, 0)]), {
        **ALL_IN, **inside(1, 2, 1, 5, 9), **held(o3=1)}, [11, 2], 20


def acting(line_l):
    """Devices that write and copy are put no 22, and 19 goes by the driver's zone alone."""
    area = {1: GREEN, **FRESH_L, **inside(1, 1, 1, 2), **inside(2, 1, 3, 4), **held(o2=4)}
    yield "green: a device writes a value that breaks the rule", line_l, area, [2, 1, 1, 4, 0, 3], 0
    line = line_of([(2, 1, 0)], [(5, 1, 0), (6, 2, 3)], [(10, 1, 0)], hardcoded=(1, 0))
    area = {1: GREEN, **ZONES, **held(o1=1, o2=2, o5=3)}
    yield "green: a device copies what breaks the rule", line, area, [4, 1, 1, 5, 6], 0
    inner, outer = {**READING_HELD, **held(o2=1)}, {**READING_HELD, **held(o4=1)}
    yield "19: device 2 is in a green zone, driver 2 is not", READING, {
        1: GREEN, **ZONES, **inside(2, 1, 3, 4), **inner}, [1, 2, 1, 11, 0, 0], 19
    yield "no 19: driver 1 is in a green zone, device 1 is not", READING, {
        1: GREEN, **ZONES, **inside(1, 2, 1, 2), **outer}, [1, 1, 1, 5, 0, 0], 0


def storing(_):
    """The last value, the last partition, the last driver."""
    far = line_of(*BEFORE_LAST, [(10, 1, 0)])
    for name, area, record in (("a write", {}, [1, 1, 1, 5, 0, 47]), ("a copy", held(o5=47), [3, 1, 1, 5, 6])):
        yield from both(f"{name} of the last of 47 values", far, area, record, 22)
    yield "22: the last partition", line_of([(10, 1, 0)]), {
        63: GREEN, **driver_in(1, 63, 5, 6, 9)}, [1, 1, 1, 5, 0, 1], 22
    yield "22: the last partition, data of the zone", line_of([(9, 1, 0)]), {
        63: GREEN, **driver_in(1, 63, 5, 6, 9)}, [1, 1, 1, 5, 0, 1], 0
    yield "22: driver 16", [1, 16, 0, 2, 1, 1, 1, 16, 3, 0, 0, 1, 2, 1, 0], {
        1: GREEN, **driver_in(16, 1, 1)}, [1, 16, 1, 1, 0, 1], 22


def entering(line_l):
    """The device that comes in is the one whose value is looked at, and the zone is the one that is named."""
    second = changed(line_l, (31, 2))
    yield "green: device 2 writes its descriptor, into 1", second, {1: GREEN, 2: PLAIN, **FRESH_L}, [8, 2, 1], 22
    yield "green: device 2 writes its descriptor, device 1 into 2", second, {
        1: PLAIN, 2: GREEN, **FRESH_L}, [8, 1, 2], 0
    line = [1, 0, 16, 17, 1] + sum(([4, 2, n] for n in range(1, 17)), []) + [1, 2, 16] + [0] * 15 + [1, 1, 17, 2, 0]
    yield "green: device 16 writes its descriptor", line, {1: GREEN, **held(o16=1)}, [8, 16, 1], 22


def wide_calls():
    """Objects above 127 that are written, and a wide line on which nothing is searched in a green zone."""
    last = MOST_OBJECTS
    line = row([1, 1, 0, last, 1] + [3, 0, 0] * (last - 2) + [1, 1, 1] * 2 + [1, last - 1, 2, 0])
    area = {1: GREEN, **driver_in(1, 1, last - 1, last)}
    yield "22: 192 objects: 191 is written", line, WIDE_AREA, area, row([1, 1, 1, last, 0, 1]), 22
    line = row([1, 1, 1, 97, 2, 4, 2, 1, 1, 2, 1, 1, 1, 1] + [3, 0, 0] * 94 + [1, 1, 2, 1, 0, 1, 97, 1, 0])
    area = {1: GREEN, **driver_in(1, 1, 3), **inside(1, 1, 1, 2), **held(o1=1, o2=2)}
    yield "no 19: 97 objects, a device of the zone is led out", line, WIDE_AREA, area, row([1, 1, 1, 3, 0, 0]), 0


def calls(line_l):
    """Label, file, the area's length, its bytes by their places, the record, answer."""
    for named in (leaving, acting, storing, entering):
        for label, line, area, record, stated in named(line_l):
            yield label, row(line), AREA, area, row(record), stated
    yield from wide_calls()
