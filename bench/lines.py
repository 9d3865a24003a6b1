"""Configurations and states for the benchmark: the bytes of a line file, of a state area, and of a record for it.

Here are the lines of the older tables; bench/full.py has those on which the library and the plain gate are compared.
"""
import pathlib
import random
import sys

sys.path.insert(0, str(pathlib.Path(__file__).resolve().parent.parent / "tests"))
from layout import (DEVICES_FROM, DRIVERS_FROM, MOST_OBJECTS, MOST_SERIAL, SMALL_ROOM, area_of,  # noqa: E402
                    locks_from, record_at, row, with_serials)

READ, WRITE, BOTH = 1, 2, 3
# Full size is what the constructors below take if nothing is said. It has as many objects as the shorter state area has
# room for; wide is full size with as many as there may be.
FULL = {"devices": 16, "objects": SMALL_ROOM, "values": 47}
QUARTER = {"devices": 4, "objects": 24, "values": 12}
WIDE = {"devices": 16, "objects": MOST_OBJECTS, "values": 47}
SIZES = (("full", FULL), ("quarter", QUARTER), ("wide", WIDE))
# The standings of a partition that exists: any, and a green zone (request N5).
EXISTING, GREEN = 1, 3
# The lock byte of a device that is locked (request N6).
LOCKED = 1
# A driver of the one partition, and one that is in another wherever a case needs it.
AT_HOME, STRANGER = 1, 2


class Line:
    """A configuration with everything in partition 1, or in none if `inactive`, but the objects `elsewhere` and the
    drivers `strangers`, which are in 2, and what is `asleep`, a pair of class and owner, or a number for an external
    object, which is in none; objects are (kind, class, owner), and values lists of entries. Partition 1 is a green zone
    if `green`; the devices `locked` are locked, and must be in none. A line that has `serials` is one of edition 2."""

    def __init__(self, drivers, devices, objects, values, last=False):
        """The hardcoded descriptors have the smallest numbers, or the largest if `last`."""
        self.drivers, self.devices = drivers, devices
        before = objects - devices if last else 0
        self.objects = {n: (4, 2, n - before) if 0 < n - before <= devices else (1, 2, (n - 1) % devices + 1)
                        for n in range(1, objects + 1)}
        self.hardcoded = {c: 0 for c in range(1, devices + 1)}
        self.values = {v: [] for v in range(1, values + 1)}
        self.held = {}
        self.elsewhere = set()
        self.strangers = set()
        self.asleep = set()
        self.locked = set()
        self.serials = []
        self.inactive = False
        self.green = False

    def own(self, device):
        """The transfer descriptors of a device."""
        return [n for n, o in self.objects.items() if o == (1, 2, device)]

    def file(self):
        numbers = [1, self.drivers, self.devices, len(self.objects), len(self.values)]
        numbers += sum((list(o) for o in self.objects.values()), [])
        numbers += self.hardcoded.values()
        for entries in self.values.values():
            numbers += [len(entries)] + sum((list(e) for e in entries), [])
        return row(with_serials(numbers, self.serials) if self.serials else numbers)

    def serialized(self):
        """The line with a serial of three bytes for each device (request N7)."""
        self.serials = [MOST_SERIAL - device for device in range(self.devices)]
        return self

    def area(self):
        area = bytearray(area_of(len(self.objects)))
        area[1], area[2] = GREEN if self.green else EXISTING, EXISTING
        place = 0 if self.inactive else 1
        for i in range(self.drivers):
            area[DRIVERS_FROM + i] = 2 if i + 1 in self.strangers else 0 if (1, i + 1) in self.asleep else place
        for i in range(self.devices):
            area[DEVICES_FROM + i] = 0 if (2, i + 1) in self.asleep else place
        for n, (kind, group, owner) in self.objects.items():
            away = (group, owner) in self.asleep or n in self.asleep
            area[record_at(n)] = 2 if n in self.elsewhere else 0 if away else place
            area[record_at(n) + 1] = self.hardcoded[owner] if kind == 4 else self.held.get(n, 0)
        for device in self.locked:
            area[locks_from(len(self.objects)) + device - 1] = LOCKED
        return bytes(area)

    def rewrite(self, driver):
        """A record: the driver writes into a descriptor the value that it holds, and so leaves the state as it is."""
        descriptor, value = next(iter(self.held.items()))
        return row([1, driver, 1, descriptor, 0, value])


def dense(devices=16, objects=96, values=47, seed=1, last=False):
    """Six random entries in every value, all within the one partition; every descriptor holds some value."""
    rnd = random.Random(seed)
    line = Line(min(16, devices), devices, objects, values, last)
    descriptors = [n for n, o in line.objects.items() if o[0] == 1]
    for c in line.hardcoded:
        line.hardcoded[c] = c if c <= values // 3 else 0
    for v in line.values:
        for _ in range(6):
            if v <= values // 3:
                line.values[v].append((rnd.choice(line.own(v)), READ, 0))
            else:
                mode = rnd.choice([READ, WRITE, BOTH])
                stored = rnd.randrange(values // 3 + 1, values + 1) if mode != READ else 0
                line.values[v].append((rnd.choice(descriptors), mode, stored))
    for n in descriptors:
        line.held[n] = rnd.randrange(values // 3 + 1, values + 1)
    return line


def chain(devices=16, objects=96, values=47):
    """Each value stores the next one into the descriptor below and reads it, against the order of the objects."""
    line = Line(min(16, devices), devices, objects, values)
    line.hardcoded[devices] = 1
    line.values[1] = [(objects, READ, 0)]
    line.held[objects] = 2
    for v in range(2, values):
        line.values[v] = [(objects - v + 1, BOTH, v + 1)]
    return line


def crossing(**size):
    """As dense, but the first entry that the first device comes to names an object of another partition."""
    line = dense(**size)
    last = max(n for n, o in line.objects.items() if o[0] == 1)
    line.objects[last] = (3, 0, 0)
    line.held.pop(last, None)
    line.elsewhere.add(last)
    hardcoded = set(line.hardcoded.values())
    for v, entries in line.values.items():
        kept = [e for e in entries if e[0] != last]
        line.values[v] = kept if v in hardcoded else kept + [(last, mode, 0) for n, mode, _ in entries if n == last]
    own = line.own(1)[0]
    line.values[1][0] = (own, READ, 0)
    line.values[line.held[own]][0] = (last, READ, 0)
    return line


def leaving(**size):
    """As dense, but the last object is external data that nobody names: it may leave."""
    line = dense(**size)
    last = len(line.objects)
    line.objects[last] = (3, 0, 0)
    line.held.pop(last, None)
    for v, entries in line.values.items():
        line.values[v] = [e for e in entries if e[0] != last]
    return line


def chain_out(steps, devices=16, objects=96, values=47):
    """Nothing is described yet. If value 2 is written to the last descriptor, a chain of `steps` values, each of which
    stores the next one into the descriptor below, ends in one that names an object of another partition."""
    line = Line(min(16, devices), devices, objects, values)
    outside = devices + 1
    line.objects[outside] = (3, 0, 0)
    line.elsewhere.add(outside)
    line.hardcoded[devices] = 1
    line.values[1] = [(objects, READ, 0)]
    for v in range(2, steps + 1):
        line.values[v] = [(objects - v + 1, BOTH, v + 1)]
    line.values[steps + 1] = [(outside, READ, 0)]
    return line


def undescribed():
    """One card whose descriptors describe nothing, and two drivers."""
    line = Line(2, 1, 2, 1)
    line.held[2] = 1
    return line


# The search whose instructions tests/ratios.py holds to a bound.
DENSE_WIDE = "dense, wide"


def searches():
    """Lines whose closure question 19 searches: a label, the line, and the answer if AT_HOME rewrites."""
    yield "dense", dense(), "0"
    yield "longest chain", chain(), "0"
    yield "first entry crosses", crossing(), "19"
    yield "first entry crosses, order turned", crossing(last=True), "19"
    yield "dense, a quarter", dense(**QUARTER), "0"
    yield "longest chain, a quarter", chain(**QUARTER), "0"
    yield "first entry crosses, a quarter", crossing(**QUARTER), "19"
    yield DENSE_WIDE, dense(**WIDE), "0"
    yield "longest chain, wide", chain(**WIDE), "0"
    yield "first entry crosses, wide", crossing(**WIDE), "19"
    yield "one card, nothing described", undescribed(), "0"
