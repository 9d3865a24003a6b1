"""Lines on which the library and the plain gate are compared: every value has six entries, whatever is active."""
import random

from lines import BOTH, READ, WIDE, WRITE, Line

# External data at the end of the objects: what drivers write, and copy eight of at once.
DATA = 9
# The most entries that a value can have.
ENTRIES = 6


def mixed(devices=16, objects=96, values=47, seed=1):
    """Six random entries in every value, all within the one partition. A third of the values are the devices'; the last
    objects are external data, and nobody names the very last one."""
    rnd = random.Random(seed)
    line = Line(devices, devices, objects, values)
    line.data = list(range(objects - DATA + 1, objects + 1))
    for n in line.data:
        line.objects[n] = (3, 0, 0)
    descriptors = [n for n, o in line.objects.items() if o[0] == 1]
    first = values // 3 + 1
    for c in line.hardcoded:
        line.hardcoded[c] = c if c < first else 0
    for v in line.values:
        for _ in range(6):
            if v < first:
                line.values[v].append((rnd.choice(line.own(v)), READ, 0))
                continue
            mode, named = rnd.choice([READ, WRITE, BOTH]), rnd.choice(descriptors + line.data[:-1])
            stores = mode != READ and line.objects[named][0] == 1
            line.values[v].append((named, mode, rnd.randrange(first, values + 1) if stores else 0))
    for n in descriptors:
        line.held[n] = rnd.randrange(first, values + 1)
    return line


def longest():
    """The line whose file has the greatest length that can be accepted of its edition: every count at its limit, six
    entries in every value, and the objects that they name have the largest numbers, of two bytes. A device's value
    reads what it owns."""
    line = Line(**WIDE, drivers=WIDE["devices"])
    last = range(len(line.objects) - len(line.hardcoded) + 1, len(line.objects) + 1)
    for n, v in enumerate(line.values):
        named = last[n % len(last)]
        line.values[v] = [(named, READ, 0) if v in line.hardcoded else (named, BOTH, v)] * ENTRIES
    for c in line.hardcoded:
        line.hardcoded[c] = c
    return line


def little(**size):
    """As mixed, but only one driver, one device and the data are active, and the device's descriptors are cleared."""
    line = mixed(**size)
    line.asleep = {(1, n) for n in range(2, line.drivers + 1)} | {(2, n) for n in range(2, line.devices + 1)}
    for n in line.own(1):
        line.held[n] = 0
    return line


def without_device(locked=False, **size):
    """As mixed, but the last device is inactive, with what it owns, and locked if that is wanted."""
    line = mixed(**size)
    line.asleep = {(2, line.devices)}
    line.locked = {line.devices} if locked else set()
    return line


def rings(**size):
    """As mixed, but every device that has a hardcoded value reads and writes its own descriptors by it (request N4),
    and the first device is inactive, with what it owns."""
    line, rnd = mixed(**size), random.Random(2)
    for v in filter(None, line.hardcoded.values()):
        line.values[v] = [(named, BOTH, rnd.choice(list(line.held.values()))) for named, _, _ in line.values[v]]
    line.asleep = {(2, 1)}
    return line


def green(keeping=False, **size):
    """As mixed, but in a green zone and in a state that calls can lead to: what is held keeps the green rule (request
    N5), six entries in every value. Only the last value breaks it, by its last entry; nothing holds that one. The value
    before names the very last object, by its last entry; if `keeping`, a descriptor that no card reads holds it."""
    line, rnd = mixed(**size), random.Random(3)
    descriptors = [n for n, o in line.objects.items() if o[0] == 1]
    line.green, unread = True, descriptors.pop()
    line.objects[unread] = (1, 0, 0)
    line.descriptors, line.breaking = descriptors, len(line.values)
    keeps, first = line.breaking - 1, line.breaking // 3 + 1
    for v in line.values:
        named = [rnd.choice(line.own(v) if v < first else descriptors + line.data[:1]) for _ in range(ENTRIES)]
        line.values[v] = [(n, READ if line.objects[n][0] == 1 else rnd.choice([READ, WRITE, BOTH]), 0) for n in named]
    line.values[line.breaking][-1] = (descriptors[0], WRITE, first)
    line.values[keeps][-1] = (line.data[-1], READ, 0)
    line.kept = list(range(first, keeps))
    line.held = {n: rnd.choice(line.kept) for n in descriptors}
    line.held[unread] = keeps if keeping else first
    return line


def described(line, device):
    """What the device may write with the values of the moment: the value that is put into each object, 0 into data."""
    held = {**line.held, **{n: line.hardcoded[o[2]] for n, o in line.objects.items() if o[0] == 4}}
    waiting, seen, writes = [line.hardcoded[device]], set(), {}
    while waiting:
        value = waiting.pop()
        if value in seen:
            continue
        seen.add(value)
        for named, mode, put in line.values.get(value, []):
            if mode & WRITE:
                writes[named] = put
            if mode & READ and line.objects[named][0] in (1, 4):
                waiting.append(held[named])
    return writes


def links(order, entries, devices=16, objects=96, values=47):
    """A chain through all values but one: each stores the next one into the next descriptor and reads it, and the
    last names an object of another partition. The one is hard-wired and reads the first descriptor, which is cleared.
    What is written there decides how long the chain is: `line.start[n]` makes it one of n values. By `order` the
    numbers of descriptors and values rise or fall along the chain, or are shuffled; a value's other entries read data
    of the partition."""
    line = Line(devices, devices, objects, values)
    data, outside = objects - 1, objects
    line.objects[data] = line.objects[outside] = (3, 0, 0)
    line.elsewhere.add(outside)
    descriptors = [n for n, o in line.objects.items() if o[0] == 1]
    numbers = list(range(1, values + 1))
    for row in (descriptors, numbers):
        if order == "falling":
            row.reverse()
        elif order == "shuffled":
            random.Random(1).shuffle(row)
    wired, *chain = numbers
    line.first = descriptors[0]
    owner = line.objects[line.first][2]
    line.hardcoded[owner] = wired
    line.values[wired] = [(line.first, READ, 0)] * entries
    for place, value in enumerate(chain[:-1], 1):
        link = (descriptors[place], BOTH, chain[place])
        line.values[value] = [(data, READ, 0)] * (entries - 1) + [link]
    line.values[chain[-1]] = [(data, READ, 0)] * (entries - 1) + [(outside, READ, 0)]
    line.start = {len(chain) - place: value for place, value in enumerate(chain)}
    return line


def ring_links(steps, **size):
    """As links with rising numbers and six entries, but the hardcoded value itself puts down the value from which the
    chain has so many steps, and its device is inactive, with what it owns."""
    line = links("rising", ENTRIES, **size)
    line.owner = line.objects[line.first][2]
    line.values[line.hardcoded[line.owner]] = [(line.first, BOTH, line.start[steps])] * ENTRIES
    line.asleep = {(2, line.owner)}
    return line
