"""Random lines and sessions, the same for the same seed. The answers are the program's; nothing here knows them."""
import random
from dataclasses import replace

from planner import wording as w
from planner.config import Config, Device, Entry, Object, Value
from planner.visit import Item, Move, Pair

PARTITIONS = 3
# Wide lines have so many objects: the first that is wide, the first whose last number has two bytes, the last two.
WIDE = (97, 128, 191, 192)
# Of each card's objects in the largest line so many have numbers of two bytes.
LARGEST = 4
# Serials of one, two and three bytes, the first and last of each; 0 is none that is known.
SERIALS = (0, 1, 127, 128, 16383, 16384, 65535, 65536, 2097151)


def random_line(seed):
    """A configuration that passes questions 1 to 6, with values that often name things of other owners."""
    rng = random.Random(f"line {seed}")
    config = Config(drivers={n: f"D{n}" for n in range(1, rng.randint(1, 3) + 1)})
    devices = rng.randint(1, 4)
    kinds = [(w.HARDCODED, w.DEVICE, n) for n in range(1, devices + 1)]
    kinds += [(w.TRANSFER, w.DEVICE, n) for n in range(1, devices + 1) for _ in range(rng.randint(1, 2))]
    for owner_class, owners in ((w.DRIVER, len(config.drivers)), (w.DEVICE, devices), (w.EXTERNAL, 1)):
        for _ in range(rng.randint(1, 4)):
            kind = rng.choice((w.TRANSFER, w.TRANSFER, w.FUNCTION, w.DATA))
            kinds.append((kind, owner_class, rng.randint(1, owners) if owner_class else 0))
    rng.shuffle(kinds)
    config.objects = {n: Object(f"O{n}", *kind) for n, kind in enumerate(kinds, 1)}
    count = devices + rng.randint(4, 12)
    for n in range(1, count + 1):
        entries = hardcoded_entries(rng, config, n) if n <= devices else entries_of(rng, config, count)
        config.values[n] = Value(f"V{n}", tuple(entries))
    config.devices = {n: Device(f"C{n}", n) for n in range(1, devices + 1)}
    return config


def hardcoded_entries(rng, config, device):
    for n in config.owned(w.DEVICE, device):
        kind = config.objects[n].kind
        if kind == w.TRANSFER or kind != w.HARDCODED and rng.random() < 0.5:
            yield Entry(n, w.READ if kind == w.TRANSFER else rng.randint(w.READ, w.BOTH), 0)


def entries_of(rng, config, values):
    for _ in range(rng.randint(1, 3)):
        n = rng.choice([n for n, one in config.objects.items() if one.kind != w.HARDCODED or rng.random() < 0.1])
        mode = rng.randint(w.READ, w.BOTH)
        stores = config.objects[n].kind == w.TRANSFER and mode != w.READ
        yield Entry(n, mode, rng.randint(0, values) if stores else 0)


def ring_line(seed):
    """A random line whose cards mostly keep rings: their hard-wired values write their own transfer descriptors."""
    rng, config = random.Random(f"ring {seed}"), random_line(seed)
    jobs = range(len(config.devices) + 1, len(config.values) + 1)
    for n in config.devices:
        entries = [Entry(one.object, rng.randint(w.WRITE, w.BOTH), rng.choice(jobs))
                   if config.objects[one.object].kind == w.TRANSFER and rng.random() < 0.6 else one
                   for one in config.values[n].entries]
        config.values[n] = replace(config.values[n], entries=tuple(entries))
    return config


def ring_visit(config, seed):
    """A random visit; in every second one cards come in last, behind most of what their rings name."""
    moves = random_visit(config, seed)
    up = PARTITIONS + len(config.drivers) + len(config.devices) + len(config.owned(w.EXTERNAL, 0))
    if seed % 2:
        moves = sorted(moves[:up], key=lambda move: move.code == 8) + moves[up:]
    return [replace(move, row=row) for row, move in enumerate(moves, 2)]


def green_visit(config, seed):
    """A random visit, on lines with rings too, whose zones are partly green: mostly the first, where most things are.

    Behind it drivers copy descriptors, and external objects leave, some of them named by a descriptor that stays.
    """
    rng, moves = random.Random(f"green {seed}"), ring_visit(config, seed)
    green = rng.choice(({1}, {1}, {1, 2}, {2}, {1, 2, 3}))
    moves = [replace(move, code=13) if move.code == 5 and move.where in green else move for move in moves]
    descriptors = [n for n, one in config.objects.items() if one.kind == w.TRANSFER]
    for _ in range(20):
        pairs = tuple(Pair(rng.choice(descriptors), n) for n in rng.sample(descriptors, min(2, len(descriptors))))
        copy = Move(0, 3, rng.choice(list(config.drivers)), 0, pairs)
        leave = Move(0, 12, 0, rng.randint(1, PARTITIONS), (rng.choice(config.owned(w.EXTERNAL, 0)),))
        moves.append(rng.choice((copy, leave)))
    return [replace(move, row=row) for row, move in enumerate(moves, 2)]


def all_green_visit(config, seed):
    """The same in green zones alone, none of which is destroyed; at the end drivers write and leave, and others too."""
    rng = random.Random(f"all green {seed}")
    moves = [replace(move, code=13) if move.code == 5 else move for move in green_visit(config, seed)
             if move.code != 6]
    descriptors = [n for n, one in config.objects.items() if one.kind == w.TRANSFER]
    loose = config.owned(w.EXTERNAL, 0)
    for _ in range(12):
        driver, item = rng.choice(list(config.drivers)), Item(rng.choice(descriptors), w.VALUE_FORM,
                                                              rng.randint(0, len(config.values)))
        moves += [Move(0, rng.choice((10, 11)), driver), Move(0, 1, rng.choice(list(config.drivers)), 0, (item,)),
                  Move(0, 12, 0, rng.randint(1, PARTITIONS), tuple(rng.sample(loose, rng.randint(1, len(loose)))))]
    return [replace(move, row=row) for row, move in enumerate(moves, 2)]


def lock_visit(config, seed):
    """A random visit in which cards leave, are locked and unlocked, and are wanted meanwhile, some of them in turn."""
    rng, moves = random.Random(f"lock {seed}"), random_visit(config, seed)
    for _ in range(30):
        card = rng.choice(list(config.devices))
        codes = rng.choice(((11, 14), (14,), (14,), (15,), (15, 8), (8,), (11, 14, 8, 15, 8), (10, 14)))
        moves += [Move(0, code, card if code != 10 else rng.choice(list(config.drivers)),
                       rng.randint(1, PARTITIONS) if code == 8 else 0) for code in codes]
    return [replace(move, row=row) for row, move in enumerate(moves, 2)]


def mailbox_line():
    """Two cards with rings: C1's puts a job into an external descriptor, C2's has C2 do what it finds there."""
    ring_1, ring_2, mailbox, lamp = 2, 4, 5, 6
    kinds = [(w.HARDCODED, w.DEVICE, 1), (w.TRANSFER, w.DEVICE, 1), (w.HARDCODED, w.DEVICE, 2),
             (w.TRANSFER, w.DEVICE, 2), (w.TRANSFER, w.EXTERNAL, 0), (w.DATA, w.EXTERNAL, 0)]
    entries = [Entry(ring_1, w.BOTH, 3), Entry(ring_2, w.BOTH, 4), Entry(mailbox, w.WRITE, 5),
               Entry(mailbox, w.READ, 0), Entry(lamp, w.WRITE, 0)]
    return Config({1: "D1"}, {1: Device("C1", 1), 2: Device("C2", 2)},
                  {n: Object(f"O{n}", *kind) for n, kind in enumerate(kinds, 1)},
                  {n: Value(f"V{n}", (entry,)) for n, entry in enumerate(entries, 1)})


def mailbox_visit(first, second):
    """The mailbox is brought in, then one card and the other, and then again with the lamp there."""
    moves = (5, 0, 1, ()), (9, 0, 1, (5,)), (8, first, 1, ()), (8, second, 1, ()), (9, 0, 1, (6,)), (8, second, 1, ())
    return [Move(row, *move) for row, move in enumerate(moves, 2)]


def job_line(*jobs):
    """Cards whose rings give them one job each, the entries in turn, and beside these jobs a last one for the mailbox.

    Object 1 is the mailbox, an external descriptor; of card n the data is object 3n + 1, as data_of says.
    """
    count = len(jobs) - 1
    kinds = [(w.TRANSFER, w.EXTERNAL, 0)] + [(kind, w.DEVICE, n) for n in range(1, count + 1)
                                             for kind in (w.HARDCODED, w.TRANSFER, w.DATA)]
    entries = [Entry(3 * n, w.BOTH, count + n) for n in range(1, count + 1)] + list(jobs)
    return Config({1: "D1"}, {n: Device(f"C{n}", n) for n in range(1, count + 1)},
                  {n: Object(f"O{n}", *kind) for n, kind in enumerate(kinds, 1)},
                  {n: Value(f"V{n}", (entry,)) for n, entry in enumerate(entries, 1)})


def data_of(card):
    """A job of such a line: to read the data of a card."""
    return Entry(3 * card + 1, w.READ, 0)


def widened(config, count, seed):
    """The line with external data among its objects, so many that it has `count` in all, its own in the upper third.

    Its last object is still the last one.
    """
    rng = random.Random(f"wide {seed}")
    places = sorted(rng.sample(range(count * 2 // 3, count), len(config.objects) - 1)) + [count]
    moved = dict(zip(config.objects, places))
    objects = {n: Object(f"O{n}", w.DATA, w.EXTERNAL, 0) for n in range(1, count + 1)}
    objects.update({moved[n]: replace(one, name=f"O{moved[n]}") for n, one in config.objects.items()})
    values = {n: replace(value, entries=tuple(replace(one, object=moved[one.object]) for one in value.entries))
              for n, value in config.values.items()}
    return replace(config, objects=objects, values=values)


def wide_line(seed):
    """A random line of one of the wide sizes, whose values name objects of the upper third alone."""
    return widened(random_line(seed), WIDE[seed % len(WIDE)], seed)


def wide_ring_line(seed):
    """The same of a random line with rings."""
    return widened(ring_line(seed), WIDE[seed % len(WIDE)], seed)


def largest_line():
    """As much of everything as a line may have, by the largest numbers. Its file is the longest that is accepted."""
    cards, objects, values = (w.LIMITS[name] for name in ("cards", "objects", "values"))
    places = range(w.LIMITS["entries of a value"])
    config = Config(drivers={n: f"D{n}" for n in range(1, w.LIMITS["drivers"] + 1)})
    for n in range(1, objects + 1):
        config.objects[n] = Object(f"O{n}", w.HARDCODED if n <= cards else w.TRANSFER, w.DEVICE, (n - 1) % cards + 1)
    for n in range(1, values + 1):
        own = config.owned(w.DEVICE, n)[-LARGEST:] if n <= cards else ()
        config.values[n] = Value(f"V{n}", tuple(Entry(own[k % len(own)], w.READ, 0) if own else
                                                Entry(objects - k, w.BOTH, values) for k in places))
    config.devices = {n: Device(f"C{n}", n) for n in range(1, cards + 1)}
    return config


def with_serials(config, *serials):
    """The line with these serials, card by card and then over again."""
    given = {n: serials[(n - 1) % len(serials)] for n in config.devices}
    return replace(config, devices={n: replace(one, serial=given[n]) for n, one in config.devices.items()})


def random_visit(config, seed):
    """Moves that bring most things into service, then write, copy and move them about, some of them nonsense."""
    rng = random.Random(f"visit {seed}")
    homes = rng.choice(((1,), (1, 2), (1, 1, 1, 2), tuple(range(1, PARTITIONS + 1))))
    moves = [(5, 0, p, ()) for p in range(1, PARTITIONS + 1)]
    moves += [(7, n, rng.choice(homes), ()) for n in config.drivers]
    moves += [(8, n, rng.choice(homes), ()) for n in config.devices]
    moves += [(9, 0, rng.choice(homes), (n,)) for n in config.owned(w.EXTERNAL, 0)]
    where = {(code, who): p for code, who, p, _ in moves}
    for _ in range(40):
        moves.append(sensible(rng, config, where) if rng.random() < 0.8 else nonsense(rng, config))
    return [Move(row, *move) for row, move in enumerate(moves, 2)]


def sensible(rng, config, where):
    """Mostly a driver's write of a descriptor that was brought into its own partition."""
    draw = rng.random()
    if draw < 0.7:
        driver = rng.choice(list(config.drivers))
        near = [n for n, one in config.objects.items() if one.kind == w.TRANSFER
                and where.get((6 + one.owner_class, one.owner)) == where[(7, driver)]]
        if near:
            return 1, driver, 0, (Item(rng.choice(near), w.VALUE_FORM, rng.randint(0, len(config.values))),)
    if draw < 0.85:
        return 11, rng.choice(list(config.devices)), 0, ()
    if draw < 0.93:
        return 8, rng.choice(list(config.devices)), rng.randint(1, PARTITIONS), ()
    loose = config.owned(w.EXTERNAL, 0)
    return rng.choice((9, 12)), 0, rng.randint(1, PARTITIONS), (rng.choice(loose),)


def nonsense(rng, config):
    """Any code with numbers in and a little beyond their ranges."""
    code = rng.choice(list(w.CODES))
    crew = config.drivers if w.CODES[code].actor == w.DRIVER else config.devices

    def anything(most):
        return rng.randint(0, most + 1) if rng.random() < 0.1 else rng.randint(1, max(most, 1))

    what = ()
    for field in w.CODES[code].fields:
        count = range(9 if rng.random() < 0.05 else rng.randint(1, 3))
        if field == "items":
            what = tuple(Item(anything(len(config.objects)), form, anything(len(config.values)) * (1 - form))
                         for form in (rng.randint(0, 1) for _ in count))
        elif field == "pairs":
            what = tuple(Pair(anything(len(config.objects)), anything(len(config.objects)) * rng.randint(0, 1))
                         for _ in count)
        elif field == "objects":
            what = tuple(anything(len(config.objects)) for _ in count)
    who = anything(len(crew)) if "who" in w.CODES[code].fields else 0
    return code, who, anything(PARTITIONS) if "where" in w.CODES[code].fields else 0, what
