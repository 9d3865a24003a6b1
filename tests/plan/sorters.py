"""Sorters of a chosen size with a plan of a service visit, in which rows can be spoiled: who must be refused is known.

Each card has a hard-wired descriptor, a ring, a job, a record and settings, and in a wide sorter gates, which its
running value opens. A card's start-up value has it read its ring, its running value its record and its job. The first
cards' objects have the largest numbers.
"""
from planner import wording as w
from planner.config import Config, Device, Entry, Object, Value
from planner.visit import Item, Move, Pair

PARTS = (("wiring", w.HARDCODED), ("ring", w.TRANSFER), ("job", w.TRANSFER), ("record", w.DATA),
         ("settings", w.FUNCTION))
LOOP, BENCH, ANNEX = 1, 2, 3
CONTROL, LAPTOP, SPARE = 1, 2, 3
SORTS = ("Scanner", "Scale", "Diverter", "Label printer of the outfeed, upper level")
# How large the largest small sorter is, and the largest of all.
LARGE = dict(cards=16, loose=8, drivers=8)
WIDE = dict(gates=6, **LARGE)


class Sorter:
    """A line with so many cards, drivers, external objects and gates of each card, and the moves of a visit."""

    def __init__(self, cards, loose, drivers, gates):
        self.config = Config(drivers={n: name for n, name in enumerate(
            ("Sorting control", "Service laptop", *(f"Spare desk {k}" for k in range(1, drivers - 1))), 1)})
        self.config.partitions = {LOOP: "Live loop", BENCH: "Test bench", ANNEX: "Annex"}
        names = {n: f"{SORTS[(n - 1) % len(SORTS)]} {n}" for n in range(1, cards + 1)}
        self.gates = range(1, gates + 1)
        objects = [Object(f"{name} gate {k}", w.FUNCTION, w.DEVICE, n) for n, name in names.items() for k in self.gates]
        objects += [Object(f"Lane table {k}", w.DATA, w.EXTERNAL, 0) for k in range(1, loose + 1)]
        objects += [Object(f"List of {name}", w.DATA, w.DRIVER, n) for n, name in self.config.drivers.items()]
        objects += [Object(f"{names[n]} {part}", kind, w.DEVICE, n) for n in reversed(names) for part, kind in PARTS]
        self.config.objects = dict(enumerate(objects, 1))
        self.number = {one.name: n for n, one in self.config.objects.items()}
        self.names, self.moves = names, []
        self.values()
        self.config.devices = {n: Device(name, n) for n, name in names.items()}

    def part(self, card, part):
        return self.number[f"{self.names[card]} {part}"]

    def values(self):
        """For each card its start-up and its running value; what lets a card use another's record, and pass that on."""
        made = []
        for card, name in self.names.items():
            made.append(Value(f"{name} start-up", (Entry(self.part(card, "ring"), w.READ, 0),)))
        for card, name in self.names.items():
            record, job = self.part(card, "record"), self.part(card, "job")
            entries = [Entry(record, w.BOTH, 0), Entry(job, w.READ, 0)]
            entries += [Entry(self.part(card, f"gate {k}"), w.WRITE, 0) for k in self.gates]
            made.append(Value(f"{name} running", tuple(entries[:w.LIMITS["entries of a value"]])))
        self.use_second, self.use_third, self.pass_on = range(len(made) + 1, len(made) + 4)
        for card in (2, 3):
            made.append(Value(f"Use the record of {self.names[card]}", (Entry(self.part(card, "record"), w.READ, 0),)))
        made.append(Value("Pass it on", (Entry(self.part(1, "job"), w.WRITE, self.use_second),)))
        self.config.values = dict(enumerate(made, 1))

    def running(self, card):
        return len(self.names) + card

    def add(self, verb, who=None, where=0, what=()):
        """A move; `who` is a driver's or a card's class and number."""
        owner_class, number = who or (w.NOBODY, 0)
        code = next(code.number for code in w.CODES.values() if (code.verb, code.actor) == (verb, owner_class))
        self.moves.append((code, number, where, tuple(what)))

    def write(self, driver, *items):
        self.add("write", (w.DRIVER, driver), what=[
            Item(n, w.VALUE_FORM, content) if isinstance(content, int) else
            Item(n, w.RAW_FORM, raw=content.encode().ljust(w.CONTENT_BYTES, b"\0")) for n, content in items])

    def bring_up(self):
        """All cards run in the loop, the first with the third's record; the laptop is on the bench."""
        self.add("create", where=LOOP)
        self.add("create", where=BENCH)
        for driver, where in ((CONTROL, LOOP), (LAPTOP, BENCH)):
            self.add("activate", (w.DRIVER, driver), where)
        for card in self.names:
            self.add("activate", (w.DEVICE, card), LOOP)
        for card in self.names:
            self.write(CONTROL, (self.part(card, "ring"), self.running(card)))
        self.write(CONTROL, (self.part(1, "job"), self.use_third))
        self.add("activate", where=LOOP, what=[n for n, one in self.config.objects.items() if not one.owner_class][:8])

    def service(self, card, early=False, passing=False):
        """A card is taken to the bench, set there, and brought back. Too early it leaves while its record is used."""
        stop = len(self.moves)
        self.write(CONTROL, (self.part(1, "job"), 0), (self.part(card, "ring"), 0))
        self.add("deactivate", (w.DEVICE, card))
        if early:
            self.moves[stop:] = reversed(self.moves[stop:])
        self.add("activate", (w.DEVICE, card), BENCH)
        self.write(LAPTOP, (self.part(card, "settings"), "ZERO AND SPAN"))
        if passing:
            self.pass_it_on()
        self.add("deactivate", (w.DEVICE, card))
        self.add("activate", (w.DEVICE, card), LOOP)
        self.write(CONTROL, (self.part(card, "ring"), self.running(card)))

    def pass_it_on(self):
        """The fourth card puts a job into the first's, by which that uses the second's record."""
        self.write(CONTROL, (self.part(4, "ring"), self.pass_on))

    def annex(self, number):
        self.add("create", where=number)
        self.add("activate", (w.DRIVER, SPARE), ANNEX)
        self.write(SPARE, (self.number["List of Spare desk 1"], "LANES 1 TO 8"))

    def rows(self):
        return [Move(row, *move) for row, move in enumerate(self.moves, 2)]


# The slips that a visit can have: a card leaves too early, a job is given too early, a partition has another number.
EARLY, PASSING, NUMBER = "early", "passing", "number"
SLIPS = (EARLY, PASSING, NUMBER)


def visit(cards=5, loose=2, drivers=3, gates=0, slips=SLIPS):
    """A sorter with a plan: without slips every row is accepted; each slip has one cause, and some rows that follow."""
    sorter = Sorter(cards, loose, drivers, gates)
    sorter.bring_up()
    sorter.service(3, early=EARLY in slips)
    sorter.annex(ANNEX + (NUMBER in slips))
    sorter.service(2, passing=PASSING in slips)
    if PASSING not in slips:
        sorter.pass_it_on()
    sorter.add("read", (w.DRIVER, CONTROL), what=[Pair(sorter.part(1, "record"), 0)])
    return sorter


def small():
    """Five objects: a card with its descriptors and its record, a driver's list, and a table that stays outside."""
    parts = (("Scanner wiring", w.HARDCODED, w.DEVICE, 1), ("Scanner ring", w.TRANSFER, w.DEVICE, 1),
             ("Scanner record", w.DATA, w.DEVICE, 1), ("Code list", w.DATA, w.DRIVER, 1),
             ("Barcode table", w.DATA, w.EXTERNAL, 0))
    config = Config({1: "Sorting control"}, {1: Device("Scanner", 1)}, {n: Object(*one) for n, one in
                    enumerate(parts, 1)}, {1: Value("Scanner start-up", (Entry(2, w.READ, 0),)),
                                           2: Value("Scan codes", (Entry(5, w.WRITE, 0),))}, {LOOP: "Live loop"})
    moves = [(5, 0, LOOP, ()), (7, 1, LOOP, ()), (8, 1, LOOP, ()), (1, 1, 0, (Item(2, w.VALUE_FORM, 2),)),
             (9, 0, LOOP, (5,)), (1, 1, 0, (Item(2, w.VALUE_FORM, 2),))]
    return config, [Move(row, *move) for row, move in enumerate(moves, 2)]
