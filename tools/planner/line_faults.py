"""On what a line was refused: given the program's answer, the tables' rows that its question stopped at; and of a file
that no table made, the number."""
from . import wording as w
from .unpack import Reader, Unreadable


def line_findings(config, answer):
    """Clauses for an answer of the line file; none for those that tables cannot cause."""
    function = {3: ranges, 5: hardcoded_owners, 6: hardcoded_values}.get(answer)
    return function(config) if function else []


def ranges(config):
    counts = {"drivers": config.drivers, "cards": config.devices, "objects": config.objects, "values": config.values}
    found = [f"there are {len(things)} {name}; a line has at most {w.LIMITS[name]}"
             for name, things in counts.items() if len(things) > w.LIMITS[name]]
    most = w.LIMITS["entries of a value"]
    return found + [f"value '{value.name}' has {len(value.entries)} entries; a value has at most {most}"
                    for value in config.values.values() if len(value.entries) > most]


def hardcoded_owners(config):
    found = []
    for number, device in config.devices.items():
        own = [n for n in config.owned(w.DEVICE, number) if config.objects[n].kind == w.HARDCODED]
        if len(own) != 1:
            names = f": {', '.join(config.object(n) for n in own)}" if own else ""
            found.append(f"card {device.name} has {len(own)} hard-wired descriptors{names}")
    return found + [f"{config.describe(n)} has no card as owner" for n, one in config.objects.items()
                    if one.kind == w.HARDCODED and one.owner_class != w.DEVICE]


def hardcoded_values(config):
    found = []
    for number, device in config.devices.items():
        for entry in config.entries(device.hardcoded):
            one = config.objects[entry.object]
            what = f"'{config.value(device.hardcoded)}', hard-wired in card {device.name}, names"
            if (one.owner_class, one.owner) != (w.DEVICE, number):
                found.append(f"{what} {config.describe(entry.object)}, which is not this card's")
            elif one.kind == w.HARDCODED:
                found.append(f"{what} the hard-wired descriptor {one.name}")
    return found


class Stopped(Exception):
    """A question that stops at a place of a line file; the message says where, and at what."""

    def __init__(self, question, message):
        super().__init__(message)
        self.question = question


class Numbers:
    """The numbers of a line file, each with its words, put questions 1 to 3 as it is taken."""

    def __init__(self, data):
        self.reader = Reader(data)

    def take(self, what, least, most):
        """The next number, which must be one of `least` to `most`."""
        start = self.reader.at
        try:
            value = self.reader.number()
        except Unreadable as fault:
            raise Stopped(fault.question, self.unreadable(what, start, fault)) from None
        if not least <= value <= most:
            raise Stopped(3, f"byte {start}: {what} is {value}, and {range_words(least, most)}")
        return value

    def unreadable(self, what, start, fault):
        """What is wrong with a number that begins at a byte and cannot be read."""
        count = len(self.reader.data)
        if fault.question == 1:
            place = "before" if start == count else "inside"
            return f"the file ends after {count} byte{'' if count == 1 else 's'}, {place} {what}"
        return f"byte {start}: {what} {str(fault).removeprefix('a number ')}"


def range_words(least, most):
    if most < least:
        return "there is none"
    return f"must be {least}" if most == least else f"must be from {least} to {most:,}"


def file_findings(data, answer):
    """A clause for an answer 1 to 4 of a line file: the first number that is at fault, by the byte where it begins.

    Nothing is judged by it: where it does not come to the answer that was given, nothing is said.
    """
    numbers = Numbers(data)
    try:
        walk(numbers)
        left = len(data) - numbers.reader.at
        if left:
            raise Stopped(4, f"byte {numbers.reader.at}: the last value ends before it, and {left} "
                             f"byte{' is' if left == 1 else 's are'} left over")
    except Stopped as fault:
        return [str(fault)] if fault.question == answer else []
    return []


def walk(numbers):
    """Takes all numbers of a line file in their order."""
    edition = take_edition(numbers)
    drivers, cards, objects, values = (numbers.take(f"the count of {name}", 0, w.LIMITS[name])
                                       for name in ("drivers", "cards", "objects", "values"))
    kinds = {n: take_object(numbers, f"of object {n}", drivers, cards) for n in range(1, objects + 1)}
    for n in range(1, cards + 1):
        numbers.take(f"the hard-wired value of card {n}", 0, values)
        if edition == w.SERIAL_EDITION:
            numbers.take(f"the serial of card {n}", 0, w.LIMITS["a number"])
    for n in range(1, values + 1):
        count = numbers.take(f"the count of entries of value {n}", 0, w.LIMITS["entries of a value"])
        for place in range(1, count + 1):
            take_entry(numbers, f"of entry {place} of value {n}", kinds, values)


def take_edition(numbers):
    edition = numbers.take("the edition", 0, w.LIMITS["a number"])
    if edition not in w.EDITIONS:
        raise Stopped(3, f"byte 0: edition {edition} is not {' or '.join(map(str, w.EDITIONS))}")
    return edition


def take_object(numbers, of, drivers, cards):
    """The kind of an object, with its owner behind it."""
    kind = numbers.take(f"the kind {of}", min(w.KINDS), max(w.KINDS))
    owner_class = numbers.take(f"the owner class {of}", min(w.OWNERS), max(w.OWNERS))
    least, most = {w.EXTERNAL: (0, 0), w.DRIVER: (1, drivers), w.DEVICE: (1, cards)}[owner_class]
    numbers.take(f"the owner {of}", least, most)
    return kind


def take_entry(numbers, of, kinds, values):
    thing = numbers.take(f"the object {of}", 1, len(kinds))
    mode = numbers.take(f"the mode {of}", min(w.MODES), max(w.MODES))
    puts = kinds[thing] == w.TRANSFER and mode != w.READ
    numbers.take(f"the put value {of}", 0, values if puts else 0)
