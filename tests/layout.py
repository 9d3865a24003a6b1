"""Where bytes stand by document 01: its limits, the state area's places, a configuration in memory as the writer is
given it (requests N1, N2 and N7), and rows of numbers. Nothing here judges."""
MOST_DRIVERS, MOST_DEVICES, MOST_OBJECTS, MOST_VALUES, MOST_ENTRIES = 16, 16, 192, 47, 6
MOST_ITEMS = 8
# A line of at most so many objects is a small one, and its area has as many records; a wide one's has one for each
# object that there may be.
SMALL_ROOM = 96
PARTITIONS = 64
CONTENT = 16
RECORD = 1 + CONTENT
DRIVERS_FROM = PARTITIONS
DEVICES_FROM = DRIVERS_FROM + MOST_DRIVERS
RECORDS_FROM = DEVICES_FROM + MOST_DEVICES
# Behind the records stand the devices' lock bytes (request N6), so that their place goes with the records' number.
LOCKS_FROM = RECORDS_FROM + RECORD * SMALL_ROOM
WIDE_LOCKS_FROM = RECORDS_FROM + RECORD * MOST_OBJECTS
AREA = LOCKS_FROM + MOST_DEVICES
WIDE_AREA = WIDE_LOCKS_FROM + MOST_DEVICES

# The largest number; the editions of a line file, from the second of which on a device has a serial behind its
# hardcoded number (request N7); and the largest serial.
MOST_NUMBER = 2 ** 21 - 1
FIRST_EDITION, SERIAL_EDITION = 1, 2
MOST_SERIAL = MOST_NUMBER

# The counts of a configuration in memory, which come first: D, V, N and K.
DRIVERS, DEVICES, OBJECTS, VALUES = range(4)
COUNTS = 4
# Before them, where a configuration has an edition and serials: the edition in a byte, and serials in four bytes each,
# lowest byte first, one for each place of the devices' columns, so that place 0 has one too.
SERIAL_BYTES = 4
MARKS = 1 + SERIAL_BYTES * (MOST_DEVICES + 1)


class Columns:
    """A configuration in memory: the counts, then columns in which number n stands at place n, those of the objects for
    numbers up to `most`, and the entries side by side."""

    def __init__(self, most):
        self.most = most
        self.kinds = COUNTS
        self.classes = self.kinds + most + 1
        self.owners = self.classes + most + 1
        self.hardcoded = self.owners + most + 1
        self.counts = self.hardcoded + MOST_DEVICES + 1
        self.entries = self.counts + MOST_VALUES + 1
        self.end = self.entries + 3 * (MOST_ENTRIES * (MOST_VALUES + 1) + 1)

    def entry(self, value, entry):
        """Where entry j, from 1, of a value begins: its object, then its mode, then its stored value."""
        return self.entries + 3 * (MOST_ENTRIES * value + entry)


# The columns of a case with small lines alone, and of one with lines of every size.
SMALL, WIDE = Columns(SMALL_ROOM), Columns(MOST_OBJECTS)


def area_of(objects):
    """The length of the state area of a line of so many objects."""
    return AREA if objects <= SMALL_ROOM else WIDE_AREA


def locks_from(objects):
    """Where the lock bytes of a line of so many objects begin, and its records end."""
    return LOCKS_FROM if objects <= SMALL_ROOM else WIDE_LOCKS_FROM


def record_at(n):
    """Where the record of object n begins."""
    return RECORDS_FROM + RECORD * (n - 1)


def number(n):
    """A number in groups of seven bits, lowest group first."""
    out = bytearray()
    while n >= 128:
        out.append(n % 128 + 128)
        n //= 128
    return bytes(out + bytes([n]))


def row(numbers):
    return b"".join(number(n) for n in numbers)


def with_serials(numbers, serials):
    """The numbers of a file of edition 1 as those of the same line in edition 2, with these serials, device 1's
    first."""
    devices = 5 + 3 * numbers[3]
    values = devices + numbers[2]
    marked = sum(([value, serial] for value, serial in zip(numbers[devices:values], serials, strict=True)), [])
    return [SERIAL_EDITION, *numbers[1:devices], *marked, *numbers[values:]]


def marks(edition, serials):
    """An edition and serials as they stand before a configuration in memory: the serial of place 0 first, and 0 where
    none is given."""
    places = [*serials, *[0] * (MOST_DEVICES + 1 - len(serials))]
    return bytes([edition]) + b"".join(serial.to_bytes(SERIAL_BYTES, "little") for serial in places)


def two(n):
    """A number in two bytes, lower byte first."""
    return bytes([n % 256, n // 256])
