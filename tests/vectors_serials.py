"""Stored cases of request N7, card serials, for tests/vectors.py: files of both editions and of others, serials of
every length, cut and badly written ones, numbers from 65,536 on in each field of a file and of a record, operations
that answer on a line with serials as on the same without, and the writer on configurations with an edition and
serials. Answers are stated from the papers."""
from layout import (AREA, FIRST_EDITION, MOST_DEVICES, MOST_NUMBER, MOST_SERIAL, SERIAL_EDITION, WIDE, WIDE_AREA, marks,
                    number, record_at, row, with_serials)
from vectors_first import BROKEN, WELL
from vectors_green import DESTROYED, FRESH_L, PLAIN, driver_in, held, objects_in, session
from vectors_locks import FULL, SHORT_LOCKS
from vectors_records import SHORT
from vectors_rings import changed, inside
from vectors_wide import data, wide_size
from vectors_write import SMALLEST, done, memory_of, noisy, refused, short

LARGE, ONCE_TOO_LARGE = 70_000, 65_536
# Serials at which the length of a number changes, those about the limit of before, and the last.
SERIALS = (0, 1, 127, 128, 16_383, 16_384, ONCE_TOO_LARGE - 1, ONCE_TOO_LARGE, MOST_SERIAL)
# The request's example, and where L, whose numbers have one byte each, has the value number of device 1.
EXAMPLE, DEVICE_ONE = (LARGE, 0), 23
# One device and two, each with its hardcoded descriptor alone, and no value: a file ends with the last device.
ONE = [1, 0, 1, 1, 0, 4, 2, 1, 0]
TWO = [1, 0, 2, 2, 0, 4, 2, 1, 4, 2, 2, 0, 0]


def told(serials):
    return " and ".join(f"{serial:,}" for serial in serials)


def accepted(line_l):
    """Files of edition 2 that are accepted, and the same of edition 1."""
    for serials in (EXAMPLE, *((serial, 0) for serial in SERIALS), *((0, serial) for serial in SERIALS[1:])):
        yield f"serials {told(serials)} in L", row(with_serials(line_l, serials)), 0
    for serial in SERIALS:
        yield f"serial {serial:,} where the file ends", row(with_serials(ONE, [serial])), 0
    sixteen = [SERIALS[c % len(SERIALS)] for c in range(MOST_DEVICES)]
    yield "serials of all lengths for 16 devices", row(with_serials(FULL, sixteen)), 0
    for edition in (FIRST_EDITION, SERIAL_EDITION):
        yield f"edition {edition}, objects and no devices", row(changed(data(2), (0, edition))), 0
    most = with_serials(wide_size(), [MOST_SERIAL] * MOST_DEVICES)
    yield f"the largest file of edition 2, {len(row(most)):,} bytes", row(most), 0


def editions(line_l):
    """Editions that there are not, over L; and files that are of the other edition."""
    for edition in (0, 3, 127, 128, 129, 130, 257, 258, 16_385, ONCE_TOO_LARGE + 1, ONCE_TOO_LARGE + 2, LARGE,
                    MOST_NUMBER):
        yield f"edition {edition:,} of L", row(changed(line_l, (0, edition))), 3
    yield "edition 3 of L with serials", row(changed(with_serials(line_l, EXAMPLE), (0, 3))), 3
    yield "edition 2 of L without its serials", row(changed(line_l, (0, SERIAL_EDITION))), 3
    yield "edition 1 of L with serials", row(changed(with_serials(line_l, EXAMPLE), (0, FIRST_EDITION))), 3
    yield "edition 70,000 alone", number(LARGE), 3
    yield "edition 1 and 70,000 drivers, and the file's end", row([1, LARGE]), 3
    yield "edition 2 in two bytes", bytes([130, 0]) + row(with_serials(line_l, EXAMPLE))[1:], 2
    yield "edition 2 alone", bytes([2]), 1
    yield "a byte left over behind a serial", row(with_serials(ONE, [LARGE])) + b"\0", 4
    yield "5: a device with a serial and no hardcoded descriptor", row(with_serials(changed(TWO, (8, 3)), (1, 2))), 5
    yield ("6: a device with a serial whose value names another's object",
           row(with_serials(changed(line_l, (26, 4)), EXAMPLE)), 6)


# Ways to write a serial badly, each with a last byte.
MALFORMED = ((128, 128, 128, 1), (255, 255, 255, 127), (129, 128, 128, 0), (255, 255, 255, 255, 255, 1), (255, 255, 0),
             (128, 128, 0), (129, 0), (128, 0))


def malformed(line_l):
    """A serial's bytes in the place of device 1's in L, and of the last device's where the file ends; without a last
    byte they are cut in both, since L goes on with bytes below 128 alone."""
    first, one = row(line_l[:DEVICE_ONE + 1]), row(with_serials(ONE, [0]))[:-1]
    edition = bytes([SERIAL_EDITION]) + first[1:]
    for written in MALFORMED:
        text = " ".join(map(str, written))
        yield f"serial {text} in L", edition + bytes(written) + row([2, 0, *line_l[DEVICE_ONE + 2:]]), 2
        yield f"serial {text} where the file ends", one + bytes(written), 2
        yield f"serial {text}, its last byte missing", one + bytes(written[:-1]), 1


def cuts(line_l):
    """Files that end inside the devices: before a serial, in it, and before the next value number."""
    for serials in ((LARGE, MOST_SERIAL), (300, 5), (0, 16_384)):
        whole = row(with_serials(line_l, serials))
        for end in range(DEVICE_ONE, len(whole) - len(line_l[DEVICE_ONE + 2:]) + 1):
            yield f"serials {told(serials)} in L, cut after {end} bytes", whole[:end], 1
    whole = row(with_serials(TWO, (LARGE, LARGE)))
    for end in range(len(whole) - 8, len(whole)):
        yield f"serials 70,000 and 70,000, where the file ends, cut after {end} bytes", whole[:end], 1


def large_fields(line_l):
    """A number from 65,536 on in each field of a file: only a serial may be so large. In the second row the number is
    the right one modulo 65,536."""
    numbers = with_serials(line_l, EXAMPLE)
    serials = (DEVICE_ONE + 1, DEVICE_ONE + 3)
    for place in range(len(numbers)):
        yield (f"70,000 as number {place + 1} of L with serials", row(changed(numbers, (place, LARGE))),
               0 if place in serials else 3)
    for place, right in enumerate(line_l):
        yield (f"{right + ONCE_TOO_LARGE:,} as number {place + 1} of L",
               row(changed(line_l, (place, right + ONCE_TOO_LARGE))), 3)


def files(line_l):
    """Label, bytes, answer."""
    for group in (accepted, editions, malformed, cuts, large_fields):
        yield from group(line_l)


# A short record of each code, whose numbers L has, and at which of its places stand numbers that 10 itself looks at:
# the code, a count, a form.
RECORDS = {**SHORT, 13: [13, 1], **SHORT_LOCKS}
LOOKED_AT = {1: (0, 2, 4), 2: (0, 2, 4), 3: (0, 2), 4: (0, 2), 9: (0, 2), 12: (0, 2)}


def fields():
    """Each field of each code: label, the record, the place, and whether 10 looks at the number."""
    for code, record in RECORDS.items():
        for place in range(len(record)):
            yield f"code {code}, number {place + 1}", record, place, place in LOOKED_AT.get(code, (0,))


def records():
    """Records by question 10 alone, with the largest number in each field, and with one that has four bytes: label,
    bytes, answer."""
    for label, record, place, looked_at in fields():
        yield (f"10: {MOST_NUMBER:,} as {label}", row(changed(record, (place, MOST_NUMBER))), 10 if looked_at else 0)
        cut = row(record[:place]) + bytes([128, 128, 128, 1]) + row(record[place + 1:])
        yield f"10: {MOST_NUMBER + 1:,} as {label}", cut, 10
    for text, written in (("65,536", [128, 128, 4]), ("70,000", [240, 162, 4]), ("2,097,151", [255, 255, 127])):
        yield f"10: partition {text}", bytes([5, *written]), 0
        yield f"10: partition {text}, its last byte missing", bytes([5, *written[:-1]]), 10
        yield f"10: partition {text} with a last byte of 0", bytes([5, *written[:-1], written[-1] + 128, 0]), 10


def large_records(line_l):
    """Numbers from 65,536 on in each field of a record, on L: 70,000, and the right number plus 65,536. Label, line,
    the area, the record, the answer."""
    for label, record, place, looked_at in fields():
        for large in (LARGE, record[place] + ONCE_TOO_LARGE):
            yield (f"{large:,} as {label}", line_l, FRESH_L, changed(record, (place, large)), 10 if looked_at else 11)
    for record in ([5, LARGE], [1, 1, 1, 2, 0, LARGE], [8, LARGE, 1], [LARGE, 1]):
        answer = 10 if record[0] == LARGE else 11
        yield (f"serials in L: {' '.join(map(str, record))}", with_serials(line_l, EXAMPLE), FRESH_L, record, answer)


def sequence(line_l):
    """Document 01's sequence P, on L with serials: the answers are those of L."""
    steps = [([5, 1], 0, {1: PLAIN}), ([5, 2], 0, {2: PLAIN}), ([7, 1, 1], 0, driver_in(1, 1, 6)),
             ([8, 1, 1], 0, inside(1, 1, 1, 2)), ([8, 2, 2], 0, inside(2, 2, 3, 4)),
             ([9, 1, 1, 5], 0, objects_in(1, 5)), ([1, 1, 1, 2, 0, 3], 0, held(o2=3)), ([12, 1, 1, 5], 20, {}),
             ([1, 1, 1, 2, 0, 4], 19, {}), ([1, 1, 1, 2, 0, 5], 19, {}), ([1, 1, 1, 4, 0, 3], 17, {}),
             ([1, 1, 1, 1, 0, 0], 13, {}), ([1, 2, 1, 2, 0, 0], 16, {}), ([6, 2], 15, {}),
             ([11, 2], 0, inside(2, 0, 3, 4)), ([6, 2], 0, {2: DESTROYED})]
    yield from session("P on L with serials", with_serials(line_l, (LARGE, MOST_SERIAL)), FRESH_L, steps)


def calls(line_l):
    """Label, file, the area's length, its bytes by their places, the record, answer."""
    for group in (large_records, sequence):
        for label, line, area, record, stated in group(line_l):
            yield label, row(line), AREA, area, row(record), stated


def first_bad(line_l):
    """Label, file, the area's length, its bytes by their places, what is told, and the answer to an empty record."""
    line = row(with_serials(line_l, (LARGE, MOST_SERIAL)))
    yield "L with serials", line, AREA, FRESH_L, 0, WELL
    yield "L with serials, object 4 elsewhere", line, AREA, {**FRESH_L, record_at(4): 1}, 4, BROKEN


def fresh(line_l):
    """A fresh state, by the area's length, and the length that is needed: label, file, length."""
    wide = data(97)
    yield "L with serials", row(with_serials(line_l, EXAMPLE)), AREA
    yield "97 objects in edition 2", row(changed(wide, (0, SERIAL_EDITION))), WIDE_AREA


def memory(numbers, edition, serials, others=0):
    """A configuration in memory with an edition and with serials for its devices; all other serials, that of place 0
    too, are `others`."""
    devices = numbers[2]
    places = [others, *serials, *[others] * (MOST_DEVICES - devices)]
    return marks(edition, places) + memory_of(numbers, WIDE)


def written_lengths(line_l):
    """Serials of one, two and three bytes into areas about the length that is needed."""
    for serial in SERIALS:
        length = len(TWO) + 1 + len(number(serial))
        for room in (length - 1, length, length + 1) if serial in (1, 128, LARGE, MOST_SERIAL) else (length,):
            yield (f"write: serials 0 and {serial:,} into {room} bytes", room, memory(TWO, SERIAL_EDITION, (0, serial)),
                   done(length) if room >= length else short(length))
    for room in (48, 49, 50):
        yield (f"write: serials 70,000 and 0 in L into {room} bytes", room, memory(line_l, SERIAL_EDITION, EXAMPLE),
               done(49) if room >= 49 else short(49))
    most = memory(wide_size(), SERIAL_EDITION, [MOST_SERIAL] * MOST_DEVICES)
    for room, answer in ((1_820, short(1_821)), (1_821, done(1_821))):
        yield f"write: the largest line of edition 2 into {room:,} bytes", room, most, answer


ROOM = 128


def written_serials():
    """Which serials a line may have, and which of them are looked at."""
    for serial in (MOST_SERIAL + 1, 2 ** 24, 2 ** 31, 2 ** 32 - 1):
        yield f"write: serial {serial:,}", ROOM, memory(TWO, SERIAL_EDITION, (0, serial)), refused(3)
    yield "write: serial 2,097,152 of device 1", ROOM, memory(TWO, SERIAL_EDITION, (MOST_SERIAL + 1, 0)), refused(3)
    for serials in ((1, 0), (0, 1), (0, 256), (0, ONCE_TOO_LARGE), (2 ** 24, 0), (0, 2 ** 32 - 1)):
        yield f"write: edition 1, serials {told(serials)}", ROOM, memory(TWO, FIRST_EDITION, serials), refused(3)
    yield "write: edition 1, no serial", ROOM, memory(TWO, FIRST_EDITION, (0, 0)), done(13)
    for edition in (FIRST_EDITION, SERIAL_EDITION):
        yield (f"write: edition {edition}, other serials where nothing is named", ROOM,
               memory(TWO, edition, (0, 0), 2 ** 32 - 1), done(13 + 2 * (edition == SERIAL_EDITION)))
    sixteen = [SERIALS[c % len(SERIALS)] for c in range(MOST_DEVICES)]
    length = len(FULL) + sum(len(number(serial)) for serial in sixteen)
    yield "write: serials of all lengths for 16 devices", ROOM, memory(FULL, SERIAL_EDITION, sixteen), done(length)
    yield ("write: serial 2,097,152 of device 16", ROOM,
           memory(FULL, SERIAL_EDITION, [0] * 15 + [MOST_SERIAL + 1]), refused(3))


def written_editions():
    """Editions, of lines without devices and with two."""
    for edition in (0, 1, 2, 3, 255):
        answer = done(5) if edition in (FIRST_EDITION, SERIAL_EDITION) else refused(3)
        yield f"write: edition {edition}, the smallest line", ROOM, memory(SMALLEST, edition, ()), answer
        yield (f"write: edition {edition}, other serials and no devices", ROOM,
               memory(SMALLEST, edition, (), 2 ** 32 - 1), answer)
    for edition in (0, 3):
        yield f"write: edition {edition}, two devices", ROOM, memory(TWO, edition, (0, 0)), refused(3)
    for edition, answer in ((1, short(5)), (2, short(5)), (3, refused(3))):
        yield f"write: edition {edition}, the smallest line into 4 bytes", 4, memory(SMALLEST, edition, ()), answer


def written_orders():
    """A serial that is too large comes before 5, 6 and the area's length, and behind nothing."""
    second = changed(TWO, (8, 3))
    yield "write: 5, with serials", ROOM, memory(second, SERIAL_EDITION, (0, 1)), refused(5)
    yield "write: a serial too large, and 5", ROOM, memory(second, SERIAL_EDITION, (0, MOST_SERIAL + 1)), refused(3)
    yield "write: a serial too large, and no area", 0, memory(TWO, SERIAL_EDITION, (MOST_SERIAL + 1, 0)), refused(3)


def written_ends():
    """A configuration in memory of as many bytes as there may be."""
    noise = marks(SERIAL_EDITION, [7, LARGE, 1, 9]) + noisy(memory_of(TWO, WIDE), lambda at: 255 - at % 3, WIDE)
    yield "write: serials 70,000 and 1, and noise where nothing is named", ROOM, noise, done(17)


def writes(line_l):
    """Label, the area's length, edition, serials and memory, the answer."""
    yield from written_lengths(line_l)
    yield from written_serials()
    yield from written_editions()
    yield from written_orders()
    yield from written_ends()
