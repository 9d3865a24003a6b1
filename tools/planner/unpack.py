"""line.bin and session.bin taken apart again, with short names: D1, C1, O1, V1."""
from . import wording as w
from .config import Config, Device, Entry, Object, Value
from .pack import number
from .visit import Item, Move, Pair


class Unreadable(Exception):
    """A file that cannot be taken apart; the message says why, and of a number also by which question."""

    def __init__(self, message, question=None):
        super().__init__(message)
        self.question = question


class Reader:
    """The row of numbers, one after the other. What breaks question 1 or 2 is not read."""

    def __init__(self, data):
        self.data, self.at = data, 0

    def number(self):
        value = shift = 0
        start = self.at
        while self.at < len(self.data):
            byte = self.data[self.at]
            self.at += 1
            value |= (byte % 128) << shift
            shift += 7
            if byte < 128:
                if number(value) != self.data[start:self.at]:
                    raise Unreadable("a number is not in its shortest form", 2)
                if value > w.LIMITS["a number"]:
                    raise Unreadable("a number has more than three bytes", 2)
                return value
        raise Unreadable("it ends inside a number", 1)

    def raw(self, count):
        """So many bytes as they are."""
        self.at += count
        if self.at > len(self.data):
            raise Unreadable("it ends too early")
        return self.data[self.at - count:self.at]


def edition_of(data):
    """The edition of a line file."""
    edition = Reader(data).number()
    if edition not in w.EDITIONS:
        raise Unreadable(f"it is of edition {edition}; this tool reads {' and '.join(map(str, w.EDITIONS))}")
    return edition


def read_line_bytes(data):
    """The configuration in a line file. Of an edition 2 file its serials are kept, and the edition only by them."""
    edition, reader = edition_of(data), Reader(data)
    _, drivers, devices, objects, values = (reader.number() for _ in range(5))
    config = Config(drivers={n: f"D{n}" for n in range(1, drivers + 1)})
    for n in range(1, objects + 1):
        config.objects[n] = Object(f"O{n}", reader.number(), reader.number(), reader.number())
    for n in range(1, devices + 1):
        hardcoded = reader.number()
        config.devices[n] = Device(f"C{n}", hardcoded, reader.number() if edition == w.SERIAL_EDITION else 0)
    for n in range(1, values + 1):
        entries = tuple(Entry(reader.number(), reader.number(), reader.number()) for _ in range(reader.number()))
        config.values[n] = Value(f"V{n}", entries)
    if reader.at != len(data):
        raise Unreadable("bytes are left over")
    return config


def read_session_bytes(data):
    """The moves of a session, in rows from 2 on."""
    reader, moves = Reader(data), []
    while reader.at < len(data):
        place = len(moves) + 1
        try:
            moves.append(read_record(reader.raw(reader.number()), place + 1))
        except Unreadable as fault:
            raise Unreadable(f"record {place} cannot be a row of visit.csv: {fault}") from None
    return moves


def read_record(data, row):
    """The move in a record; one that question 10 stops is no move."""
    reader = Reader(data)
    code = reader.number()
    if code not in w.CODES:
        raise Unreadable(f"there is no code {code}")
    parts = {"who": 0, "where": 0, "what": ()}
    for field in w.CODES[code].fields:
        if field in w.LISTS:
            parts["what"] = tuple(read_part(reader, field) for _ in range(reader.number()))
            if not parts["what"]:
                raise Unreadable("it has a count of 0")
        else:
            parts[field] = reader.number()
    if reader.at != len(data):
        raise Unreadable("bytes are left over")
    return Move(row, code, **parts)


def read_part(reader, field):
    """An item, a pair or a listed object."""
    if field == "objects":
        return reader.number()
    if field == "pairs":
        return Pair(reader.number(), reader.number())
    target, form = reader.number(), reader.number()
    if form == w.VALUE_FORM:
        return Item(target, form, reader.number())
    if form != w.RAW_FORM:
        raise Unreadable(f"there is no form {form}")
    return Item(target, form, raw=bytes(reader.raw(w.CONTENT_BYTES)))
