"""line.bin and session.bin: a configuration and moves put down as document 01 says."""
from . import wording as w


def number(value):
    """A number in groups of seven bits, lowest first, shortest form."""
    out = bytearray()
    while value >= 128:
        out.append(value % 128 + 128)
        value //= 128
    out.append(value)
    return bytes(out)


def row_of(numbers):
    return b"".join(number(value) for value in numbers)


def line_bytes(config):
    """The line file of a configuration; whether it is accepted is for the program to say."""
    numbers = [config.edition, len(config.drivers), len(config.devices), len(config.objects), len(config.values)]
    for one in config.objects.values():
        numbers += [one.kind, one.owner_class, one.owner]
    for device in config.devices.values():
        numbers += [device.hardcoded, device.serial] if config.edition == w.SERIAL_EDITION else [device.hardcoded]
    for value in config.values.values():
        numbers.append(len(value.entries))
        for entry in value.entries:
            numbers += [entry.object, entry.mode, entry.stored]
    return row_of(numbers)


def part_bytes(part, sort):
    """An item, a pair or a listed object."""
    if sort == "items":
        content = number(part.value) if part.form == w.VALUE_FORM else part.raw
        return row_of([part.object, part.form]) + content
    return row_of([part.source, part.destination]) if sort == "pairs" else number(part)


def record_bytes(move):
    """The operation record of a move: its code, then the code's fields."""
    out = number(move.code)
    for field in w.CODES[move.code].fields:
        if field in w.LISTS:
            out += number(len(move.what)) + b"".join(part_bytes(part, field) for part in move.what)
        else:
            out += number(move.who if field == "who" else move.where)
    return out


def session_bytes(moves):
    """The records, each after its length."""
    records = [record_bytes(move) for move in moves]
    return b"".join(number(len(record)) + record for record in records)
