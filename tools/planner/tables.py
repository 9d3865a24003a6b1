"""The tables of a folder into a configuration with its names, and a configuration back into tables."""
from dataclasses import dataclass, field, replace
from pathlib import Path

from . import disk
from . import wording as w
from .config import Config, Device, Entry, Object, Value
from .names import Names, key, likely
from .sheet import Form, encode
from .table import TableError, TableErrors, gather, read_sheet, read_table
from .visit import BRINGUP, VISIT, move_cells
from .workbook import NAMES, find_book, read_book

COLUMNS = {
    "partitions.csv": ("partition", "number"),
    "drivers.csv": ("driver",),
    "cards.csv": ("card", "hard-wired value"),
    "objects.csv": ("object", "kind", "owner"),
    "values.csv": ("value", "object", "mode", "put"),
    VISIT: ("operation", "who", "where", "what"),
    BRINGUP: ("operation", "who", "where", "what"),
}
# Columns that a table may have beside these, and need not.
FURTHER = {"cards.csv": ("serial",)}
OPTIONAL = ("partitions.csv", BRINGUP)
OF_LINE = [name for name in COLUMNS if name not in (VISIT, BRINGUP)]
NOTE = "note"
SHORT_KINDS = {w.TRANSFER: "transfer", w.FUNCTION: "function", w.DATA: "data", w.HARDCODED: "hard-wired"}


def kind_words():
    """Every way to write a kind: the short word, the long one, the number."""
    words = {}
    for kind, short in SHORT_KINDS.items():
        words.update({short: kind, f"{short} descriptor": kind, w.KINDS[kind]: kind, str(kind): kind})
    return words


@dataclass
class Line:
    """A configuration and the names to find things by."""
    config: Config = field(default_factory=Config)
    owners: Names = field(default_factory=lambda: Names("owner"))
    objects: Names = field(default_factory=lambda: Names("object"))
    values: Names = field(default_factory=lambda: Names("value"))
    partitions: Names = field(default_factory=lambda: Names("partition"))


def read_line(folder):
    """The line that a folder's tables tell. Faults are gathered table by table, since each rests on those before."""
    tables = open_tables(folder, OF_LINE)
    line = Line()
    take_partitions(line, tables["partitions.csv"].rows)
    take_owners(line, tables["drivers.csv"].rows, tables["cards.csv"].rows)
    take_objects(line, tables["objects.csv"].rows)
    take_values(line, tables["values.csv"].rows)
    take_hardcoded(line, tables["cards.csv"].rows)
    return line


def open_tables(folder, names):
    """The named tables, of the folder's workbook if it has one; what is missing in any of them is told at once."""
    tables, faults = {}, []
    book = find_book(folder, COLUMNS)
    sheets = read_book(book) if book else {}
    for name in names:
        try:
            known = COLUMNS[name], FURTHER.get(name, ()), name in OPTIONAL
            tables[name] = read_sheet(book, sheets, name, *known) if book else read_table(Path(folder) / name, *known)
        except TableError as fault:
            faults.append(fault)
    if faults:
        raise TableErrors(faults)
    return tables


def whole_number(text, least, most):
    """The number that a cell has in digits alone, if it is one from `least` to `most`; else None."""
    digits = text.lstrip("0") or "0" if text.isascii() and text.isdigit() else ""
    return int(digits) if 0 < len(digits) <= len(str(most)) and least <= int(digits) <= most else None


def take_partitions(line, rows):
    def take(row):
        text = row.needed("number")
        number = whole_number(text, 1, w.LIMITS["partitions"])
        if number is None:
            raise row.fault("number", f"'{text}' is not a number from 1 to {w.LIMITS['partitions']}")
        if row.text("partition").isdigit():
            raise row.fault("partition", f"'{row.text('partition')}' is a number; a name has a letter in it")
        if number in line.config.partitions:
            raise row.fault("number", f"{text} is already partition '{line.config.partitions[number]}'")
        line.config.partitions[number] = line.partitions.add(row, "partition", number)

    gather(rows, take)


def read_serial(row):
    """The serial in a card's row, as large as a number of line.bin can be; 0 where there is none."""
    text, most = row.text("serial"), w.LIMITS["a number"]
    serial = whole_number(text or "0", 0, most)
    if serial is None:
        raise row.fault("serial", f"'{text}' is not a number from 0 to {most:,} in digits alone; leave it empty where "
                                  "none is known")
    return serial


def take_owners(line, drivers, cards):
    def take_driver(row):
        number = len(line.config.drivers) + 1
        line.config.drivers[number] = line.owners.add(row, "driver", (w.DRIVER, number))

    def take_card(row):
        number = len(line.config.devices) + 1
        line.config.devices[number] = Device(line.owners.add(row, "card", (w.DEVICE, number)), 0, read_serial(row))

    gather(drivers, take_driver)
    gather(cards, take_card)


def take_objects(line, rows):
    words = kind_words()

    def take(row):
        number = len(line.config.objects) + 1
        name = line.objects.add(row, "object", number)
        kind, owner = row.needed("kind"), row.needed("owner")
        if key(kind) not in words:
            known = list(SHORT_KINDS.values())
            raise row.fault("kind", f"'{kind}' is none of: {', '.join(known)}{likely(kind, known)}")
        outside = key(owner) == w.OWNERS[w.EXTERNAL]
        found = (w.EXTERNAL, 0) if outside else line.owners.find(row, "owner", owner, "driver or card")
        line.config.objects[number] = Object(name, words[key(kind)], *found)

    gather(rows, take)


def take_values(line, rows):
    """Values first, in the order in which they first appear, then their entries, which may put any of them."""
    def take_name(row):
        if line.values.get(row.needed("value")) is None:
            number = len(line.config.values) + 1
            line.config.values[number] = Value(line.values.add(row, "value", number), ())

    gather(rows, take_name)
    for row, entry in zip(rows, gather(rows, lambda row: take_entry(line, row))):
        if entry:
            number = line.values.get(row.text("value"))
            value = line.config.values[number]
            line.config.values[number] = Value(value.name, value.entries + (entry,))


def take_entry(line, row):
    """The entry in a row, or None for a value that has none."""
    if not any(row.text(column) for column in ("object", "mode", "put")):
        return None
    number = line.objects.find(row, "object", row.needed("object"))
    modes = {word: mode for mode, word in w.MODES.items()} | {str(mode): mode for mode in w.MODES}
    mode = modes.get(key(row.needed("mode")))
    if mode is None:
        given, known = row.text("mode"), list(w.MODES.values())
        raise row.fault("mode", f"'{given}' is none of: {', '.join(known)}{likely(given, known)}")
    put = row.text("put")
    if line.config.objects[number].kind != w.TRANSFER or mode == w.READ:
        if put:
            raise row.fault("put", "must be empty: only a write to a transfer descriptor puts a value")
        return Entry(number, mode, 0)
    if not put:
        raise row.fault("put", f"is empty: say which value is put there, or '{w.CLEARED}'")
    return Entry(number, mode, find_value(line, row, "put", put))


def find_value(line, row, column, name):
    return 0 if key(name) == w.CLEARED else line.values.find(row, column, name)


def take_hardcoded(line, rows):
    def take(row):
        return find_value(line, row, "hard-wired value", row.needed("hard-wired value"))

    for number, value in enumerate(gather(rows, take), 1):
        line.config.devices[number] = replace(line.config.devices[number], hardcoded=value)


def table_rows(config, moves):
    """The rows of every table, for a configuration and its moves."""
    def owner(one):
        if one.owner_class == w.EXTERNAL:
            return w.OWNERS[w.EXTERNAL]
        return config.driver(one.owner) if one.owner_class == w.DRIVER else config.device(one.owner)

    def entry_rows(value):
        for entry in value.entries:
            writes = entry.writes and config.objects[entry.object].kind == w.TRANSFER
            put = config.value(entry.stored) if writes else ""
            yield value.name, config.object(entry.object), w.MODES[entry.mode], put
        if not value.entries:
            yield value.name, "", "", ""

    return {
        "partitions.csv": [(name, number) for number, name in config.partitions.items()],
        "drivers.csv": [(name,) for name in config.drivers.values()],
        "cards.csv": [(device.name, config.value(device.hardcoded), device.serial or "")
                      for device in config.devices.values()],
        "objects.csv": [(one.name, SHORT_KINDS[one.kind], owner(one)) for one in config.objects.values()],
        "values.csv": [row for value in config.values.values() for row in entry_rows(value)],
        VISIT: [move_cells(config, move) for move in moves],
    }


def heading_of(name):
    """The heading of a table that is made: all columns that it may have, and one for notes."""
    return COLUMNS[name] + FURTHER.get(name, ()) + (NOTE,)


def write_tables(folder, config, moves=()):
    """Writes all tables but the bring-up into a folder, each with a column for notes; none may be there already."""
    made = {name: encode([heading_of(name)] + [tuple(row) + ("",) for row in rows], Form())
            for name, rows in table_rows(config, moves).items()}
    put_fresh(folder, made)
    return list(made)


def put_fresh(folder, made):
    """Puts tables down by name; neither one of them nor a workbook may be there already."""
    folder = Path(folder)
    with disk.told("write"):
        there = [name for name in (*made, *NAMES) if (folder / name).exists()]
    if there:
        raise TableError(folder / there[0], None, None, "is already there; nothing was changed")
    with disk.told("write"):
        folder.mkdir(parents=True, exist_ok=True)
    disk.put(folder, made)
