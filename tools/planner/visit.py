"""visit.csv and bringup.csv, one move a row, into moves with numbers; and a move back into words."""
from dataclasses import dataclass

from . import wording as w
from .names import CONTENT_WORDS, key, likely, number_of
from .table import LINE_BLANKS, composed, gather, squeezed

VISIT, BRINGUP = "visit.csv", "bringup.csv"
COLUMNS_OF = {"who": "who", "where": "where", "items": "what", "pairs": "what", "objects": "what"}


@dataclass(frozen=True)
class Item:
    """What a write stores: a value number (form 0) or sixteen bytes (form 1)."""
    object: int
    form: int
    value: int = 0
    raw: bytes = bytes(w.CONTENT_BYTES)


@dataclass(frozen=True)
class Pair:
    """What a read takes, and where it is copied to; destination 0 is none."""
    source: int
    destination: int


@dataclass(frozen=True)
class Move:
    """An operation: the spreadsheet's row, the code, who acts, the partition, what with; and whether of bringup.csv."""
    row: int
    code: int
    who: int = 0
    where: int = 0
    what: tuple = ()
    bringup: bool = False

    @property
    def actor(self):
        return w.CODES[self.code].actor

    @property
    def spot(self):
        """Where the move stands: 'row 4', or 'row 4 of bringup.csv' where the visit's own rows are not meant."""
        return f"row {self.row} of {BRINGUP}" if self.bringup else f"row {self.row}"

    def stored_to(self):
        """The objects that the move stores into."""
        if self.code in w.WRITES:
            return [item.object for item in self.what]
        return [pair.destination for pair in self.what if pair.destination] if self.code in w.READS else []

    def named(self):
        """Every object that the move names, sources and destinations in order."""
        if self.code in w.READS:
            return [n for pair in self.what for n in (pair.source, pair.destination) if n]
        return [item.object if isinstance(item, Item) else item for item in self.what]


def read_visit(line, rows):
    """The moves of the rows of visit.csv, and of bringup.csv."""
    return gather(rows, lambda row: read_move(line, row))


def read_move(line, row):
    verb = key(row.needed("operation"))
    if verb not in w.verbs():
        given = row.text("operation")
        raise row.fault("operation", f"'{given}' is none of: {', '.join(w.verbs())}{likely(given, w.verbs())}")
    actor, who = read_actor(line, row)
    code = find_code(row, verb, actor)
    used = {COLUMNS_OF[part] for part in code.fields}
    for column in ("where", "what"):
        if row.text(column) and column not in used:
            raise row.fault(column, f"must be empty: '{verb}' has no use for it here")
    where = read_partition(line, row) if "where" in code.fields else 0
    what = ()
    for part, take in (("items", read_item), ("pairs", read_pair), ("objects", read_object)):
        if part in code.fields:
            what = tuple(take(line, row, text) for text in parts_of(row))
    return Move(row.number, code.number, who, where, what, row.table == BRINGUP)


def read_actor(line, row):
    """Who acts, as a class and a number; nobody if the cell is empty."""
    text = row.text("who")
    if not text:
        return w.NOBODY, 0
    for owner_class in (w.DRIVER, w.DEVICE):
        word, _, rest = key(text).partition(" ")
        if word == w.OWNERS[owner_class] and number_of(rest) is not None:
            return owner_class, number_of(rest)
    return line.owners.find(row, "who", text, "driver or card")


def find_code(row, verb, actor):
    codes = {code.actor: code for code in w.CODES.values() if code.verb == verb}
    if actor in codes:
        return codes[actor]
    needed = " or ".join(f"a {w.OWNERS[one]}" for one in (w.DRIVER, w.DEVICE) if one in codes)
    if actor == w.NOBODY:
        raise row.fault("who", f"is empty: '{verb}' needs {needed}")
    if needed:
        raise row.fault("who", f"'{row.text('who')}' is a {w.OWNERS[actor]}: '{verb}' needs {needed}")
    raise row.fault("who", f"must be empty: '{verb}' is done by nobody in particular")


def read_partition(line, row):
    """A partition by its name or its number, with or without '#'."""
    text = row.needed("where")
    plain = number_of("#" + text.removeprefix("#"))
    if line.partitions.get(text) is None and plain is not None:
        return plain
    return line.partitions.find(row, "where", text)


def parts_of(row):
    """What stands between the semicolons, with the blanks inside as they are: they may be a text's."""
    row.needed("what")
    parts = [part.strip() for part in row.whole("what").split(";")]
    parts = [part for part in parts if part]
    if not parts:
        raise row.fault("what", "is empty")
    return parts


def read_object(line, row, text):
    number = number_of(text)
    return number if number is not None else line.objects.find(row, "what", squeezed(text))


def read_pair(line, row, text):
    source, arrow, destination = (part.strip() for part in text.partition("->"))
    if arrow and not destination:
        raise row.fault("what", f"'{squeezed(text)}' says no destination after '->'")
    return Pair(read_object(line, row, source), read_object(line, row, destination) if arrow else 0)


def read_item(line, row, text):
    """`object = value`, `object = text ..`, `object = bytes ..` or `object = cleared`."""
    name, equals, content = (part.strip() for part in text.partition("="))
    if not equals or not content:
        raise row.fault("what", f"'{squeezed(text)}' does not say what to write; write it as 'object = value'")
    number = read_object(line, row, name)
    transfer = line.config.is_descriptor(number)
    word, *rest = content.split(None, 1)
    if key(word) in CONTENT_WORDS:
        return Item(number, w.RAW_FORM, raw=read_raw(row, key(word), *rest))
    content = squeezed(content)
    if key(content) == w.CLEARED:
        return Item(number, w.VALUE_FORM if transfer else w.RAW_FORM)
    value = number_of(content)
    if value is None and line.values.get(content) is None and not transfer:
        owner = squeezed(name)
        raise row.fault("what", f"'{content}' is no value; contents of {owner} are written as 'text ..' or 'bytes ..'")
    return Item(number, w.VALUE_FORM, line.values.find(row, "what", content) if value is None else value)


def read_raw(row, word, rest=""):
    """Up to sixteen bytes, filled up with zeros; a text is taken as it stands between its first and last letter."""
    plain = squeezed(rest)
    if word == "text" and not rest:
        raise row.fault("what", f"'text' has no text behind it; write '{w.CLEARED}' for none")
    if word == "text" and any(mark in rest for mark in LINE_BLANKS):
        raise row.fault("what", f"'text {plain}' has a tab or a line end in it; give it as 'bytes ..'")
    try:
        raw = rest.encode() if word == "text" else bytes.fromhex(plain)
    except ValueError:
        raise row.fault("what", f"'bytes {plain}' is not in pairs of 0 to 9 and a to f") from None
    if len(raw) > w.CONTENT_BYTES:
        given = rest if word == "text" else plain
        raise row.fault("what", f"'{word} {given}' has {len(raw)} bytes; an object holds {w.CONTENT_BYTES}")
    return raw.ljust(w.CONTENT_BYTES, b"\0")


def raw_words(raw):
    """Sixteen bytes in words: cleared, a text if one gives these bytes and can be seen, or bytes."""
    trimmed = raw.rstrip(b"\0")
    text = trimmed.decode("utf-8", "replace")
    if not trimmed:
        return w.CLEARED
    plain = text.isprintable() and text == composed(text).strip() and ";" not in text and text.encode() == trimmed
    return f"text {text}" if plain else f"bytes {trimmed.hex(' ')}"


def item_words(config, item):
    """An item as it stands in visit.csv; 'cleared' only where it is read back as the same."""
    if item.form == w.VALUE_FORM:
        content = config.value(item.value) if item.value or config.is_descriptor(item.object) else "#0"
    else:
        content = raw_words(item.raw)
        content = "bytes 00" if content == w.CLEARED and config.is_descriptor(item.object) else content
    return f"{config.object(item.object)} = {content}"


def move_cells(config, move):
    """A move as the cells of a row of visit.csv: operation, who, where, what."""
    code = w.CODES[move.code]
    crew = config.drivers if code.actor == w.DRIVER else config.devices
    who = config.actor(code.actor, move.who) if "who" in code.fields else ""
    if move.who in crew:
        who = who.partition(" ")[2]
    where = config.partitions.get(move.where, move.where) if "where" in code.fields else ""
    return code.verb, who, where, "; ".join(part_words(config, part) for part in move.what)


def move_words(config, move):
    """A move as a sentence in the planner's words."""
    code = w.CODES[move.code]
    who = config.driver(move.who) if code.actor == w.DRIVER else config.device(move.who)
    what = "; ".join(part_words(config, part) for part in move.what)
    where, partition = config.partition(move.where), config.full_partition(move.where)
    return code.sentence.format(who=who, where=where, partition=partition, what=what)


def part_words(config, part):
    if isinstance(part, Pair):
        arrow = f" -> {config.object(part.destination)}" if part.destination else ""
        return config.object(part.source) + arrow
    if isinstance(part, Item):
        return item_words(config, part)
    return config.object(part)
