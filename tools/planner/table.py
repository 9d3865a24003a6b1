"""Tables as a spreadsheet saves them: rows with the numbers that the spreadsheet shows, and faults with their place."""
import unicodedata
from dataclasses import dataclass, field
from pathlib import Path

from . import disk, sheet
from .workbook import sheet_name

LINE_BLANKS = "\t\r\n"


class TableError(Exception):
    """A fault in a table: file, row as the spreadsheet counts (the heading is row 1), column, and what is wrong."""

    def __init__(self, file, row, column, message):
        place = [str(file)] + ([f"row {row}"] if row else []) + ([f"column {column}"] if column else [])
        super().__init__(f"{', '.join(place)}: {message}")


class TableErrors(Exception):
    """All faults found, so that they can be mended in one go."""

    def __init__(self, faults):
        super().__init__("\n".join(str(fault) for fault in faults))
        self.faults = faults


def composed(text):
    """The text with each letter in one form (NFC): an umlaut is one letter, however it was typed."""
    return unicodedata.normalize("NFC", text)


def squeezed(text):
    """The text with runs of blanks made one."""
    return " ".join(text.split())


def hidden(text):
    """The first character that nobody sees, blanks, tabs and line ends left out; None if there is none."""
    return next((c for c in text if not c.isprintable() and c not in LINE_BLANKS
                 and unicodedata.category(c) != "Zs"), None)


@dataclass(frozen=True)
class Row:
    """A row of a table: the file's name, with the sheet's in a workbook, the spreadsheet's row number, the cells."""
    file: str
    number: int
    cells: dict
    table: str = ""

    def text(self, column):
        """The cell with runs of blanks made one; an absent cell is empty."""
        return squeezed(self.whole(column))

    def whole(self, column):
        """The cell with its blanks as they are."""
        return composed(self.cells.get(column, ""))

    def needed(self, column):
        """The cell, which must not be empty."""
        text = self.text(column)
        if not text:
            raise self.fault(column, "is empty")
        return text

    def fault(self, column, message):
        return TableError(self.file, self.number, column, message)


@dataclass(frozen=True)
class Table:
    """A table's rows without blank ones, the number of its last row, the form in which it was saved, and all cells."""
    rows: list
    last: int
    form: sheet.Form = field(default_factory=sheet.Form)
    lines: list = field(default_factory=list)

    @property
    def heading(self):
        return headings(self.lines[0]) if self.lines else []


def read_table(path, columns, further=(), optional=False):
    """The table of a file. Columns may stand in any order; those of `further` may be absent, and any others are the
    planner's own."""
    path = Path(path)
    with disk.told("read", path):
        there = path.exists()
    if not there:
        if optional:
            return Table([], 1)
        raise TableError(path.name, None, None, "is not there")
    try:
        text, form = sheet.decode(disk.read(path))
        lines, form = sheet.split(text, form, lambda heading: len(missing(heading, columns)))
    except sheet.SheetError as fault:
        raise TableError(path.name, fault.row, None, str(fault)) from None
    return make_table(path.name, path.name, lines, form, columns, further)


def headings(cells):
    return [squeezed(composed(cell)).lower() for cell in cells]


def missing(heading, columns):
    there = headings(heading)
    return [column for column in columns if column not in there]


def read_sheet(book, sheets, table, columns, further=(), optional=False):
    """The table that is a sheet of a workbook."""
    name = sheet_name(table)
    place = f"{book.name}, sheet {name}"
    if name not in sheets:
        if optional:
            return Table([], 1)
        raise TableError(place, None, None, "is not there")
    return make_table(table, place, sheets[name], sheet.Form(), columns, further)


def make_table(table, name, lines, form, columns, further):
    """The table of rows of cells, the first of which is the heading; `name` is what faults call it."""
    heading = headings(lines[0]) if lines else []
    for column in missing(heading, columns):
        tried = ", ".join(sheet.SEPARATORS.values())
        raise TableError(name, 1, column, f"is missing; the heading must have: {', '.join(columns)} "
                                          f"(tried between the columns: {tried})")
    known = columns + further
    for column in known:
        if heading.count(column) > 1:
            raise TableError(name, 1, column, "stands in the heading twice")
    check_widths(name, heading, lines)
    rows = [Row(name, number, dict(zip(heading, cells)), table) for number, cells in enumerate(lines[1:], 2)]
    rows = [row for row in rows if any(row.text(column) for column in known)]
    gather(rows, lambda row: check_seen(row, known))
    return Table(rows, max(len(lines), 1), form, lines)


def check_widths(name, heading, lines):
    """A heading of one column does not show which separator there is: a second cell may be a part of the name."""
    for number, cells in enumerate(lines[1:], 2):
        if len(heading) == 1 and any(cell.strip() for cell in cells[1:]):
            raise TableError(name, number, None, "has more cells than the heading; give the heading a second column")


def check_seen(row, columns):
    """A fault for a character that nobody sees: two names that look alike would be two, and a terminal obeys some."""
    for column in columns:
        found = hidden(row.whole(column))
        if found:
            name = unicodedata.name(found, "a control character").lower()
            raise row.fault(column, f"has a character in it that cannot be seen: {name} (U+{ord(found):04X}); "
                                    "type the cell anew")


def gather(rows, take):
    """What `take` makes of each row; all rows' faults are raised together."""
    made, faults = [], []
    for row in rows:
        try:
            made.append(take(row))
        except TableError as fault:
            faults.append(fault)
    if faults:
        raise TableErrors(faults)
    return made
