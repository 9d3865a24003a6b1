"""A plan into a workbook: its tables as sheets, names to choose from, and beside the visit the answers in colour."""
from . import disk
from . import wording as w
from .sheet import Form, encode
from .table import Table, TableError, headings
from .tables import COLUMNS, OPTIONAL, SHORT_KINDS, open_tables, read_line
from .visit import BRINGUP, VISIT
from .workbook import BACKUP, BAD, GOOD, BookError, Page, find_book, is_book, read_book, sheet_name, write_book

ANSWERS = ("answer", "failed on")
OWNERS, ACTORS, VALUES, OBJECTS, PARTITIONS = "owners", "drivers and cards", "values", "objects", "partitions"
# The list to choose from, by table and column.
CHOICES = {
    ("cards.csv", "hard-wired value"): VALUES, ("objects.csv", "kind"): "kinds", ("objects.csv", "owner"): OWNERS,
    ("values.csv", "object"): OBJECTS, ("values.csv", "mode"): "modes", ("values.csv", "put"): VALUES,
    **{(table, column): name for table in (VISIT, BRINGUP)
       for column, name in (("operation", "operations"), ("who", ACTORS), ("where", PARTITIONS))},
}
# The columns that have numbers in them.
NUMBERS = (("partitions.csv", "number"), ("cards.csv", "serial"))


def lists_of(config):
    """What can be chosen: words of the papers, and the names that the plan has now."""
    actors = [*config.drivers.values(), *(device.name for device in config.devices.values())]
    return {
        "kinds": list(SHORT_KINDS.values()), "modes": list(w.MODES.values()),
        "operations": w.verbs(),
        OWNERS: [*actors, w.OWNERS[w.EXTERNAL]], ACTORS: actors,
        VALUES: [*(value.name for value in config.values.values()), w.CLEARED],
        OBJECTS: [one.name for one in config.objects.values()],
        PARTITIONS: list(config.partitions.values()),
    }


def without_answers(lines):
    """A table's rows without the columns that a workbook has for the answers."""
    heading = headings(lines[0]) if lines else []
    kept = [at for at, name in enumerate(heading) if name not in ANSWERS]
    return [[line[at] if at < len(line) else "" for at in kept] for line in lines]


def page_of(name, lines):
    """A sheet of a table, with its lists to choose from."""
    lines = [list(line) for line in lines] or [list(COLUMNS[name])]
    heading = headings(lines[0])
    choices = {at: CHOICES[(name, column)] for at, column in enumerate(heading) if (name, column) in CHOICES}
    return Page(lines, choices, numbers=tuple(at for at, column in enumerate(heading) if (name, column) in NUMBERS))


def pages_of(tables, plan=None):
    """The sheets of all tables; with a judged plan its answers stand beside visit and bring-up."""
    pages = {}
    for name, table in tables.items():
        lines = without_answers(table.lines) if name in (VISIT, BRINGUP) else table.lines
        if lines or name not in (BRINGUP, "partitions.csv"):
            pages[sheet_name(name)] = page_of(name, lines)
    for name, steps in ((BRINGUP, plan.steps[:plan.first]), (VISIT, plan.visit)) if plan and plan.steps else ():
        if sheet_name(name) in pages:
            add_answers(plan, pages[sheet_name(name)], steps)
    return pages


def add_answers(plan, page, steps):
    """Two columns behind the table: the answer, in colour and in words, and what the move failed on."""
    width = max(map(len, page.rows))
    for row in page.rows:
        row += [""] * (width - len(row) + len(ANSWERS))
    page.rows[0][width:] = ANSWERS
    for step in steps:
        said = "accepted" if step.accepted else f"refused {step.answer}"
        failed = "; ".join(finding.text for finding in plan.findings(step))
        page.rows[step.move.row - 1][width:] = [said, failed]
        page.marks[(step.move.row, width)] = GOOD if step.accepted else BAD


def place_of(folder, name):
    """Where a plan has a table, in words: the file, or the workbook's sheet."""
    book = find_book(folder, COLUMNS)
    return f"{book}, sheet {sheet_name(name)}" if book else str(folder / name)


def put_table(folder, name, lines, form, keep=False):
    """Puts a table down where the plan has it: a file, or a sheet of the workbook. What was written, by name.

    With `keep` a file that is there is kept beside it as it was; a workbook always is.
    """
    book = find_book(folder, COLUMNS)
    if book:
        tables = open_tables(folder, list(COLUMNS))
        tables[name] = Table([], len(lines), form, lines)
        return write_book(book, pages_of(tables), lists_of(read_line(folder).config))
    stem = name.removesuffix(".csv")
    kept = {f"{stem}{BACKUP}.csv": disk.read(folder / name)} if keep else {}
    disk.put(folder, {**kept, name: encode(lines, form)})
    return [name, *kept]


def store_book(folder, path, plan, replace=False):
    """Writes a judged plan of a folder as a workbook; one that is there only if it is to be replaced."""
    if not is_book(path):
        raise BookError(f"{path}: a workbook is called .xlsx or .ods")
    with disk.told("read", path):
        there = path.exists()
    if there and not replace:
        raise BookError(f"{path} is already there; nothing was changed (--replace does it)")
    return write_book(path, pages_of(open_tables(folder, list(COLUMNS)), plan), lists_of(plan.config))


def book_tables(path):
    """The tables in a workbook, as files by name; without the columns for the answers."""
    sheets = read_book(path)
    found = {name: sheets[sheet_name(name)] for name in COLUMNS if sheets.get(sheet_name(name))}
    absent = [name for name in COLUMNS if name not in found and name not in OPTIONAL]
    if absent:
        raise TableError(f"{path.name}, sheet {sheet_name(absent[0])}", None, None, "is not there")
    return {name: encode(without_answers(lines), Form()) for name, lines in found.items()}
