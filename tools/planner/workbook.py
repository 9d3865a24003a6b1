"""Workbooks: a plan's tables as the sheets of one `.xlsx` or `.ods` file, read and written by known libraries.

A folder has either tables or one workbook called `plan`. What is in the sheets is text here; the libraries are asked
for only where a workbook is.
"""
import functools
import importlib
import sys
from dataclasses import dataclass, field
from pathlib import Path

from . import disk

STEM = "plan"
# Where a Debian system has its Python libraries, which a Python from elsewhere does not look into.
DISTRIBUTION = "/usr/lib/python3/dist-packages"
LIBRARIES = {".xlsx": ("openpyxl", "python3-openpyxl", "openpyxl"), ".ods": ("odf", "python3-odf", "odfpy")}
MODULES = {".xlsx": "book_xlsx", ".ods": "book_ods"}
NAMES = tuple(STEM + suffix for suffix in LIBRARIES)
LISTS = "names"
GOOD, BAD = "good", "bad"
BACKUP = ".before"


class BookError(Exception):
    """A workbook that cannot be read or written."""


@dataclass
class Page:
    """A sheet: its rows of texts, the first its heading; lists to choose from by column; rows' colours by column."""
    rows: list
    choices: dict = field(default_factory=dict)
    marks: dict = field(default_factory=dict)
    numbers: tuple = ()


def is_book(path):
    return Path(path).suffix.lower() in LIBRARIES


def sheet_name(table):
    return table.removesuffix(".csv")


def library(suffix, doing):
    """The module that reads and writes such files; BookError with how to get what it needs."""
    needed, package, pip = LIBRARIES[suffix]
    try:
        importlib.import_module(needed)
    except ImportError:
        try:
            if DISTRIBUTION not in sys.path:
                sys.path.append(DISTRIBUTION)
            importlib.import_module(needed)
        except ImportError:
            raise BookError(f"to {doing} {suffix} files Python's library {pip} is needed, and is not installed: 'sudo "
                            f"apt-get install {package}' or 'pip install {pip}' gets it; tables saved as CSV need "
                            "nothing") from None
    return importlib.import_module(f".{MODULES[suffix]}", __package__)


def is_there(path):
    with disk.told("read", path):
        return path.exists()


def find_book(folder, tables):
    """The workbook of a folder, or None; BookError if there are two, or tables beside it."""
    beside = [name for name in tables if is_there(Path(folder) / name)]
    there = [Path(folder) / name for name in NAMES if is_there(Path(folder) / name)]
    if len(there) > 1 or there and beside:
        other = there[1].name if len(there) > 1 else beside[0]
        raise BookError(f"{folder} has both {there[0].name} and {other}: keep the one that is the plan")
    return there[0] if there else None


def read_book(path):
    """The sheets of a workbook by name, in small letters: rows of texts, without what is empty at their ends."""
    with disk.told("read", path):
        stat = Path(path).stat()
    return read_once(Path(path), stat.st_mtime_ns, stat.st_size)


@functools.lru_cache(maxsize=4)
def read_once(path, _time, _size):
    module = library(path.suffix.lower(), "read")
    try:
        with disk.told("read", path):
            sheets = list(module.read(path))
    except disk.FileError:
        raise
    except Exception as fault:  # noqa: whatever a library says of a damaged file
        kind = type(fault).__name__
        raise BookError(f"{path.name} cannot be read as a workbook ({kind}); save it anew as {path.suffix}") from None
    return {name.strip().lower(): trimmed(rows) for name, rows in sheets}


def trimmed(rows):
    """Rows without empty cells at their right and without empty rows at the end."""
    made = []
    for row in rows:
        cells = list(row)
        while cells and not cells[-1].strip():
            cells.pop()
        made.append(cells)
    while made and not made[-1]:
        made.pop()
    return made


def text_of(value):
    """A cell's value as it would be typed: whole numbers without a point."""
    if value is None:
        return ""
    if isinstance(value, float) and value.is_integer():
        return str(int(value))
    return str(value)


def open_elsewhere(path):
    """The lock file of a spreadsheet program that has the workbook open; None if there is none."""
    locks = [path.with_name(f".~lock.{path.name}#"), path.with_name(f"~${path.name}")]
    return next((lock for lock in locks if lock.exists()), None)


def write_book(path, pages, lists):
    """Writes a workbook; one that is there is kept beside it as it was. The names of what was written."""
    path = Path(path)
    module = library(path.suffix.lower(), "write")
    with disk.told("write", path):
        lock = open_elsewhere(path)
        path.parent.mkdir(parents=True, exist_ok=True)
        old = path.read_bytes() if path.exists() else None
    if lock:
        raise BookError(f"{path.name} is open in a spreadsheet program ({lock.name}): close it there first")
    kept = {} if old is None else {path.stem + BACKUP + path.suffix: old}
    disk.put(path.parent, {**kept, path.name: module.made(pages, lists)})
    return [path.name, *kept]
