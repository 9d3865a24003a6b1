"""line.bin and session.bin in a plan's folder: they stand beside its tables only as made from them and judged."""
from . import disk
from .office import LINE, SESSION
from .tables import COLUMNS
from .workbook import NAMES


def clear(folder):
    """Takes away what an earlier check made, so that it is not judged for what the tables say now.

    A folder without any table is no plan, and what is there was given and not made.
    """
    with disk.told("write"):
        if any((folder / name).exists() for name in (*COLUMNS, *NAMES)):
            for name in (LINE, SESSION):
                (folder / name).unlink(missing_ok=True)


def store(folder, line, session):
    """Puts both files down."""
    disk.put(folder, {LINE: line, SESSION: session})
