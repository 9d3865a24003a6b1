"""The command `watch`: whenever a table is saved, what is made from the tables is made anew."""
import time
from pathlib import Path

from . import disk
from .tables import COLUMNS
from .workbook import NAMES

SECONDS = 0.5


def stamps(folder):
    """When each table was saved, and its size; None for one that is not there. Half-saved tables change again."""
    found = {}
    with disk.told("read", folder):
        for name in (*COLUMNS, *NAMES):
            try:
                stat = (Path(folder) / name).stat()
                found[name] = (stat.st_mtime_ns, stat.st_size, stat.st_ino)
            except FileNotFoundError:
                found[name] = None
    return found


def changed(before, after):
    """The tables that were saved, made or taken away between two looks."""
    return [name for name in after if before is None or before.get(name) != after[name]]


def watch(folder, act, sleep=time.sleep):
    """Acts on the tables now, and again each time they were saved and have come to rest; ends only by Ctrl-C.

    `act` is given the names of the tables that were saved, none at first.
    """
    seen = stamps(folder)
    act([])
    while True:
        sleep(SECONDS)
        now = stamps(folder)
        if now == seen:
            continue
        # A spreadsheet may write a table in several goes.
        sleep(SECONDS / 2)
        while stamps(folder) != now:
            now = stamps(folder)
            sleep(SECONDS / 2)
        saved, seen = changed(seen, now), now
        act(saved)
