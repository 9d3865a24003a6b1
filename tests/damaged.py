#!/usr/bin/env python3
"""The example that restores a state area, examples/controller/restore.c, on areas that are damaged: what it tells of
each, and that none is used. On lines of both kinds, with files whose checksum fits, as if another program had stored
the area, and with files whose checksum does not; and the same with files of before areas had lock bytes.

    python3 tests/damaged.py PROGRAM    fails if the built example prints something else, or changes a file
"""
import os
import pathlib
import subprocess
import sys
import tempfile

from layout import DEVICES_FROM, DRIVERS_FROM, MOST_DEVICES, MOST_OBJECTS, SMALL_ROOM, record_at
from manuals import fnv

# A stored file has the area behind a mark and the line's digest, and a digest of all that behind it.
DIGEST_AT, AREA_AT, SUM_BYTES = 8, 16, 8
# The mark of before areas had lock bytes.
OLDER_MARK = b"SGSTATE1"
# Partition 9 is never created by the example; 3 is a green zone's standing, and 4 nobody's; and 2 is no lock's byte.
NOT_CREATED, GREEN, NO_STANDING, NO_LOCK = 9, 3, 4, 2

WHOLE, DAMAGED = "state.bin: whole, and of this line", "state.bin: refused: its checksum does not fit"
WHOLE_OLDER = f"{WHOLE}; stored before cards had locks: none is locked"
OUTSIDE = "no record is broken: the fault is in the bytes of partitions, drivers, cards or locks"
NOT_SHOWN = "no record is broken: the damage does not show there"


def data_line(objects):
    """A line of external data alone."""
    count = [objects] if objects < 128 else [objects, objects >> 7]
    return bytes([1, 0, 0, *count, 0]) + bytes([3, 0, 0]) * objects


def broken_records(objects, room):
    """Each damage as bytes by their places in the area, with the object that is to be named."""
    for object in sorted({1, objects, min(objects + 1, room), room}):
        yield {record_at(object): NOT_CREATED}, object
    yield {record_at(room): NOT_CREATED, record_at(objects): NOT_CREATED, record_at(2): NOT_CREATED}, 2
    yield {1: NO_STANDING, record_at(3): NOT_CREATED}, 3
    if objects < room:
        yield {record_at(room + 1) - 1: 1}, room


def broken_elsewhere(room, older):
    """Bytes that are no record's: a partition that is neither used nor not, a green zone where no partition stands, an
    absent driver, an absent card; and, where there are locks, one that is none and an absent card's."""
    heads = [{40: NO_STANDING}, {0: GREEN}, {DRIVERS_FROM + 15: 1}, {DEVICES_FROM + 15: 1}]
    locks = record_at(room + 1)
    return heads if older else heads + [{locks: NO_LOCK}, {locks + MOST_DEVICES - 1: 1}]


def tried(data, objects, room, older):
    """For each damage: its bytes, whether the checksum is made to fit, and what is told after the file's name."""
    whole = WHOLE_OLDER if older else WHOLE
    for places, object in broken_records(objects, room):
        named = f"the first broken record is that of object {object}"
        yield places, True, [whole, " 9  look at the area", named]
        yield places, False, [DAMAGED, named]
    for places in broken_elsewhere(room, older):
        yield places, True, [whole, " 9  look at the area", OUTSIDE]
        yield places, False, [DAMAGED, NOT_SHOWN]
    # Contents of data are free, so that nothing but the checksum tells; and a file that may be another line's.
    yield {record_at(data) + 1: 7}, False, [DAMAGED, NOT_SHOWN]
    yield {DIGEST_AT - AREA_AT: 0, record_at(1): NOT_CREATED}, False, [DAMAGED]


def damaged(stored, places, fits):
    """The stored file with other bytes at these places of its area, and with a new checksum if it is to fit."""
    file = bytearray(stored)
    for place, byte in places.items():
        file[AREA_AT + place] = byte
    return bytes(file[:-SUM_BYTES]) + fnv(file[:-SUM_BYTES]) if fits else bytes(file)


def as_older(stored):
    """The file as it was stored before areas had lock bytes."""
    file = OLDER_MARK + stored[DIGEST_AT:-SUM_BYTES - MOST_DEVICES]
    return file + fnv(file)


def start(program, folder):
    """One start of the controller: its rows without the blanks before a text, and its status."""
    done = subprocess.run([program, "state.bin", "line.bin"], cwd=folder, stdout=subprocess.PIPE, text=True, timeout=60)
    return [row.removeprefix("    ") for row in done.stdout.splitlines()], done.returncode


def try_line(program, folder, line, data, objects, room):
    state = folder / "state.bin"
    state.unlink(missing_ok=True)
    (folder / "line.bin").write_bytes(line)
    if start(program, folder)[1] != 0:
        sys.exit(f"damaged: nothing is stored of a line of {objects} objects")
    today = state.read_bytes()
    return sum(try_damages(program, folder, stored, older, data, objects, room)
               for stored, older in ((today, False), (as_older(today), True)))


def try_damages(program, folder, stored, older, *line):
    """Every damage of a file; how many there are."""
    state, count = folder / "state.bin", 0
    for places, fits, wanted in tried(*line, older):
        state.write_bytes(damaged(stored, places, fits))
        rows, status = start(program, folder)
        age = "older" if older else "of today"
        what = f"{line[1]} objects, {age}, {places}, checksum {'made to fit' if fits else 'left'}"
        if rows != wanted or status != 1:
            sys.exit(f"damaged: {what}: it prints {rows} and ends with {status}, and not {wanted} and 1")
        if state.read_bytes() != damaged(stored, places, fits):
            sys.exit(f"damaged: {what}: it changed the file")
        count += 1
    return count


def main():
    program = os.path.abspath(sys.argv[1])
    file_l = (pathlib.Path(__file__).resolve().parents[1] / "crates" / "office" / "data" / "line.bin").read_bytes()
    with tempfile.TemporaryDirectory() as place:
        folder = pathlib.Path(place)
        # Object 5 of L is external data, as every object of the other lines is.
        count = sum(try_line(program, folder, *row) for row in (
            (file_l, 5, 6, SMALL_ROOM), (data_line(96), 96, 96, SMALL_ROOM), (data_line(97), 97, 97, MOST_OBJECTS),
            (data_line(192), 192, 192, MOST_OBJECTS)))
    print(f"damaged: of {count} damaged areas the example tells the record, and uses none")


if __name__ == "__main__":
    main()
