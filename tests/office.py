"""The office program beside the second implementation: both must print the same for each folder.

    python3 tests/office.py OFFICE REFERENCE

The folders: generated ones of every size, and bad input (absent, empty, too long and unreadable files; sessions cut in
a length, in a record, after a row; lengths of 0, 127, 128, and from 65,535 to what three bytes hold, and longer), and
sessions of L in edition 2 and with large numbers in their records. `judge` is tried on what a person gets wrong, and
with programs that fail (tests/broken.py), of which it must say that nothing is judged.
"""
import os
import pathlib
import shutil
import subprocess
import sys
import tempfile

import broken
from layout import MOST_NUMBER, number, row, with_serials

HOME = pathlib.Path(__file__).resolve().parent.parent
LINE_L = (HOME / "crates" / "office" / "data" / "line.bin").read_bytes()
MOST_LINE = 4096
MOST_SESSION = 32768
ROW = bytes([2, 5, 1])
# File L in edition 2.
LINE_SERIALS = row(with_serials(list(LINE_L), (70000, 0)))
THREE_ROWS, THREE_ACCEPTED = bytes([2, 5, 1, 2, 5, 2, 2, 5, 3]), b"1 0\n2 0\n3 0\n"

# The request's records with a large number (N7), each after its length.
LARGE = b"".join(number(len(record)) + record for record in map(row, (
    [5, 70000], [70000, 1], [1, 1, 70000, 2, 0, 3], [1, 1, 1, 2, 70000, 3], [1, 1, 1, 2, 0, 70000], [8, 70000, 1])))

# A name, line.bin and session.bin (None: no such file), and what must be printed where the papers say it outright.
CASES = [
    ("both absent", None, None, b"line 1\n"),
    ("line absent", None, ROW, b"line 1\n"),
    ("session absent", LINE_L, None, b""),
    ("both empty", b"", b"", b"line 1\n"),
    ("session empty", LINE_L, b"", b""),
    ("four rows", LINE_L, bytes([2, 5, 1, 2, 5, 1, 2, 6, 1, 2, 5, 1]), b"1 0\n2 14\n3 0\n4 14\n"),
    ("line of the most bytes", LINE_L + bytes(MOST_LINE - len(LINE_L)), ROW, b"line 4\n"),
    ("line too long", LINE_L + bytes(MOST_LINE + 1 - len(LINE_L)), ROW, b"long\n"),
    ("line far too long", bytes(100000), None, b"long\n"),
    ("session of the most bytes", LINE_L, bytes(MOST_SESSION), None),
    ("session too long", LINE_L, bytes(MOST_SESSION + 1), b"long\n"),
    ("session too long, line refused", b"", bytes(MOST_SESSION + 1), b"long\n"),
    ("length without its last byte", LINE_L, ROW + bytes([128]), b"1 0\ncut\n"),
    ("length not in shortest form", LINE_L, ROW + bytes([130, 0, 5, 1]), b"1 0\ncut\n"),
    ("length of four bytes", LINE_L, ROW + bytes([130, 128, 128, 1, 5, 1]), b"1 0\ncut\n"),
    ("record cut short", LINE_L, ROW + bytes([2, 5]), b"1 0\ncut\n"),
    ("record cut short at once", LINE_L, bytes([1]), b"cut\n"),
    ("length 0", LINE_L, bytes([0]) + ROW, b"1 10\n2 0\n"),
    ("length 127", LINE_L, bytes([127]) + bytes(127) + ROW, b"1 10\n2 0\n"),
    ("length 127 cut", LINE_L, bytes([127]) + bytes(126), b"cut\n"),
    ("length 128", LINE_L, bytes([128, 1]) + bytes(128) + ROW, b"1 10\n2 0\n"),
    *((f"length {length:,}", LINE_L, ROW + number(length) + bytes(1000), b"1 0\ncut\n")
      for length in (65535, 65536, 70000, MOST_NUMBER)),
    ("length 2,097,152, of four bytes", LINE_L, ROW + number(MOST_NUMBER + 1) + bytes(1000), b"1 0\ncut\n"),
    ("length of three bytes, the last 0", LINE_L, ROW + bytes([240, 162, 0]) + bytes(1000), b"1 0\ncut\n"),
    ("length 70,000 without its last byte", LINE_L, ROW + bytes([240, 162]), b"1 0\ncut\n"),
    ("edition 2, four rows", LINE_SERIALS, bytes([2, 5, 1, 2, 5, 1, 2, 6, 1, 2, 5, 1]), b"1 0\n2 14\n3 0\n4 14\n"),
    ("edition 2 without serials", bytes([2]) + LINE_L[1:], ROW, b"line 3\n"),
    ("edition 3", bytes([3]) + LINE_L[1:], ROW, b"line 3\n"),
    ("70,000 drivers", bytes([1]) + number(70000), ROW, b"line 3\n"),
    *((f"large numbers, {name}", line, LARGE, b"1 11\n2 10\n3 10\n4 10\n5 11\n6 11\n")
      for name, line in (("L", LINE_L), ("L in edition 2", LINE_SERIALS))),
]


def run(words, folder):
    """What a command prints in a folder."""
    return subprocess.run(words, cwd=folder, stdout=subprocess.PIPE, check=True, timeout=60).stdout


def write_case(folder, line, session):
    """Writes the two files that are there."""
    for name, content in (("line.bin", line), ("session.bin", session)):
        if content is not None:
            (folder / name).write_bytes(content)


def compare(name, folder, office, reference, stated):
    """Both programs on one folder; a difference ends the test."""
    got = run([office], folder)
    want = run([reference, "report", "."], folder)
    if got != want or (stated is not None and got != stated):
        sys.exit(f"office.py: {name}: the office program prints {got[:80]!r}, the reference {want[:80]!r}, "
                 f"the papers {stated!r}")


def try_cases(root, office, reference):
    """Bad input, and a folder in a file's place, which cannot be read and counts as empty."""
    for place, (name, line, session, stated) in enumerate(CASES):
        folder = root / f"case{place}"
        folder.mkdir()
        write_case(folder, line, session)
        compare(name, folder, office, reference, stated)
    folder = root / "unreadable"
    (folder / "line.bin").mkdir(parents=True)
    if run([office], folder) != b"line 1\n":
        sys.exit("office.py: a file that cannot be read does not count as empty")
    return len(CASES) + 1


def try_generated(root, office, reference):
    """Generated folders of every size."""
    count = 0
    for size in ("tiny", "small", "medium", "deep", "full"):
        folder = root / size
        run([reference, "generate", "--seed", "5", "--count", "12", "--records", "60", "--size", size, folder], root)
        for each in sorted(folder.iterdir()):
            compare(str(each.name), each, office, reference, (each / "expected.txt").read_bytes())
            count += 1
    return count


def try_judge(root, judge):
    """Exit status and messages of `judge`."""
    accepted, refused, cut = root / "accepted", root / "refused", root / "cut"
    for folder, session in ((accepted, THREE_ROWS), (refused, ROW + ROW), (cut, ROW + ROW[:1])):
        folder.mkdir()
        write_case(folder, LINE_L, session)
    empty = root / "empty"
    empty.mkdir()
    for words, status, out, err in (
        ([judge, str(accepted)], 0, THREE_ACCEPTED, ""),
        ([judge, str(refused)], 1, b"1 0\n2 14\n", ""),
        ([judge, str(cut)], 1, b"1 0\ncut\n", ""),
        ([judge, str(empty)], 2, b"", "has no line.bin"),
        ([judge, str(root / "nowhere")], 2, b"", "there is no folder"),
        ([judge, "a", "b"], 2, b"", "one folder at most"),
        ([judge, "--program", "nothing"], 2, b"", "there is no program 'nothing'"),
        ([judge, "--program", "office", "rewrite"], 2, b"", "one program at most"),
    ):
        expect(words, status, out, err)
    # A copy with nothing built, where the toolchain is not on the path.
    bare = str(house(root / "bare", judge) / "judge")
    for words, program in (([bare, str(accepted)], "office"), ([bare, "--program", "rewrite"], "rewriting")):
        message = f"'rt' of the Rattle toolchain is not installed; it proves and builds the {program} program"
        expect(words, 2, b"", message, {"PATH": "/usr/bin:/bin"})


def house(place, judge):
    """A copy of `judge` in a tree of its own, in which the test says what target/bin/office is."""
    (place / "crates").mkdir(parents=True)
    (place / "target" / "bin").mkdir(parents=True)
    (place / "crates.txt").touch()
    (place / "tools").symlink_to(pathlib.Path(judge).parent / "tools")
    shutil.copy(judge, place / "judge")
    return place


def try_broken(root, judge, office):
    """Every program that fails, on a session that is accepted: nothing is printed, a message says why, status 2."""
    place, programs = house(root / "house", judge), root / "programs"
    programs.mkdir()
    words, target = [str(place / "judge"), str(root / "accepted")], place / "target" / "bin" / "office"
    shutil.copy(office, target)
    expect(words, 0, THREE_ACCEPTED, "")
    count = 0
    for _, path, message in broken.programs(programs, pathlib.Path(office)):
        shutil.copy(path, target)
        expect(words, 2, b"", message if message != str(path) else str(target))
        count += 1
    # What looks at the text is cut itself.
    shutil.copy(office, target)
    (place / "tools").unlink()
    (place / "tools").mkdir()
    expect(words, 2, b"", "tools/office")
    (place / "tools" / "office").touch()
    expect(words, 2, b"", "tools/office ended with status 0: nothing is judged")
    return count


def try_surroundings(root, judge):
    """Output that cannot be written, too little stack for the program, no Python, no way to tell what is newer."""
    accepted = str(root / "accepted")
    for words in ('> /dev/full', '>&-', '| true; exit "${PIPESTATUS[0]}"'):
        expect(["bash", "-c", f'"$0" "$1" {words}', judge, accepted], 2, b"", "the answers cannot be written")
    for kilobytes, status, out in ((128, 2, b""), (8192, 0, THREE_ACCEPTED)):
        expect(["bash", "-c", f'ulimit -s {kilobytes}; exec "$0" "$1"', judge, accepted], status, out,
               "nothing is judged" if status else "")
    for missing, message in (("python3", "'python3' is not installed"), ("find", "'rt' of the Rattle toolchain")):
        few = root / f"no-{missing}"
        few.mkdir()
        for name in {"bash", "dirname", "find", "python3"} - {missing}:
            (few / name).symlink_to(shutil.which(name))
        expect([judge, accepted], 2, b"", message, {"PATH": str(few)})


def expect(words, status, out, err, env=None):
    """Exit status, what is printed, and a part of the message."""
    done = subprocess.run(words, capture_output=True, timeout=60, env=env)
    if (done.returncode, done.stdout) != (status, out) or err not in done.stderr.decode():
        sys.exit(f"office.py: {words}: {done.returncode} {done.stdout!r} {done.stderr.decode()!r}, expected {status} "
                 f"{out!r} '{err}'")


def main():
    """All folders, then `judge`."""
    office, reference = (os.path.abspath(word) for word in sys.argv[1:3])
    judge = str(HOME / "judge")
    with tempfile.TemporaryDirectory() as temporary:
        root = pathlib.Path(temporary)
        bad = try_cases(root, office, reference)
        generated = try_generated(root, office, reference)
        try_judge(root, judge)
        failing = try_broken(root, judge, office)
        try_surroundings(root, judge)
    print(f"office: {bad} folders of bad input and {generated} generated ones, as the reference has them; "
          f"of {failing} programs that fail nothing is judged")


if __name__ == "__main__":
    main()
