"""The program `rewrite` beside the second implementation: both must print the same and make the same `line.out` for
each folder (request N1).

    python3 tests/rewrite.py REWRITE REFERENCE

The folders: generated ones of every size, and bad input (`line.bin` absent, empty, too long, unreadable, refused by
each of the questions 1 to 6). Each is tried without a `line.out` and with older ones, shorter and longer than any file.
Where `line.out` cannot be written, the program must say so on standard error; no program of Rattle's has a status.
"""
import os
import pathlib
import subprocess
import sys
import tempfile

sys.dont_write_bytecode = True
from layout import MOST_DEVICES, MOST_SERIAL, row, with_serials  # noqa: E402
from vectors import L, full_size  # noqa: E402
from vectors_wide import wide_size  # noqa: E402

MOST_LINE = 4096
LINE_L = row(L)
# What `line.out` held before (None: no such file), the last of them longer than any file.
OLDER = (None, b"", b"old", bytes(range(256)) * 20)
# The device's hardcoded value names an external object.
NAMES_EXTERNAL = row([1, 0, 1, 2, 1, 4, 2, 1, 3, 0, 0, 1, 1, 2, 1, 0])

# Serials of one, two and three bytes.
SERIALS = (0, 127, 128, 16383, 16384, 65536, 70000, MOST_SERIAL)

# A name, line.bin (None: no such file), and what must be printed; where it is nothing, line.out is line.bin.
CASES = [
    ("absent", None, b"line 1\n"),
    ("empty", b"", b"line 1\n"),
    ("L", LINE_L, b""),
    ("the smallest line", row([1, 0, 0, 0, 0]), b""),
    ("the largest line", full_size(), b""),
    ("cut", LINE_L[:-1], b"line 1\n"),
    ("a number in two bytes where one would do", bytes([129, 0]) + LINE_L[1:], b"line 2\n"),
    ("edition 2 without serials", bytes([2]) + LINE_L[1:], b"line 3\n"),
    ("edition 3", bytes([3]) + LINE_L[1:], b"line 3\n"),
    ("edition 2, no devices", row([2, 0, 0, 0, 0]), b""),
    *((f"L with the serial {serial:,}", row(with_serials(L, (0, serial))), b"") for serial in SERIALS),
    ("L with serials, cut", row(with_serials(L, (70000, 0)))[:-1], b"line 1\n"),
    ("L with a serial of four bytes", row(with_serials(L, (MOST_SERIAL + 1, 0))), b"line 2\n"),
    ("the largest line of edition 2", row(with_serials(wide_size(), [MOST_SERIAL] * MOST_DEVICES)), b""),
    ("65,536 values", row([1, 0, 0, 0, 65536]), b"line 3\n"),
    ("48 values", row([1, 0, 0, 0, 48] + [0] * 48), b"line 3\n"),
    ("a byte left over", LINE_L + b"\0", b"line 4\n"),
    ("L twice", LINE_L + LINE_L, b"line 4\n"),
    ("a device without a hardcoded descriptor", row([1, 0, 1, 0, 0, 0]), b"line 5\n"),
    ("a hardcoded value names an external object", NAMES_EXTERNAL, b"line 6\n"),
    ("the most bytes", LINE_L + bytes(MOST_LINE - len(LINE_L)), b"line 4\n"),
    ("the most bytes, no last one", bytes([255] * MOST_LINE), b"line 1\n"),
    ("too long", LINE_L + bytes(MOST_LINE + 1 - len(LINE_L)), b"long\n"),
    ("too long, no last byte", bytes([255] * (MOST_LINE + 1)), b"long\n"),
    ("far too long", bytes(100000), b"long\n"),
]


def stop(name, text):
    sys.exit(f"rewrite.py: {name}: {text}")


def run(words, folder):
    """What a command that must not fail prints in a folder."""
    done = subprocess.run(words, cwd=folder, capture_output=True, timeout=60)
    if done.returncode or done.stderr:
        stop(folder, f"{words[0]} ends with {done.returncode} and says {done.stderr[:200]!r}")
    return done.stdout


def content(path):
    """The bytes of a file; None if there is no such file."""
    return path.read_bytes() if path.exists() else None


def put(path, data):
    """Makes a file hold these bytes; None: no such file."""
    path.unlink(missing_ok=True)
    if data is not None:
        path.write_bytes(data)


def shown(data):
    """A file in a message."""
    return "no file" if data is None else f"{len(data)} bytes {data[:40]!r}"


def others(folder):
    """All that the program must leave as it is."""
    return {path.name: path.read_bytes() for path in folder.iterdir() if path.name != "line.out"}


def compare(name, folder, rewrite, reference, stated=None):
    """Both programs on one folder, with each older line.out; a difference ends the test."""
    with tempfile.TemporaryDirectory() as elsewhere:
        made = pathlib.Path(elsewhere) / "made"
        text = run([reference, "rewrite", ".", str(made)], folder)
        file = content(made)
    if stated is not None and text != stated:
        stop(name, f"the reference prints {text!r}, the papers {stated!r}")
    if (text == b"") != (file is not None) or file not in (None, content(folder / "line.bin")):
        stop(name, f"the reference prints {text!r} and makes {shown(file)}, which is not line.bin")
    before = others(folder)
    for older in OLDER:
        put(folder / "line.out", older)
        got, left = run([rewrite], folder), content(folder / "line.out")
        if got != text or left != (older if file is None else file):
            stop(name, f"the program prints {got[:80]!r} and leaves {shown(left)} where there was {shown(older)}; the "
                       f"reference prints {text!r} and makes {shown(file)}")
        if others(folder) != before:
            stop(name, "another file than line.out has changed")
    return file is not None


def try_cases(root, rewrite, reference):
    """Bad input and good, with what is printed stated."""
    for place, (name, line, stated) in enumerate(CASES):
        folder = root / f"case{place}"
        folder.mkdir()
        put(folder / "line.bin", line)
        compare(name, folder, rewrite, reference, stated)
    return len(CASES)


def try_unreadable(root, rewrite):
    """A folder in line.bin's place cannot be read and counts as empty, as for the office program."""
    folder = root / "unreadable"
    (folder / "line.bin").mkdir(parents=True)
    for older in OLDER:
        put(folder / "line.out", older)
        got = run([rewrite], folder)
        if got != b"line 1\n" or content(folder / "line.out") != older or not (folder / "line.bin").is_dir():
            stop("unreadable", f"the program prints {got!r}, or has changed something")


def try_generated(root, rewrite, reference):
    """Generated folders of every size; how many there are, and how many of their files are accepted."""
    count = accepted = 0
    for size in ("tiny", "small", "medium", "deep", "full"):
        folder = root / size
        run([reference, "generate", "--seed", "7", "--count", "24", "--records", "0", "--size", size, folder], root)
        for each in sorted(folder.iterdir()):
            accepted += compare(f"{size} {each.name}", each, rewrite, reference)
            count += 1
    if not 0 < accepted < count:
        stop("generated", f"{accepted} of {count} files are accepted")
    return count, accepted


# Ways in which line.out cannot be written, and what makes it so.
BLOCKED = [
    ("a folder", lambda out: out.mkdir()),
    ("a link to itself", lambda out: out.symlink_to(out.name)),
    ("a link into a folder that is not there", lambda out: out.symlink_to("nowhere/line.out")),
    ("a full disk", lambda out: out.symlink_to("/dev/full")),
]
if os.geteuid():  # Nothing is closed to root.
    BLOCKED.append(("a file that may not be written", lambda out: out.touch(0o444)))


def try_blocked(root, rewrite):
    """An accepted file must then end with a message that names the file, by no signal; others never come so far."""
    count = 0
    for line, text in ((LINE_L, None), (LINE_L + b"\0", b"line 4\n"), (bytes(MOST_LINE + 1), b"long\n")):
        for name, make in BLOCKED:
            folder = root / f"blocked{count}"
            out = folder / "line.out"
            folder.mkdir()
            put(folder / "line.bin", line)
            make(out)
            before = out.lstat().st_mode
            done = subprocess.run([rewrite], cwd=folder, capture_output=True, timeout=60)
            if text is None:
                right = (done.returncode, done.stdout) == (0, b"") and done.stderr.startswith(b"line.out: ")
            else:
                right = (done.returncode, done.stdout, done.stderr) == (0, text, b"")
            if not right or out.lstat().st_mode != before or others(folder) != {"line.bin": line}:
                stop(f"line.out is {name}", f"the program ends with {done.returncode}, prints {done.stdout!r} and says "
                                            f"{done.stderr!r}, or has changed something")
            count += 1
    return count


def try_same(root, rewrite):
    """line.out may be line.bin by another name: the file is read whole before it is emptied."""
    for name, join in (("a link", lambda out: out.symlink_to("line.bin")),
                       ("the same file", lambda out: os.link(out.with_name("line.bin"), out))):
        folder = root / name.replace(" ", "-")
        folder.mkdir()
        put(folder / "line.bin", LINE_L)
        join(folder / "line.out")
        if run([rewrite], folder) != b"" or others(folder) != {"line.bin": LINE_L}:
            stop(f"line.out is {name}", "line.bin has changed, or something is printed")


def main():
    """All folders."""
    rewrite, reference = (os.path.abspath(word) for word in sys.argv[1:3])
    with tempfile.TemporaryDirectory() as temporary:
        root = pathlib.Path(temporary)
        cases = try_cases(root, rewrite, reference)
        generated, accepted = try_generated(root, rewrite, reference)
        try_unreadable(root, rewrite)
        try_same(root, rewrite)
        unwritten = try_blocked(root, rewrite)
    print(f"rewrite: {cases} folders of good and bad input and {generated} generated ones ({accepted} accepted), as "
          f"the reference has them; {unwritten} in which line.out cannot be written")


if __name__ == "__main__":
    main()
