"""The rewriting program gives back every line.bin that the tool makes, byte for byte, and prints nothing; one that is
refused it leaves, with the office program's words. Of a program that does anything else tools/rewrite takes nothing."""
import os
import shutil
import subprocess
import tempfile
import unittest
from pathlib import Path

import german
import sorters
from common import PROGRAM, REWRITE, ROOT, InFolder, plan
from lines import SERIALS, largest_line, random_line, wide_line, with_serials
from planner import office, pack, rewriting
from planner.config import Config
from planner.disk import FileError
from planner.office import LINE
from planner.programs import ProgramError
from planner.rewriting import LOST, OUT
from test_errors import LINES
from test_workbooks import SAVED, SUFFIXES, needs_libraries

SEEDS, WIDE_SEEDS = 300, 40
SIZES = (dict(), dict(cards=7, loose=2), sorters.LARGE, sorters.WIDE)
# How long the longest line file is that is accepted, without serials and with them.
LONGEST = (1773, 1821)
# What a line.out held before: there is none, an empty one, one that is longer than any file.
OLDER = (None, b"", b"\1" * 5000)
# Programs that fail on a line that is accepted, where an older and longer line.out is; and a part of what tools/rewrite
# says of each.
FAULTS = {
    "nothing": ("true", "has not the bytes"),
    "line.out removed": ("rm -f line.out", "line.out is not there"),
    "a byte less": ("head -c -1 line.bin > line.out", "has not the bytes"),
    "a byte more": ('{ cat line.bin; printf "\\0"; } > line.out', "has not the bytes"),
    "another byte": ('{ printf "\\2"; tail -c +2 line.bin; } > line.out', "has not the bytes"),
    "behind what was there": ("cat line.bin >> line.out", "has not the bytes"),
    "an older line.out not emptied": ("cat line.bin 1<> line.out", "has not the bytes"),
    "a word": ("cp line.bin line.out; echo done", "text of 5 bytes is none of its own"),
    "an empty row": ("cp line.bin line.out; echo", "text of 1 bytes is none of its own"),
    "a refusal without its number": ("echo line", "text of 5 bytes is none of its own"),
    "a refusal by 0": ("echo line 0", "text of 7 bytes is none of its own"),
    "a refusal by 7": ("echo line 7", "text of 7 bytes is none of its own"),
    "a refusal without its newline": ("printf 'line 3'", "text of 6 bytes is none of its own"),
    "a row of the office program": ("cp line.bin line.out; echo 1 0", "text of 4 bytes is none of its own"),
    "a complaint": ("cp line.bin line.out; echo no space >&2", f"no space: {LOST}"),
    "a status": ("cp line.bin line.out; exit 3", f"ended with status 3: {LOST}"),
    "a crash": ("cp line.bin line.out; kill -SEGV $$", f"was ended by signal 11: {LOST}"),
    "a folder for line.out": ("rm -f line.out; mkdir line.out", "line.out is a folder, and a file is needed"),
}
# What tools/rewrite cannot see, and these tests must.
UNSEEN = {
    "a refusal of an accepted line": "echo line 3",
    "line.bin emptied": "cp line.bin line.out; : > line.bin",
    "a file beside them": "cp line.bin line.out; : > line.new",
}


def script(path, text):
    """A program that is only a script, by its whole path."""
    path.write_text(f"#!/bin/sh\n{text}\n", encoding="utf-8")
    path.chmod(0o755)
    return path.resolve()


def put(folder, line, older):
    """Puts down the files that there are."""
    for name, data in ((LINE, line), (OUT, older)):
        if data is not None:
            Path(folder, name).write_bytes(data)


def left(program, line, older):
    """Status, text and complaints of a program in a folder with these files, and all files that are there then."""
    with tempfile.TemporaryDirectory() as folder:
        put(folder, line, older)
        done = subprocess.run([program], cwd=folder, capture_output=True, timeout=60)
        files = {path.name: path.is_file() and path.read_bytes() for path in Path(folder).iterdir()}
    return done.returncode, done.stdout, done.stderr, files


class Rewrites(InFolder):
    def given_back(self, line, program=REWRITE):
        """A line that is accepted: whatever line.out was, it is the line then."""
        for older in OLDER:
            self.assertEqual(left(program, line, older), (0, b"", b"", {LINE: line, OUT: line}))

    def left_alone(self, line, text):
        """A line that is not, or is not there: the text is printed, and all files are as they were."""
        for older in OLDER:
            files = {name: data for name, data in ((LINE, line), (OUT, older)) if data is not None}
            self.assertEqual(left(REWRITE, line, older), (0, text, b"", files))

    def made(self, folder, status):
        """The line.bin that a check makes."""
        self.assertEqual(plan("check", folder)[0], status)
        return Path(folder, LINE).read_bytes()


class Lines(Rewrites):
    def test_the_program_is_the_repositorys_own(self):
        self.assertTrue(os.path.samefile(REWRITE, ROOT / "target" / "bin" / "rewrite"))

    def test_examples(self):
        shutil.copytree(ROOT / "examples" / "today", "examples/today")
        for folder in ("examples/visit", "examples/today"):
            self.given_back(self.made(folder, 1))

    def test_the_smallest_and_the_largest(self):
        self.assertEqual(plan("new", "fresh")[0], 0)
        smallest = self.made("fresh", 0)
        largest = [pack.line_bytes(with_serials(largest_line(), serial)) for serial in (0, SERIALS[-1])]
        self.assertEqual((smallest, *map(len, largest)), (pack.line_bytes(Config()), *LONGEST))
        for line in (smallest, b"\2" + smallest[1:], *largest):
            self.given_back(line)

    def test_sorters_of_every_size(self):
        for config in (sorters.small()[0], *(sorters.visit(**size).config for size in SIZES)):
            self.given_back(pack.line_bytes(config))

    def test_random_lines(self):
        for seed in range(SEEDS):
            with self.subTest(seed):
                self.given_back(pack.line_bytes(random_line(seed)))
        for seed in range(WIDE_SEEDS):
            with self.subTest(f"wide {seed}"):
                self.given_back(pack.line_bytes(wide_line(seed)))
                self.given_back(pack.line_bytes(with_serials(random_line(seed), *SERIALS[seed % len(SERIALS):], 1)))

    def test_imported_lines(self):
        """A line.bin made into tables, and these into a line.bin again."""
        configs = [sorters.small()[0], *(sorters.visit(**size).config for size in SIZES), largest_line()]
        configs += [random_line(seed) for seed in range(20)] + [wide_line(seed) for seed in range(4)]
        configs += [with_serials(largest_line(), *SERIALS), with_serials(random_line(0), 0, SERIALS[-1])]
        for place, config in enumerate(configs):
            given, back = Path(f"given{place}.bin"), f"back{place}"
            given.write_bytes(pack.line_bytes(config))
            self.assertEqual(plan("import", given, back)[0], 0)
            self.given_back(self.made(back, 0))

    @needs_libraries
    def test_workbooks(self):
        german.save(Path("plan"), "Calc")
        self.given_back(self.made("plan", 1))
        for suffix in SUFFIXES:
            self.assertEqual(plan("workbook", "plan", f"book{suffix}/plan{suffix}")[0], 0)
            Path(f"saved{suffix}").mkdir()
            shutil.copy(SAVED / f"calc{suffix}", f"saved{suffix}/plan{suffix}")
            for folder in (f"book{suffix}", f"saved{suffix}"):
                self.given_back(self.made(folder, 1))

    def test_refused_lines(self):
        """By the number that the office program prints."""
        for name, old, new, number, message in LINES:
            with self.subTest(message):
                before = (self.visit / name).read_text(encoding="utf-8")
                self.edit(name, old, new)
                self.left_alone(self.made("examples/visit", 1), b"line %d\n" % number)
                (self.visit / name).write_text(before, encoding="utf-8")

    def test_bytes_that_no_table_makes(self):
        """Damaged files, as they may come from elsewhere, by the office program's number; an absent one is empty."""
        line = (self.visit / LINE).read_bytes()
        for bad, number in ((b"", 1), (line[:-1], 1), (b"\x81\0" + line[1:], 2), (b"\3" + line[1:], 3),
                            (line + b"\0", 4)):
            self.assertEqual(office.judge(PROGRAM, bad, b"").refused_line, number)
            self.left_alone(bad, b"line %d\n" % number)
        self.left_alone(None, b"line 1\n")

    def test_too_long_a_line(self):
        objects = self.visit / "objects.csv"
        objects.write_text(objects.read_text(encoding="utf-8") + "".join(
            f"Table {n},data,external,\n" for n in range(1400)), encoding="utf-8")
        self.left_alone(self.made("examples/visit", 1), office.LONG)


class Faults(Rewrites):
    """What these tests would miss, or tools/rewrite take, if they looked at less."""

    def setUp(self):
        super().setUp()
        self.line = (self.visit / LINE).read_bytes()
        Path("programs").mkdir()

    def programs(self, scripts):
        """The programs of a table, each with its name."""
        for place, (name, text) in enumerate(scripts.items()):
            yield name, script(Path(f"programs/{place}"), text)

    def test_these_tests_tell_each(self):
        self.given_back(self.line, script(Path("programs/good"), "cp line.bin line.out"))
        for name, program in self.programs({**{name: text for name, (text, _) in FAULTS.items()}, **UNSEEN}):
            with self.subTest(name), self.assertRaises(AssertionError):
                self.given_back(self.line, program)

    def test_the_tool_tells_each(self):
        for name, program in self.programs({name: text for name, (text, _) in FAULTS.items()}):
            with self.subTest(name), tempfile.TemporaryDirectory() as folder:
                put(folder, self.line, OLDER[-1])
                with self.assertRaises((ProgramError, FileError)) as told:
                    rewriting.rewrite(program, folder)
                self.assertIn(FAULTS[name][1], str(told.exception))


class Tool(Rewrites):
    """tools/rewrite, as it is typed."""

    def typed(self, *words, tool=ROOT / "tools" / "rewrite"):
        done = subprocess.run([tool, *words], capture_output=True, text=True, timeout=60)
        return done.returncode, done.stdout, done.stderr

    def test_written(self):
        out = self.visit / OUT
        for older in OLDER:
            if older is not None:
                out.write_bytes(older)
            self.assertEqual(self.typed("examples/visit"), (0, "", ""))
            self.assertEqual(out.read_bytes(), (self.visit / LINE).read_bytes())

    def test_refused(self):
        line = (self.visit / LINE).read_bytes()
        for bad, text in ((line[:-1], "line 1\n"), (line + b"\0", "line 4\n"), (bytes(5000), "long\n")):
            (self.visit / LINE).write_bytes(bad)
            (self.visit / OUT).write_bytes(b"older")
            self.assertEqual(self.typed("examples/visit"), (1, text, ""))
            self.assertEqual((self.visit / OUT).read_bytes(), b"older")

    def test_no_line(self):
        """The program would take it for empty; who typed the command is told."""
        (self.visit / LINE).unlink()
        self.assertEqual(self.typed("examples/visit"), (2, "", "rewrite: examples/visit/line.bin is not there\n"))
        (self.visit / LINE).mkdir()
        said = "rewrite: examples/visit/line.bin is a folder, and a file is needed\n"
        self.assertEqual(self.typed("examples/visit"), (2, "", said))
        self.assertFalse((self.visit / OUT).exists())

    def test_line_out_cannot_be_written(self):
        out = self.visit / OUT
        for make, undo in ((out.mkdir, out.rmdir), (lambda: out.symlink_to("nowhere/line.out"), out.unlink),
                           (lambda: out.symlink_to("line.out"), out.unlink),
                           (lambda: out.symlink_to("/dev/full"), out.unlink)):
            make()
            status, text, complaints = self.typed("examples/visit")
            undo()
            self.assertEqual((status, text), (2, ""))
            self.assertRegex(complaints, f"^rewrite: line.out: .*: {LOST}\n$")

    def test_not_typed_as_it_should_be(self):
        for words in ((), ("examples/visit", "more"), ("--help",)):
            self.assertEqual(self.typed(*words), (2, "", "rewrite: type one folder: tools/rewrite FOLDER\n"))

    def test_output_that_cannot_be_written(self):
        (self.visit / LINE).write_bytes(b"")
        for where, why in ((">/dev/full", "no space is left"), (">&-", "it is closed")):
            done = subprocess.run(["bash", "-c", f'"$0" examples/visit {where}', ROOT / "tools" / "rewrite"],
                                  capture_output=True, text=True)
            self.assertEqual((done.returncode, done.stderr), (2, f"rewrite: the output cannot be written: {why}\n"))

    def test_no_program(self):
        """`./judge --program rewrite` of the repository is asked, and nothing else."""
        shutil.copytree(ROOT / "tools", "house/tools")
        for text, said in ((None, "no rewrite program"), ("exit 1", "--program rewrite' did not give the program"),
                           ("echo nothing", "is not a program that can be run")):
            if text:
                script(Path("house/judge"), f'[ "$*" = "--program rewrite" ] || exit 9\n{text}')
            status, printed, complaints = self.typed("examples/visit", tool=Path("house/tools/rewrite").resolve())
            self.assertEqual((status, printed), (2, ""))
            self.assertIn(said, complaints)


if __name__ == "__main__":
    unittest.main()
