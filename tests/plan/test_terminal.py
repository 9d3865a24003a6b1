"""However the tool is ended or cannot write, it says so in plain words and ends with a status of the manual."""
import errno
import os
import shutil
import signal
import subprocess
import sys
import tempfile
import time
import unittest
from pathlib import Path
from unittest import mock

import german
from common import PROGRAM, ROOT, InFolder, plan
from planner.disk import FileError, plain

TOOL = [sys.executable, str(ROOT / "tools" / "plan")]
COMMANDS = (("check", "plan"), ("explain", "plan", "12"), ("picture", "plan"), ("csv", "plan"), ("new", "fresh"))


def shell(line, *words, **variables):
    """A line of the shell, in which "$@" is the tool with words: status, output, complaints. Output is buffered."""
    own = {"KOLLUWAR_OFFICE": str(PROGRAM), "PYTHONUNBUFFERED": "", **variables}
    done = subprocess.run(["bash", "-c", line, "bash", *TOOL, *words], capture_output=True, timeout=60,
                          env={**os.environ, **own})
    return done.returncode, done.stdout.decode(), done.stderr.decode()


class Stopped(InFolder):
    def office(self):
        """A program that never ends, and a file that tells that it runs."""
        Path("office").write_text("#!/bin/sh\n: > \"$STARTED\"\nexec sleep 60\n", encoding="utf-8")
        Path("office").chmod(0o755)
        return Path("office").resolve()

    def stopped(self, words):
        """Status and complaints of a command to which Ctrl-C is sent while the program runs."""
        started = Path("started").resolve()
        started.unlink(missing_ok=True)
        Path("passing").mkdir(exist_ok=True)
        env = {**os.environ, "STARTED": str(started), "TMPDIR": str(Path("passing").resolve())}
        # A job in the background has the signal ignored, and hands that on.
        tool = subprocess.Popen(words, stdout=subprocess.PIPE, stderr=subprocess.PIPE, text=True, env=env,
                                preexec_fn=lambda: signal.signal(signal.SIGINT, signal.SIG_DFL))
        while not started.exists() and tool.poll() is None:
            time.sleep(0.01)
        tool.send_signal(signal.SIGINT)
        text, complaints = tool.communicate(timeout=30)
        self.assertEqual(text, "")
        return tool.returncode, complaints

    def test_by_ctrl_c(self):
        words = [*TOOL, "--office", str(self.office()), "check", "examples/visit"]
        self.assertEqual(self.stopped(words), (130, "plan: stopped\n"))
        self.assertEqual(list(self.visit.glob("*.bin*")), [])
        self.assertEqual(list(Path("passing").iterdir()), [])

    def test_judge_too(self):
        words = [sys.executable, str(ROOT / "tools" / "office"), str(self.office()), "examples/visit"]
        self.assertEqual(self.stopped(words), (2, "judge: stopped: nothing is judged\n"))

    def test_rewrite_too(self):
        shutil.copytree(ROOT / "tools", "house/tools")
        Path("house/judge").write_text(f"#!/bin/sh\necho {self.office()}\n", encoding="utf-8")
        Path("house/judge").chmod(0o755)
        words = [sys.executable, "house/tools/rewrite", "examples/visit"]
        self.assertEqual(self.stopped(words), (2, "rewrite: stopped: line.out is not to be used\n"))

    def test_while_it_is_loaded(self):
        shutil.copytree(ROOT / "tools", "tools")
        Path("tools/planner/cli.py").write_text("raise KeyboardInterrupt\n", encoding="utf-8")
        done = subprocess.run([sys.executable, "tools/plan"], capture_output=True, text=True)
        self.assertEqual((done.returncode, done.stderr), (130, "plan: stopped\n"))


class Terminals(InFolder):
    def setUp(self):
        super().setUp()
        german.save(Path("plan"), "Calc")

    def test_one_that_shows_no_umlauts(self):
        """What it cannot show is an escape; the files have their umlauts."""
        plain_c = dict(LC_ALL="C", PYTHONUTF8="0", PYTHONCOERCECLOCALE="0")
        for words, variables in ((COMMANDS[0], dict(PYTHONIOENCODING="ascii")), (COMMANDS[1], plain_c),
                                 (COMMANDS[0], dict(PYTHONIOENCODING="ascii:strict")),
                                 (COMMANDS[2], plain_c), (COMMANDS[3], plain_c)):
            with self.subTest(f"{words} {variables}"):
                expected = plan(*words)
                files = {path: path.read_bytes() for path in Path("plan").iterdir()}
                status, text, complaints = shell('"$@"', *words, **variables)
                self.assertEqual((status, complaints), (expected[0], ""))
                self.assertEqual(text.replace(TOOL[1], "tools/plan"),
                                 expected[1].encode("ascii", "backslashreplace").decode())
                self.assertEqual({path: path.read_bytes() for path in Path("plan").iterdir()}, files)
        self.assertIn("Prüfwaage".encode(), files[Path("plan/picture.svg")])

    def test_output_that_cannot_be_written(self):
        full = [('"$@" > /dev/full', words, "no space is left") for words in (*COMMANDS, ("--help",))]
        closed = [('"$@" >&-', ("--help",), "it is closed")]
        unread = ('set -o pipefail; { sleep 0.3; "$@"; } | :', COMMANDS[0], "nobody reads it any more")
        for line, words, why in (*full, *closed, unread):
            for unbuffered in ("", "1") if words == COMMANDS[0] else ("",):
                with self.subTest(f"{line} {words} {unbuffered}"):
                    said = f"plan: the output cannot be written: {why}\n"
                    self.assertEqual(shell(line, *words, PYTHONUNBUFFERED=unbuffered), (2, "", said))

    def test_complaints_that_cannot_be_written(self):
        """The status is the same as it is with them."""
        Path("empty").mkdir()
        for line, words, status in (('"$@" 2> /dev/full', ("nothing",), 2),
                                    ('"$@" 2> /dev/full', ("check", "empty"), 3), ('"$@" 2>&-', ("check", "empty"), 3)):
            self.assertEqual(shell(line, *words)[0], status, (line, words))
        self.assertEqual(shell('"$@" > /dev/full 2> /dev/full', "check", "plan")[0], 2)

    def test_control_characters_do_not_reach_it(self):
        for words in (("check", "a\x1b[31mb"), ("explain", "plan", "2", "a\x1b[31mb"), ("import", "a\x1b[31mb")):
            status, _, complaints = plan(*words)
            self.assertEqual(status, 2)
            self.assertIn("a\\x1b[31mb", complaints)
            self.assertNotIn("\x1b", complaints)
        os.rename("plan", "pl\x9ban")
        status, text, _ = plan("picture", "pl\x9ban")
        self.assertEqual((status, text), (0, "Drawn: pl\\x9ban/picture.svg\n"))

    def test_a_folder_whose_name_is_no_text(self):
        os.rename(b"plan", b"pl\xffan")
        status, text, complaints = shell("\"$@\" pl$'\\xff'an", "picture")
        self.assertEqual((status, text, complaints), (0, "Drawn: pl\\udcffan/picture.svg\n", ""))


# What stands in place of a file, the command, its status and what it says.
PLACES = (
    ("drivers.csv", ("check", "examples/visit"), 2, "examples/visit/drivers.csv is a folder, and a file is needed"),
    ("line.bin", ("check", "examples/visit"), 2, "examples/visit/line.bin is a folder, and a file is needed"),
    ("answers.csv", ("csv", "examples/visit"), 2, "examples/visit/answers.csv is a folder, and a file is needed"),
    ("picture.svg", ("picture", "examples/visit"), 2, "examples/visit/picture.svg is a folder, and a file is needed"),
    ("line.bin", ("import", "examples/visit/line.bin"), 2,
     "examples/visit/line.bin is a folder, and a file is needed"),
    ("line.bin", ("import", "nowhere.bin"), 2, "nowhere.bin is not there"),
    ("line.bin", ("import", "examples/visit/cards.csv/line.bin"), 2,
     "examples/visit/cards.csv/line.bin is not in a folder: a part of its path is a file"),
    ("line.bin", ("new", "examples/visit/cards.csv"), 2,
     "examples/visit/cards.csv is there already, and is not a folder"),
    ("line.bin", ("check", "examples/visit/cards.csv"), 2, "examples/visit/cards.csv is not a folder"),
)


class PlainWords(InFolder):
    def test_a_folder_in_place_of_a_file(self):
        for name, words, status, said in PLACES:
            with self.subTest(f"{name} {words}"):
                path, before = self.visit / name, (ROOT / "examples" / "visit" / name).read_bytes()
                path.unlink(missing_ok=True)
                path.mkdir()
                self.assertEqual(plan(*words), (status, "", f"plan: {said}\n"))
                path.rmdir()
                path.write_bytes(before)
                self.assertEqual(list(self.visit.glob("*.new")), [])

    def test_no_permission(self):
        """As it is told to those for whom the system has no exceptions."""
        denied = PermissionError(errno.EACCES, "Permission denied", "x")
        for name, words, doing, file in (("Path.read_bytes", ("check", "examples/visit"), "read", "partitions.csv"),
                                         ("Path.unlink", ("check", "examples/visit"), "write", None),
                                         ("Path.mkdir", ("new", "monday"), "write", None),
                                         ("Path.is_dir", ("csv", "examples/visit"), "read", "."),
                                         ("Path.exists", ("csv", "examples/visit"), "read", "partitions.csv")):
            with self.subTest(name), mock.patch(f"pathlib.{name}", side_effect=denied):
                status, text, complaints = plan(*words)
            said = f"plan: there is no permission to {doing} {self.visit / file if file else 'x'}\n"
            self.assertEqual((status, text, complaints.splitlines(True)[0]), (2, "", said))

    def test_no_space(self):
        for words, file in ((("check", "examples/visit"), "line.bin"), (("picture", "examples/visit"), "picture.svg"),
                            (("csv", "examples/visit"), "answers.csv")):
            old = self.outputs()
            with mock.patch("os.fsync", side_effect=OSError(errno.ENOSPC, "No space left on device")):
                status, text, complaints = plan(*words)
            self.assertEqual((status, text), (2, ""))
            self.assertEqual(complaints, f"plan: {self.visit / file} cannot be written: no space is left\n")
            self.assertEqual(self.outputs(), old)
            self.assertEqual(list(self.visit.glob("*.new")), [])

    def outputs(self):
        return [(self.visit / name).read_bytes() for name in ("answers.csv", "picture.svg")]

    def test_no_room_for_the_program(self):
        with mock.patch.object(tempfile, "TemporaryDirectory", side_effect=OSError(errno.ENOSPC, "No space left")):
            self.assertEqual(plan("csv", "examples/visit"), (2, "", "plan: a passing folder for the office program "
                                                             "cannot be written: no space is left\n"))

    def test_a_program_of_another_machine(self):
        Path("office").write_bytes(b"\x7fELF nothing")
        Path("office").chmod(0o755)
        said = f"plan: {Path('office').resolve()} is not a program of this machine\n"
        self.assertEqual(plan("--office", "office", "check", "examples/visit"), (4, "", said))

    def test_no_word_of_the_system(self):
        """Neither a number nor a name of the system, whatever it refuses."""
        for number in errno.errorcode:
            text = plain(OSError(number, os.strerror(number), "x"), "write")
            self.assertNotIn("Errno", text)
            self.assertNotIn(errno.errorcode[number], text)
            self.assertTrue("x" in text and not text.endswith(": "), text)
        self.assertEqual(plain(OSError("odd"), "read", "y"), "y cannot be read: odd")
        self.assertFalse(issubclass(FileError, OSError))


if __name__ == "__main__":
    unittest.main()
