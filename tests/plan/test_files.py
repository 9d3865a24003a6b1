"""line.bin and session.bin beside tables are those of the tables: whatever ends a check, older ones are gone."""
import os
import shutil
import signal
import subprocess
import sys
import unittest
from pathlib import Path
from unittest import mock

from common import ROOT, InFolder, plan
from planner import files

NAMES = ("line.bin", "session.bin")
# A fault in what line.bin is made of, and one in what session.bin is made of.
FAULTS = (("drivers.csv", "Service laptop", "#2"), ("visit.csv", "create,,Test bench", "make,,Test bench"))


class Files(InFolder):
    def setUp(self):
        """The example, checked, and then changed, so that the tables tell of another line and visit than the files."""
        super().setUp()
        self.assertEqual(plan("check", "examples/visit")[0], 1)
        self.old = self.stored()
        self.assertEqual(set(self.old), set(NAMES))
        self.before = sorted(path.name for path in self.visit.iterdir())
        self.edit("drivers.csv", "Service laptop,", "Service laptop,\nSecond laptop,")
        self.edit("visit.csv", "create,,Test bench", "create,,Live loop\ncreate,,Test bench")

    def stored(self, folder=None):
        """The files that are there, by name."""
        paths = [Path(folder or self.visit) / name for name in NAMES]
        return {path.name: path.read_bytes() for path in paths if path.exists()}

    def office(self, script):
        """A program that is only a script."""
        Path("office").write_text(f"#!/bin/sh\n{script}\n", encoding="utf-8")
        Path("office").chmod(0o755)
        return "./office"

    def nothing_is_left(self):
        """Neither file, no part of one; and `./judge` says so."""
        self.assertEqual(sorted(path.name for path in self.visit.iterdir()),
                         [name for name in self.before if name not in NAMES])
        done = subprocess.run([ROOT / "judge", "examples/visit"], capture_output=True, text=True)
        self.assertEqual((done.returncode, done.stdout), (2, ""))
        self.assertIn("has no line.bin", done.stderr)

    def test_after_a_fault_in_either(self):
        for name, old, new in FAULTS:
            with self.subTest(name):
                before = (self.visit / name).read_text(encoding="utf-8")
                self.edit(name, old, new)
                self.assertEqual(plan("check", "examples/visit")[0], 3)
                self.nothing_is_left()
                (self.visit / name).write_text(before, encoding="utf-8")
                self.assertEqual(plan("check", "examples/visit")[0], 1)

    def test_after_a_table_is_lost(self):
        (self.visit / "visit.csv").unlink()
        self.before.remove("visit.csv")
        self.assertEqual(plan("check", "examples/visit")[0], 3)
        self.nothing_is_left()

    def test_after_the_program_failed(self):
        for script in ("exit 3", "true"):
            with self.subTest(script):
                files.store(self.visit, *self.old.values())
                self.assertEqual(plan("--office", self.office(script), "check", "examples/visit")[0], 4)
                self.nothing_is_left()

    def test_after_no_program_was_found(self):
        self.assertEqual(plan("--office", "./nothing", "check", "examples/visit")[0], 4)
        self.nothing_is_left()

    def test_after_the_tool_was_killed_while_the_program_ran(self):
        done = subprocess.run([sys.executable, ROOT / "tools" / "plan", "--office", self.office("kill -KILL $PPID"),
                               "check", "examples/visit"], capture_output=True)
        self.assertEqual(done.returncode, -signal.SIGKILL)
        self.nothing_is_left()

    def test_after_an_end_at_any_step_of_storing(self):
        """Never an old file, never half of one, never a name that only waits; both together only at the end."""
        for name, real in (("open", open), ("os.fsync", os.fsync), ("os.replace", os.replace)):
            for good in range(2):
                with self.subTest(f"{name} after {good} good ones"):
                    files.store(self.visit, *self.old.values())
                    steps = [mock.DEFAULT] * good + [OSError("the disk is full")]
                    with mock.patch(f"planner.disk.{name}", create=True, side_effect=steps, wraps=real):
                        self.assertEqual(plan("check", "examples/visit")[0], 2)
                    self.assertLess(len(self.stored()), 2)
                    self.assertTrue(set(self.stored().values()).isdisjoint(self.old.values()))
                    self.assertEqual(list(self.visit.glob("*.new")), [])

    def test_after_a_good_check(self):
        self.assertEqual(plan("check", "examples/visit")[0], 1)
        for name, more in (("line.bin", 0), ("session.bin", 3)):
            self.assertNotEqual(self.stored()[name], self.old[name])
            self.assertEqual(len(self.stored()[name]), len(self.old[name]) + more)
        self.assertEqual(sorted(path.name for path in self.visit.iterdir()), self.before)

    def test_other_commands_leave_them_alone(self):
        self.edit(*FAULTS[0])
        for words in (("explain", "examples/visit", 17), ("picture", "examples/visit"), ("csv", "examples/visit")):
            self.assertEqual(plan(*words)[0], 3)
        self.assertEqual(self.stored(), self.old)

    def test_given_files_without_tables_stay(self):
        Path("given").mkdir()
        for name in NAMES:
            shutil.copy(self.visit / name, "given")
        self.assertEqual(plan("check", "given")[0], 3)
        self.assertEqual(self.stored("given"), self.old)

    def test_a_table_makes_them_the_tools_own(self):
        self.assertEqual(plan("import", "examples/visit/line.bin", "back")[0], 0)
        for name in NAMES:
            shutil.copy(self.visit / name, "back")
        Path("back/values.csv").unlink()
        self.assertEqual(plan("check", "back")[0], 3)
        self.assertEqual(self.stored("back"), {})


if __name__ == "__main__":
    unittest.main()
