"""The tables are looked at again and again: what is saved is checked, and the page made anew, until Ctrl-C."""
import os
import shutil
import signal
import subprocess
import sys
import time
import unittest
from pathlib import Path

from common import PROGRAM, ROOT, InFolder
from planner.watch import changed, stamps, watch


class Enough(Exception):
    """Ends a watch in a test."""


class Looks(InFolder):
    def watched(self, *edits):
        """What a watch acts on while one edit is made at each of its looks."""
        acted, left = [], list(edits)

        def sleep(seconds):
            if not left:
                raise Enough
            left.pop(0)()

        with self.assertRaises(Enough):
            watch(self.visit, acted.append, sleep)
        return acted

    def save(self, name, text="x"):
        return lambda: (self.visit / name).write_text((self.visit / name).read_text(encoding="utf-8") + text,
                                                      encoding="utf-8")

    def nothing(self):
        pass

    def test_each_save_once(self):
        self.assertEqual(self.watched(self.nothing, self.nothing), [[]])
        self.assertEqual(self.watched(self.save("visit.csv"), self.nothing, self.nothing, self.save("cards.csv"),
                                      self.nothing, self.nothing), [[], ["visit.csv"], ["cards.csv"]])

    def test_a_table_that_is_still_being_saved_is_waited_for(self):
        self.assertEqual(self.watched(self.save("visit.csv"), self.save("visit.csv", "yy"), self.save("visit.csv", "z"),
                                      self.nothing, self.nothing), [[], ["visit.csv"]])

    def test_tables_that_come_and_go(self):
        self.assertEqual(self.watched(lambda: (self.visit / "bringup.csv").write_text("operation", encoding="utf-8"),
                                      self.nothing, (self.visit / "visit.csv").unlink, self.nothing, self.nothing),
                         [[], ["bringup.csv"], ["visit.csv"]])

    def test_other_files_do_not_matter(self):
        before = stamps(self.visit)
        (self.visit / "line.bin").write_bytes(b"")
        (self.visit / "notes.txt").write_text("x", encoding="utf-8")
        self.assertEqual(changed(before, stamps(self.visit)), [])

    def test_a_table_put_in_the_place_of_another(self):
        """Of the same size and time, as a sync program may do it."""
        path, before = self.visit / "visit.csv", stamps(self.visit)
        shutil.copy2(path, self.visit / "other")
        os.replace(self.visit / "other", path)
        self.assertEqual(changed(before, stamps(self.visit)), ["visit.csv"])


class Tool(InFolder):
    def until(self, words):
        """What the tool says up to a line with these words."""
        lines = []
        while not lines or words not in lines[-1]:
            lines.append(self.tool.stdout.readline())
            self.assertTrue(lines[-1], f"it ended before '{words}': {lines}")
        return "".join(lines)

    def test_a_slip_and_its_mending_till_ctrl_c(self):
        shutil.copytree(ROOT / "examples" / "today", "examples/today")
        page, visit = Path("examples/today/page.html"), Path("examples/today/visit.csv")
        self.tool = subprocess.Popen(
            [sys.executable, ROOT / "tools" / "plan", "--office", str(PROGRAM), "watch", "examples/today"],
            stdout=subprocess.PIPE, stderr=subprocess.STDOUT, text=True, env={**os.environ, "PYTHONUNBUFFERED": "1"},
            preexec_fn=lambda: signal.signal(signal.SIGINT, signal.SIG_DFL))
        self.addCleanup(self.tool.stdout.close)
        self.addCleanup(self.tool.kill)
        said = self.until("Watching the tables")
        self.assertIn("11 moves: 8 accepted, 3 refused (rows 4, 5, 6).\nWritten: examples/today/page.html\n", said)
        first, good = page.read_bytes(), visit.read_text(encoding="utf-8")
        visit.write_text(good.replace("create,", "make,"), encoding="utf-8")
        said = self.until("Watching the tables")
        self.assertIn("saved: visit.csv\nplan: visit.csv, row 2, column operation: 'make' is none of", said)
        self.assertIn("plan: page.html is not made anew\n", said)
        self.assertEqual(page.read_bytes(), first)
        rows = good.splitlines(True)
        visit.write_text("".join(rows[:3] + rows[6:7] + rows[3:6] + rows[7:]), encoding="utf-8")
        self.assertIn("11 moves: 11 accepted, 0 refused.\nWritten:", self.until("Watching the tables"))
        self.assertNotEqual(page.read_bytes(), first)
        self.tool.send_signal(signal.SIGINT)
        began = time.monotonic()
        self.assertEqual((self.tool.wait(timeout=30), self.tool.stdout.read()), (130, "plan: stopped\n"))
        self.assertLess(time.monotonic() - began, 20)


if __name__ == "__main__":
    unittest.main()
