"""Each command on the example visit, held to golden files; import there and back on random lines and visits."""
import csv
import hashlib
import os
import shutil
import subprocess
import sys
import unittest
import xml.dom.minidom
from pathlib import Path
from unittest import mock

from common import GOLDEN, PROGRAM, ROOT, InFolder, plan
from lines import random_line, random_visit, ring_line, wide_line
from planner import pack
from planner import wording as w
from planner.judged import judge_folder
from planner.unpack import read_line_bytes, read_session_bytes


class Example(InFolder):
    def test_check(self):
        status, text, complaints = plan("check", "examples/visit")
        self.assertEqual((status, complaints), (1, ""))
        self.same_as_golden("check.txt", text)

    def test_words_for_every_question(self):
        """A visit that runs into each question from 10 on; 19 is left to the example, 21 and 22 to other tests."""
        shutil.copy(GOLDEN / "questions.csv", self.visit / "visit.csv")
        met = {step.answer for step in judge_folder(PROGRAM, "examples/visit").steps}
        self.assertEqual(set(w.QUESTIONS) - met, {*range(1, 10), *w.AFTERWARDS, w.GREEN_RULE})
        self.same_as_golden("questions.txt", plan("check", "examples/visit")[1])

    def test_check_makes_the_stored_files(self):
        for name in ("line.bin", "session.bin"):
            (self.visit / name).unlink(missing_ok=True)
        plan("check", "examples/visit")
        for name in ("line.bin", "session.bin"):
            self.same_as_example(name, (self.visit / name).read_bytes())

    def test_the_story_has_what_it_promises(self):
        steps = judge_folder(PROGRAM, "examples/visit").steps
        answers = [step.answer for step in steps]
        self.assertLessEqual({0, 16, 17, w.OUTSIDE, w.IN_REACH}, set(answers))
        self.assertGreater(answers.count(0), 10)

    def test_explain(self):
        for row in (11, 16, 17, 18, 19):
            status, text, complaints = plan("explain", "examples/visit", row)
            self.assertEqual((status, complaints), (0, ""))
            self.same_as_golden(f"explain-{row}.txt", text)

    def test_csv(self):
        status, text, _ = plan("csv", "examples/visit")
        self.assertEqual((status, text), (0, f"Written: {Path('examples/visit/answers.csv')}\n"))
        self.same_as_example("answers.csv", (self.visit / "answers.csv").read_bytes())

    def test_csv_keeps_blank_rows(self):
        self.edit("visit.csv", "create,,Test bench", ",,,,\ncreate,,Test bench")
        plan("csv", "examples/visit")
        rows = (self.visit / "answers.csv").read_text(encoding="utf-8").splitlines()
        self.assertTrue(rows[1].startswith("2,1,create,,Live loop,,0,accepted,,,"), rows[1])
        self.assertEqual(rows[2:4], ["3,,,,,,,,,,", "4,2,create,,Test bench,,0,accepted,,,"])

    def test_csv_has_the_fingerprint(self):
        """As sha256sum prints it of the files that check makes, in the first row, also where there is no move."""
        for keep in (23, 1):
            path = self.visit / "visit.csv"
            path.write_text("".join(path.read_text(encoding="utf-8").splitlines(True)[:keep]), encoding="utf-8")
            plan("check", "examples/visit")
            plan("csv", "examples/visit")
            files = [f"{name} {hashlib.sha256((self.visit / name).read_bytes()).hexdigest()}"
                     for name in ("line.bin", "session.bin")]
            with open(self.visit / "answers.csv", encoding="utf-8", newline="") as table:
                rows = list(csv.DictReader(table))
            self.assertEqual([row["fingerprint"] for row in rows], [", ".join(files)] + [""] * (len(rows) - 1))

    def test_picture(self):
        for arguments, name in (((), "picture.svg"), ((17,), "picture-row-17.svg")):
            status, text, _ = plan("picture", "examples/visit", *arguments)
            self.assertEqual((status, text), (0, f"Drawn: {self.visit / name}\n"))
            self.same_as_example(name, (self.visit / name).read_bytes())

    def test_every_row_can_be_drawn(self):
        for row in range(2, 24):
            self.assertEqual(plan("picture", "examples/visit", row)[0], 0)
            xml.dom.minidom.parse(str(self.visit / f"picture-row-{row}.svg"))

    def test_explain_fails_where_no_chain_holds(self):
        with mock.patch("planner.reach.outside_chain", return_value=None):
            self.assertEqual(plan("explain", "examples/visit", 17)[0], 5)
            status, text, _ = plan("check", "examples/visit")
        self.assertEqual(status, 1)
        self.assertIn("could not be explained", text)

    def test_tool_itself(self):
        """The executable, with the program named by the environment."""
        done = subprocess.run([sys.executable, ROOT / "tools" / "plan", "explain", "examples/visit", "17"], text=True,
                              capture_output=True, env={**os.environ, "KOLLUWAR_OFFICE": str(PROGRAM)})
        self.assertEqual(done.returncode, 0, done.stderr)
        self.same_as_golden("explain-17.txt", done.stdout)


class ThereAndBack(InFolder):
    def test_import(self):
        plan("check", "examples/visit")
        status, text, _ = plan("import", "examples/visit/line.bin", "back")
        self.assertEqual(status, 0)
        self.same_as_golden("import.txt", text)
        self.same_as_golden("import-values.csv", Path("back/values.csv").read_text(encoding="utf-8"))
        self.same_as_golden("import-visit.csv", Path("back/visit.csv").read_text(encoding="utf-8"))
        plan("check", "back")
        for name in ("line.bin", "session.bin"):
            self.assertEqual(Path("back", name).read_bytes(), (self.visit / name).read_bytes(), name)

    def test_import_beside_the_file(self):
        Path("alone").mkdir()
        Path("alone/line.bin").write_bytes((self.visit / "line.bin").read_bytes())
        self.assertEqual(plan("import", "alone/line.bin")[0], 0)
        self.assertEqual(plan("check", "alone")[0], 0)
        self.assertEqual(Path("alone/session.bin").read_bytes(), b"")

    def test_random_lines_and_visits(self):
        lines = [*map(random_line, range(60)), *map(wide_line, range(8)), *map(ring_line, range(20))]
        for seed, config in enumerate(lines):
            here = Path(f"line{seed}")
            here.mkdir()
            files = {"line.bin": pack.line_bytes(config), "session.bin": pack.session_bytes(random_visit(config, seed))}
            for name, data in files.items():
                (here / name).write_bytes(data)
            self.assertEqual(read_line_bytes(files["line.bin"]), config)
            self.assertEqual(read_session_bytes(files["session.bin"]), random_visit(config, seed))
            self.assertEqual(plan("import", here / "line.bin")[0], 0)
            self.assertEqual(plan("check", here)[0], 1)
            for name, data in files.items():
                self.assertEqual((here / name).read_bytes(), data, f"seed {seed}, {name}")

    def test_a_refused_line_is_not_taken_apart(self):
        Path("bad.bin").write_bytes((self.visit / "line.bin").read_bytes() + b"\0")
        status, text, complaints = plan("import", "bad.bin", "bad")
        self.assertEqual((status, text), (1, ""))
        self.assertIn("refused by question 4", complaints)
        self.assertFalse(Path("bad").exists())

    def test_a_line_refused_by_5_can_be_mended(self):
        self.edit("objects.csv", "Diverter wiring,hard-wired", "Diverter wiring,data")
        plan("check", "examples/visit")
        (self.visit / "session.bin").unlink()
        status, text, complaints = plan("import", "examples/visit/line.bin", "back")
        self.assertEqual(status, 1)
        self.assertIn("visit.csv", text)
        self.assertIn("refused by question 5", complaints)

    def test_tables_are_not_overwritten(self):
        status, _, complaints = plan("import", "examples/visit/line.bin", "examples/visit")
        self.assertEqual(status, 3)
        self.assertIn("is already there; nothing was changed", complaints)

    def test_a_record_that_is_no_move(self):
        for record in (b"\x01\x0d", b"\x03\x05\x81\x00", b"\x03\x01\x01\x00", b"\x02\x05", b"\x03\x05\x01\x01"):
            (self.visit / "session.bin").write_bytes(b"\x02\x05\x01" + record)
            status, _, complaints = plan("import", "examples/visit/line.bin", "back")
            self.assertEqual(status, 2, record)
            self.assertIn("record 2 cannot be a row of visit.csv", complaints)

    def test_new(self):
        status, text, _ = plan("new", "monday")
        self.assertEqual(status, 0)
        self.same_as_golden("new.txt", text)
        self.assertEqual(plan("check", "monday")[0], 0)
        self.assertEqual(plan("new", "monday")[0], 3)


if __name__ == "__main__":
    unittest.main()
