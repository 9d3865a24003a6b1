"""Repairs: every one that is listed holds when it is put in, and a row that was displaced is found."""
import io
import random
import shutil
import unittest
from pathlib import Path

import german
from common import PROGRAM, ROOT, InFolder, plan
from planner import sheet
from planner.judged import judge_folder
from planner.repair import Search
from planner.repairs import Bar, changed_lines, refused_steps

TODAY = Path("examples/today")


def accepted(judged):
    """The accepted moves of a visit without their rows, which a repair changes."""
    return [cells(step) for step in judged.visit if step.accepted]


def cells(step):
    return step.move.code, step.move.who, step.move.where, step.move.what


def save(folder, rows):
    (folder / "visit.csv").write_bytes(sheet.encode(rows, sheet.Form()))


def rows_of(folder):
    return sheet.cells((folder / "visit.csv").read_text(encoding="utf-8"), ",")


class Listed(InFolder):
    def setUp(self):
        super().setUp()
        shutil.copytree(ROOT / TODAY, TODAY)

    def test_what_is_said(self):
        for name, words in (("repair.txt", ("examples/visit",)), ("repair-today-4.txt", (TODAY, 4))):
            status, text, complaints = plan("repair", *words)
            self.assertEqual((status, complaints), (0, ""))
            self.same_as_golden(name, text)

    def test_each_holds_when_it_is_put_in(self):
        """The example's eight: with it the row is accepted, or left out, and what was accepted still is."""
        before, tried = judge_folder(PROGRAM, self.visit), 0
        for step in refused_steps(before):
            for repair in Search(PROGRAM, before, step).find():
                change = repair.change
                save(self.visit, changed_lines(before, change))
                after = judge_folder(PROGRAM, self.visit)
                wanted = accepted(before) + [cells(step)] * (not change.dropped)
                left = accepted(after)
                for one in wanted:
                    self.assertIn(one, left, change.texts)
                    left.remove(one)
                self.assertEqual(len(after.visit), len(before.visit) + change.added - change.dropped)
                self.assertEqual(len(left) - change.added, len(repair.others))
                tried += 1
        self.assertEqual(tried, 8)

    def test_put_in_by_its_number(self):
        text = (self.visit / "visit.csv").read_bytes()
        self.assertEqual(plan("repair", self.visit, "--write", 3), (
            0, "Written: examples/visit/visit.csv: row 17 later, below row 20\n"
               "As it was: examples/visit/visit.before.csv\n", ""))
        self.assertEqual((self.visit / "visit.before.csv").read_bytes(), text)
        rows = text.splitlines(True)
        rows.insert(19, rows.pop(16))
        self.assertEqual((self.visit / "visit.csv").read_bytes(), b"".join(rows))

    def test_a_row_alone_and_numbers_of_its_own(self):
        self.assertEqual(plan("repair", TODAY, 4, "--write", 1)[0], 0)
        self.assertTrue(judge_folder(PROGRAM, TODAY).verdict.accepted)
        self.assertEqual(plan("repair", TODAY), (
            0, "Every move of the visit is accepted; there is nothing to repair.\n", ""))

    def test_usage(self):
        for words, said in ((("examples/visit", 12), "row 12 is accepted; there is nothing to repair"),
                            (("examples/visit", 99), "visit.csv has no move in row 99; moves are in rows 2 to 23"),
                            (("examples/visit", 16, "--write", 1), "there is no change 1; 0 were found"),
                            (("examples/visit", 18, "--write", 0), "there is no change 0; 2 were found")):
            self.assertEqual(plan("repair", *words), (2, "", f"plan: {said}\n"))

    def test_the_work_is_bounded(self):
        text = plan("repair", self.visit, 16, "--most", 12)[1]
        self.assertIn("None of the 9 changes tried has it accepted", text)
        self.assertIn("None of the 150 changes tried has it accepted", plan("repair", self.visit, 16)[1])

    def test_two_changes_where_one_is_not_enough(self):
        """Two cards read the record that leaves, each by a ring of its own."""
        self.edit("values.csv", "Scan parcels,Parcel counter,both,,", "Scan parcels,Parcel counter,both,,\n"
                                                                      "Scan parcels,Weight record,read,,")
        visit = self.visit / "visit.csv"
        visit.write_text("".join(visit.read_text(encoding="utf-8").splitlines(True)[:11]), encoding="utf-8")
        status, text, _ = plan("repair", self.visit, 11)
        self.assertEqual(status, 0)
        self.assertIn("  1. Cleared first: ", text)
        self.assertIn("; then cleared first: ", " ".join(text.split()))
        self.assertIn("(2 moves added)", " ".join(text.split()))
        self.assertEqual(plan("repair", self.visit, 11, "--write", 1)[0], 0)
        self.assertTrue(judge_folder(PROGRAM, self.visit).verdict.accepted)

    def test_a_destroyed_partition_is_emptied_first(self):
        rows = rows_of(self.visit)[:9] + [["destroy", "", "Live loop", "", ""]]
        save(self.visit, rows)
        text = plan("repair", self.visit, 10)[1]
        self.assertIn("What is still in it taken out first: deactivate card Diverter;", text)
        self.assertIn("(6 moves added)", text)

    def test_of_two_neighbours_the_row_is_shown_that_is_named(self):
        """Row 4 below row 5 is the same order as row 5 above row 4."""
        rows = rows_of(TODAY)
        rows[3:7] = [rows[3], rows[6], *rows[4:6]]
        save(TODAY, rows)
        text = plan("repair", TODAY, 4)[1]
        self.assertIn("  1. Row 4 later, below row 5 (1 row moved). Accepted with it: rows 6, 7.\n"
                      "     Below row 5 comes:\ndeactivate,Scale,,,guard of the scale opens\n", text)

    def test_a_table_keeps_its_form_its_columns_and_its_blank_rows(self):
        form = german.FORMS["Excel, Unicode text"]
        rows = [[*row[:4], "", row[4]] for row in rows_of(TODAY)]
        rows[0] = ["operation", "who", "where", "what", "wann", "Größe"]
        rows.insert(3, [""] * 6)
        (TODAY / "visit.csv").write_bytes(german.saved(rows, form))
        self.assertEqual(plan("repair", TODAY, 5, "--write", 1)[0], 0)
        moved = rows.pop(7)
        rows.insert(4, moved)
        self.assertEqual((TODAY / "visit.csv").read_bytes(), german.saved(rows, form))


class Displaced(InFolder):
    """Plans of which every move was accepted, until one row was put elsewhere."""

    def found(self, folder, rows, count):
        """Displaces rows, and asks for the first refused one; how many plans had a refusal."""
        save(folder, rows)
        self.assertTrue(judge_folder(PROGRAM, folder).verdict.accepted)
        pairs = [(a, b) for a in range(1, len(rows)) for b in range(1, len(rows)) if a != b]
        random.Random("displaced").shuffle(pairs)
        tried = 0
        for a, b in pairs[:count]:
            changed = rows[:a] + rows[a + 1:]
            changed.insert(b, rows[a])
            save(folder, changed)
            judged = judge_folder(PROGRAM, folder)
            refused = [step for step in judged.visit if not step.accepted]
            if refused:
                tried += 1
                repairs = Search(PROGRAM, judged, refused[0]).find()
                whole = [one for one in repairs if len(one.others) == len(refused) - 1]
                self.assertTrue(whole, f"row {a + 1} was put to {b + 1}")
        return tried

    def test_todays_visit(self):
        shutil.copytree(ROOT / TODAY, TODAY)
        rows = rows_of(TODAY)
        rows.insert(3, rows.pop(6))
        self.assertGreater(self.found(TODAY, rows, 16), 10)

    def test_a_longer_one(self):
        german.save(Path("plan"), "Calc")
        rows = rows_of(Path("plan"))
        del rows[11]
        self.assertGreater(self.found(Path("plan"), rows, 10), 2)


class Terminal(io.StringIO):
    def isatty(self):
        return True


class Bars(unittest.TestCase):
    def test_on_a_terminal_alone(self):
        for stream, said in ((Terminal(), f"\rrow 4 [{'#' * 15}{' ' * 15}] 5 of at most 10\r\x1b[K"),
                             (io.StringIO(), "")):
            bar = Bar("row 4", stream)
            bar(5, 10)
            bar.close()
            self.assertEqual(stream.getvalue(), said)


if __name__ == "__main__":
    unittest.main()
