"""A card that advances its own ring, in the example: words, chain, picture, page, causes, repairs."""
import unittest
from pathlib import Path
from unittest import mock

from common import PROGRAM, InFolder, plan
from planner import wording as w
from planner.book import follow
from planner.causes import origins
from planner.judged import judge_folder
from planner.page import page_html
from planner.page_data import page_data
from planner.picture import draw_plan, shown_state
from planner.repair import Search
from planner.repairs import changed_lines
from test_repair import accepted, cells, rows_of, save

START = "Scanner start-up,Scanner ring,"
ENTERS, LIVE_LOOP, SCANNER = 7, 1, 2


class Ring(InFolder):
    """The scanner puts its job into its ring itself; in the visit it comes in before the tables that the job names."""

    def setUp(self):
        super().setUp()
        self.edit("values.csv", START + "read,,", START + "both,Scan parcels,")

    def judged(self):
        """The plan, and the step at which the scanner is to come in."""
        found = judge_folder(PROGRAM, self.visit)
        return found, next(step for step in found.visit if step.move.row == ENTERS)

    def test_words(self):
        status, text, complaints = plan("check", self.visit)
        self.assertEqual((status, complaints), (1, ""))
        self.same_as_golden("ring.txt", text)

    def test_explained(self):
        status, text, complaints = plan("explain", self.visit, ENTERS)
        self.assertEqual((status, complaints), (0, ""))
        self.same_as_golden("explain-ring.txt", text)

    def test_no_chain_is_made_up(self):
        with mock.patch("planner.reach.outside_chain", return_value=None):
            self.assertEqual(plan("explain", self.visit, ENTERS)[0], 5)
            status, text, _ = plan("check", self.visit)
        self.assertEqual(status, 1)
        self.assertIn("could not be explained", text)

    def test_drawn_as_it_would_be(self):
        found, step = self.judged()
        shown = shown_state(found, step)
        self.assertEqual(shown, follow(found.config, step.before, step.move))
        self.assertEqual((step.before.devices[SCANNER], shown.devices[SCANNER]), (0, LIVE_LOOP))
        picture = draw_plan(found, step)
        self.assertIn("Row 7 (move 6): refused by question 21", picture)
        self.assertIn("could become: Scan parcels", picture)

    def test_on_the_page(self):
        found, step = self.judged()
        whole = page_data(found)
        data = whole["steps"][step.place - 1]
        self.assertEqual((data["answer"], whole["afterwards"]), (w.ENTERS_OUTSIDE, [w.OUTSIDE, w.ENTERS_OUTSIDE]))
        self.assertIn(["card", SCANNER, LIVE_LOOP], data["set"])
        self.assertEqual([link["kind"] for link in data["chain"]], ["wired", "puts", "reads", "outside"])
        page = page_html(found, "Plan")
        page = page[page.index('id="row-7"'):page.index('id="row-8"')]
        self.assertIn("The chain, in the state that would follow this move:", page)
        self.assertIn("Bring Barcode table into Live loop first, and this chain stays inside.", page)

    def test_causes(self):
        """What was to be written into the scanner's ring comes of its not being in."""
        found, _ = self.judged()
        came = {step.move.row: [one.move.row for one in origins(found)[step.place].causes]
                for step in found.visit if not step.accepted}
        self.assertEqual(came[ENTERS], [])
        self.assertEqual([row for row, causes in came.items() if causes == [ENTERS]], [10, 17, 21])

    def test_it_comes_of_what_was_not_brought_in(self):
        """Were the tables in, which row 5 fails to bring, the scanner could come in."""
        save(self.visit, [["operation", "who", "where", "what"], ["create", "", "Live loop", ""],
                          ["create", "", "Test bench", ""], ["activate", "", "Test bench", "Parcel counter"],
                          ["activate", "", "Live loop", "Barcode table; Parcel counter"],
                          ["activate", "Scanner", "Live loop", ""]])
        found = judge_folder(PROGRAM, self.visit)
        self.assertEqual(list(found.verdict.answers), [0, 0, 0, 16, w.ENTERS_OUTSIDE])
        self.assertEqual([one.move.row for one in origins(found)[5].causes], [5])

    def test_repairs(self):
        """Of the visit's first moves, by which the sorter comes to run: each holds when it is put in."""
        save(self.visit, rows_of(self.visit)[:10])
        status, text, complaints = plan("repair", self.visit, ENTERS)
        self.assertEqual((status, complaints), (0, ""))
        self.same_as_golden("repair-ring.txt", text)
        found, step = self.judged()
        repairs = Search(PROGRAM, found, step).find()
        self.assertEqual({repair.change.sort for repair in repairs}, {"first", "later"})
        for repair in repairs:
            save(self.visit, changed_lines(found, repair.change))
            left = accepted(judge_folder(PROGRAM, self.visit))
            for one in accepted(found) + [cells(step)]:
                self.assertIn(one, left, repair.change.texts)
                left.remove(one)

    def test_what_the_chain_ends_at_is_brought_in_first(self):
        """Both tables, one after the other, where no row of the visit brings them in; the counter from where it is."""
        save(self.visit, [["operation", "who", "where", "what"], ["create", "", "Live loop", ""],
                          ["create", "", "Test bench", ""], ["activate", "", "Test bench", "Parcel counter"],
                          ["activate", "Scanner", "Live loop", ""]])
        status, text, _ = plan("repair", self.visit, 5, "--write", 1)
        first = "what its chain ends at brought in first: "
        self.assertEqual((status, text.splitlines()[0]), (
            0, f"Written: examples/visit/visit.csv: {first}activate in Live loop: Barcode table; then {first}"
               "deactivate from Test bench: Parcel counter; activate in Live loop: Parcel counter"))
        self.assertTrue(judge_folder(PROGRAM, self.visit).verdict.accepted)

    def test_a_ring_that_leads_to_a_hard_wired_descriptor(self):
        """Nothing has that card come in, and nothing of the kind is suggested."""
        self.edit("values.csv", "Scan parcels,Barcode table,write,,", "Scan parcels,Diverter wiring,read,,")
        text = plan("explain", self.visit, ENTERS)[1]
        self.assertIn("a hard-wired descriptor: card Scanner may not be led to one.", " ".join(text.split()))
        self.assertNotIn("Bring ", text)
        text = plan("repair", self.visit, ENTERS)[1]
        self.assertIn("changes tried has it accepted without harm to other rows.", text)

    def test_a_ring_that_is_never_read(self):
        """The scanner writes its job and does not read it: no chain comes of it, till a driver has it read there."""
        self.edit("values.csv", START + "both,", START + "write,")
        _, step = self.judged()
        self.assertTrue(step.accepted)

    def test_import_keeps_the_ring(self):
        plan("check", self.visit)
        self.assertEqual(plan("import", self.visit / "line.bin", "back")[0], 0)
        self.assertIn("V2,O5,both,V7,", Path("back/values.csv").read_text(encoding="utf-8"))
        plan("check", "back")
        self.assertEqual(Path("back/line.bin").read_bytes(), (self.visit / "line.bin").read_bytes())


if __name__ == "__main__":
    unittest.main()
