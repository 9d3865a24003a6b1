"""The visit sheet has a line with a box for each step, tells what goes on meanwhile, and bars a refused plan."""
import hashlib
import re
import shutil
import unittest
from html.parser import HTMLParser
from pathlib import Path

import german
from common import PROGRAM, ROOT, InFolder, plan
from planner.judged import judge_folder
from planner.meanwhile import Span, cards_out, meanwhile_words, shut_zones, span_words

TODAY = Path("examples/today")
VOID = {"meta", "br"}
MEANWHILE = ["Live loop: Diverter, Scanner, Scale"] * 3 + ["Live loop: Diverter, Scanner"] * 2 + \
    ["Live loop: Diverter, Scanner; Test bench: Scale"] + ["Live loop: Diverter, Scanner"] * 2 + \
    ["Live loop: Diverter, Scanner, Scale"] * 3


class Sheet(HTMLParser):
    """The page taken apart: rows of cells as texts, and whether every tag is closed in its turn."""

    def __init__(self, text):
        super().__init__()
        self.open, self.rows, self.boxes, self.outside, self.bars = [], [], 0, [], 0
        self.feed(text)
        self.close()

    def handle_starttag(self, tag, attributes):
        values = dict(attributes)
        self.open += [] if tag in VOID else [tag]
        self.rows += [[]] if tag == "tr" else []
        self.boxes += values.get("class") == "tick"
        self.bars += values.get("class") == "bar"
        self.outside += [name for name in values if name in ("src", "href")]
        if tag in ("td", "th"):
            self.rows[-1].append("")

    def handle_endtag(self, tag):
        assert self.open.pop() == tag, f"</{tag}> closes another"

    def handle_data(self, data):
        if "tr" in self.open and self.rows and self.rows[-1]:
            self.rows[-1][-1] += data


class Sheets(InFolder):
    def setUp(self):
        super().setUp()
        shutil.copytree(ROOT / TODAY, TODAY)

    def sheet(self, folder):
        status, text, complaints = plan("sheet", folder)
        self.assertEqual((status, text, complaints), (0, f"Written: {folder / 'visit-sheet.html'}\n", ""))
        self.text = (folder / "visit-sheet.html").read_text(encoding="utf-8")
        page = Sheet(self.text)
        self.assertEqual((page.open, page.outside), ([], []), "all is closed, and nothing is fetched")
        self.assertNotRegex(self.text, r"https?:|url\(|@import|<script")
        return page

    def mend(self):
        self.assertEqual(plan("repair", TODAY, 4, "--write", 1)[0], 0)

    def test_a_line_for_each_step(self):
        self.mend()
        page = self.sheet(TODAY)
        self.assertEqual((page.boxes, page.bars), (11, 0))
        steps = [row for row in page.rows if len(row) == 6][1:]
        self.assertEqual([row[1] for row in steps], [f"{n}row {n + 1}" for n in range(1, 12)])
        self.assertEqual(steps[3][2:], ["Deactivate card Scale.Note: guard of the scale opens", "Scale", "Live loop",
                                        "Live loop: Diverter, Scanner"])
        self.assertEqual([row[5] for row in steps], MEANWHILE)
        self.assertNotIn("REFUSED", self.text)

    def test_zones_and_cards(self):
        self.mend()
        page = self.sheet(TODAY)
        self.assertEqual([row for row in page.rows if len(row) == 2], [
            ["Test bench", "from step 1 to step 5"], ["Test bench", "from step 7 to step 11"],
            ["Scale, out of Live loop", "from step 4 to step 8"]])

    def test_a_refused_plan_has_a_bar(self):
        page = self.sheet(TODAY)
        self.assertEqual((page.boxes, page.bars), (8, 1))
        self.assertIn("REFUSED: NOT FOR USE ON SITE", self.text)
        refused = [row for row in page.rows if len(row) == 6 and "REFUSED by question" in row[2]]
        self.assertEqual([row[1] for row in refused], ["3row 4", "4row 5", "5row 6"])
        self.assertIn("REFUSED by question 20. Card Diverter could read Weight record", refused[0][2])

    def test_a_refused_row_of_the_bring_up_bars_it_too(self):
        self.mend()
        path = TODAY / "bringup.csv"
        path.write_text(path.read_text(encoding="utf-8") + "create,,Live loop,,\n", encoding="utf-8")
        page = self.sheet(TODAY)
        self.assertEqual((page.boxes, page.bars), (11, 1))
        self.assertIn("Of the bring-up, row 9 of bringup.csv is refused by question 14: create partition Live loop.",
                      self.text)

    def test_the_fingerprint_is_that_of_the_files(self):
        page = self.sheet(TODAY)
        plan("check", TODAY)
        for name in ("line.bin", "session.bin"):
            whole = hashlib.sha256((TODAY / name).read_bytes()).hexdigest()
            self.assertIn(f"{name} {whole}", self.text)
            self.assertIn(f"{name} {whole[:12]}", page.rows[0][0], "in the heading of every page")

    def test_pages_are_numbered_and_headed(self):
        self.sheet(TODAY)
        self.assertRegex(self.text, r'@bottom-right \{ content: "Page " counter\(page\) " of " counter\(pages\)')
        self.assertRegex(self.text, r"thead \{ display: table-header-group")
        self.assertTrue(re.search(r"\.bar \{ position: fixed", self.text), "what is fixed is printed on every page")

    def test_names_are_only_text(self):
        for name in ("cards.csv", "objects.csv", "visit.csv", "bringup.csv"):
            path = TODAY / name
            path.write_text(path.read_text(encoding="utf-8").replace("Scale,", "<b>Sc&le</b>,"), encoding="utf-8")
        page = self.sheet(TODAY)
        self.assertIn("<b>Sc&le</b>", page.rows[4][3])

    def test_a_long_one_and_an_empty_one(self):
        german.save(Path("plan"), "Excel, Germany")
        self.assertEqual(self.sheet(Path("plan")).boxes, 34)
        self.assertEqual(plan("new", "monday")[0], 0)
        self.assertEqual(self.sheet(Path("monday")).boxes, 0)

    def test_a_refused_line_has_none(self):
        self.edit("objects.csv", "Diverter wiring,hard-wired", "Diverter wiring,data")
        self.assertEqual(plan("sheet", self.visit)[0], 1)
        self.assertFalse((self.visit / "visit-sheet.html").exists())


class Meanwhile(InFolder):
    def test_a_card_belongs_where_it_is_first_brought(self):
        """In a visit that brings the line up itself; the cards that are not yet in are not out."""
        judged = judge_folder(PROGRAM, self.visit)
        self.assertEqual(cards_out(judged), [Span("Scale, out of Live loop", 12, 19)])

    def test_of_many_cards_those_that_rest_are_named(self):
        cards = "".join(f"C{n},cleared\n" for n in range(1, 17))
        objects = "".join(f"W{n},hard-wired,C{n}\n" for n in range(1, 17))
        for name, text in (("partitions.csv", "partition,number\nHall,1\n"), ("drivers.csv", "driver\n"),
                           ("cards.csv", f"card,hard-wired value\n{cards}"), ("values.csv", "value,object,mode,put\n"),
                           ("objects.csv", f"object,kind,owner\n{objects}"),
                           ("bringup.csv", "operation,who,where,what\ncreate,,Hall,\n" + "".join(
                               f"activate,C{n},Hall,\n" for n in range(1, 17))),
                           ("visit.csv", "operation,who,where,what\ndeactivate,C3,,\nactivate,C3,Hall,\ncreate,,2,\n"
                                         + "".join(f"deactivate,C{n},,\n" for n in range(1, 17)))):
            (self.visit / name).write_text(text, encoding="utf-8")
        judged = judge_folder(PROGRAM, self.visit)
        words = [meanwhile_words(judged.config, step) for step in judged.visit]
        self.assertEqual(words[:3], ["all 16 cards but C3"] * 2 + ["all 16 cards"])
        self.assertEqual(words[-4:], ["Hall: C14, C15, C16", "Hall: C15, C16", "Hall: C16", "nothing"])
        self.assertEqual(shut_zones(judged), [Span("Hall", 19), Span("partition 2", 3)])
        self.assertEqual(cards_out(judged)[2:5], [Span("C3, out of Hall", 1, 2), Span("C3, out of Hall", 6),
                                                  Span("C4, out of Hall", 7)])
        self.assertEqual([span_words(Span("", *ends)) for ends in ((0, 3), (0, None), (2, None))],
                         ["from the start to step 3", "from the start to the end, and after it",
                          "from step 2 to the end, and after it"])


if __name__ == "__main__":
    unittest.main()
