"""Serials stand beside the cards: in what check prints, in pictures, on the page and on the technicians' sheet."""
import json
import re
import unittest
import xml.etree.ElementTree as ElementTree

import sorters
from common import PROGRAM, InFolder, plan
from lines import SERIALS, with_serials
from planner.judged import judge_folder, judge_moves
from planner.page import page_html
from planner.page_data import page_data
from planner.picture import LOCK_WIDTH, LOCKED, draw, draw_plan
from planner.report import WIDTH, serial_lines
from planner.svg import text_width
from planner.visit import Move
from planner.visit_sheet import visit_sheet
from test_locks import LOCK
from test_page import DATA
from test_serials import cards

SVG = "{http://www.w3.org/2000/svg}"
SERIAL = re.compile(r"serial \d+")
LARGEST = SERIALS[-1]
# How far to the right of its name the heading of a card goes.
BOX = 320


def shown(picture):
    """The serials in a picture, in the order in which its cards stand there."""
    return [one.text for one in ElementTree.fromstring(picture).iter(SVG + "text") if SERIAL.fullmatch(one.text or "")]


class Printed(InFolder):
    def check(self, *serials):
        """What check prints above the moves, and below."""
        (self.visit / "cards.csv").write_text(cards(*serials), encoding="utf-8")
        status, text, complaints = plan("check", "examples/visit")
        self.assertEqual((status, complaints), (1, ""))
        return text.split("\n\n", 1)

    def test_above_the_moves(self):
        plain, moves = self.check("", "", "")
        for serials, size, said in (
                ((70000, "", LARGEST), 133, ["Serials: Diverter = 70000; Scale = 2097151; none for Scanner."]),
                ((1, 2, 3), 129, ["Serials: Diverter = 1; Scanner = 2; Scale = 3."]),
                (("", 7, ""), 129, ["Serials: Scanner = 7; none for Diverter, Scale."]),
                ((9, 9, ""), 129, ["Serials: Diverter = 9; Scanner = 9; none for Scale.",
                                   "Serial 9 stands with 2 cards: Diverter, Scanner."]),
                ((5, 5, 5), 129, ["Serials: Diverter = 5; Scanner = 5; Scale = 5.",
                                  "Serial 5 stands with 3 cards: Diverter, Scanner, Scale."])):
            head, below = self.check(*serials)
            lines = plain.splitlines()
            lines[0] = lines[0].replace("has 126 bytes.", f"has {size} bytes, in edition 2.")
            self.assertEqual(head.splitlines(), [lines[0], *said, *lines[1:]])
            self.assertEqual(below, moves, "names in sentences are as they were")

    def test_of_a_refused_line(self):
        self.edit("objects.csv", "Diverter wiring,hard-wired", "Diverter wiring,data")
        head, below = self.check(4, "", "")
        self.assertIn("Serials: Diverter = 4; none for Scanner, Scale.", head)
        self.assertIn("The line is refused by question 5", below)

    def test_sixteen_cards(self):
        """In lines as wide as any other; two serials that stand twice are both told."""
        config = sorters.visit(**sorters.LARGE).config
        self.assertEqual(serial_lines(config), [])
        lines = serial_lines(with_serials(config, *SERIALS))
        self.assertLessEqual(max(map(len, lines)), WIDTH)
        self.assertEqual([line[:7] for line in lines if line.startswith("Serial ")], ["Serial "] * 6)


class Drawn(InFolder):
    def setUp(self):
        super().setUp()
        (self.visit / "cards.csv").write_text(cards(70000, "", LARGEST), encoding="utf-8")
        self.plan = judge_folder(PROGRAM, self.visit)

    def test_pictures(self):
        """In each picture every card has its own, once, and a card without one shows nothing."""
        for step in [*self.plan.steps, None]:
            self.assertEqual(sorted(shown(draw_plan(self.plan, step))), [f"serial {LARGEST}", "serial 70000"], step)

    def test_pictures_without_serials(self):
        """Beside the example's own, which is stored, nothing is drawn."""
        (self.visit / "cards.csv").write_text(cards("", 0, ""), encoding="utf-8")
        for arguments, name in (((), "picture.svg"), ((17,), "picture-row-17.svg")):
            self.assertEqual(plan("picture", "examples/visit", *arguments)[0], 0)
            self.same_as_example(name, (self.visit / name).read_bytes())

    def test_page(self):
        page = page_html(self.plan, "Plan")
        self.assertEqual(json.loads(DATA.search(page)[1])["serials"], ["serial 70000", "", f"serial {LARGEST}"])
        heads = re.findall(r'<th scope="row">(.*?)</th>', page)
        self.assertEqual([head for head in heads if "serial" in head],
                         [f'{name} <span class="serial">serial {serial}</span>'
                          for name, serial in (("Diverter", 70000), ("Scale", LARGEST))])

    def test_page_without_serials(self):
        (self.visit / "cards.csv").write_text(cards("", 0, ""), encoding="utf-8")
        judged = judge_folder(PROGRAM, self.visit)
        self.assertEqual(page_data(judged)["serials"], ["", "", ""])
        self.assertNotIn('<span class="serial">', page_html(judged, "Plan"))

    def test_sheet(self):
        sheet = visit_sheet(self.plan, "Monday")
        part = sheet[sheet.index("<h2>Serials of the cards</h2>"):sheet.index("<h2>Fingerprint</h2>")]
        self.assertEqual(re.findall(r"<tr><td>(.*?)</td><td>(.*?)</td></tr>", part),
                         [("Diverter", "70000"), ("Scanner", "not known"), ("Scale", str(LARGEST))])
        (self.visit / "cards.csv").write_text(cards("", "", ""), encoding="utf-8")
        self.assertNotIn("Serials of the cards", visit_sheet(judge_folder(PROGRAM, self.visit), "Monday"))


class Room(unittest.TestCase):
    def test_side_by_side(self):
        """Name, serial, padlock and count of a card stand side by side, whichever of them there are."""
        made = sorters.visit(**sorters.LARGE, slips=())
        config = with_serials(made.config, LARGEST)
        judged = judge_moves(PROGRAM, config, [Move(2, LOCK, 4), Move(3, LOCK, 5)])
        self.assertTrue(judged.verdict.accepted)
        met = set()
        for picture in (draw(judged, judged.steps[0]), draw(judged, judged.steps[1]), draw(judged)):
            rows = self.headers(ElementTree.fromstring(picture.text))
            self.assertEqual(len(rows), len(config.devices))
            for row in rows:
                met.add((LOCKED in [text for _, _, text in row], any(text.endswith("objects") for _, _, text in row)))
                for (_, end, text), (start, _, other) in zip(row, row[1:]):
                    self.assertLess(end, start, (text, other))
        self.assertEqual(met, {(locked, folded) for locked in (False, True) for folded in (False, True)})

    def headers(self, sheet):
        """Of each card what stands in its heading, from left to right: from where to where, and what it is."""
        places, rows = {}, []
        for one in sheet.iter(SVG + "text"):
            size, x = float(one.get("font-size")), float(one.get("x"))
            text = one.text or ""
            width = text_width(text, size)
            start = x - width - (LOCK_WIDTH if text == LOCKED else 0) if one.get("text-anchor") == "end" else x
            places.setdefault(float(one.get("y")), []).append((start, start + width if start == x else x, text))
        for y, found in places.items():
            for start, end, text in found:
                if text.startswith("card "):
                    beside = [one for one in found + places.get(y - 0.5, []) if start <= one[0] < start + BOX]
                    rows.append(sorted(beside))
        return rows


if __name__ == "__main__":
    unittest.main()
