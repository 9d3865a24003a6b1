"""A card that is locked has a padlock: in pictures, on the page, in timelines, and on the technicians' sheet."""
import re
import shutil
import unittest
import xml.etree.ElementTree as ElementTree

import sorters
from common import PROGRAM, ROOT, InFolder, plan
from lines import lock_visit, random_line
from planner.judged import judge_folder, judge_moves
from planner.meanwhile import locked_cards
from planner.page import page_html
from planner.page_data import page_data
from planner.picture import LOCK_COLOUR, LOCK_LEGEND, LOCKED, draw_plan
from planner.svg import text_width
from planner.timeline import not_back, timeline_rows, tracks
from planner.visit import Move
from planner.visit_sheet import visit_sheet
from test_locks import HEAD, LOCK, UNLOCK, out
from test_repair import save
from test_start import TODAY

SVG = "{http://www.w3.org/2000/svg}"
DIVERTER = 1


def bodies(sheet):
    """The boxes of the padlocks in a picture: one for each locked card, and one in the legend."""
    return [one for one in sheet.iter(SVG + "rect") if one.get("fill") == LOCK_COLOUR]


class Drawn(InFolder):
    """The diverter leaves, is locked, may not come in meanwhile, and comes back."""

    def setUp(self):
        super().setUp()
        shutil.copytree(ROOT / TODAY, TODAY)
        save(TODAY, [HEAD, *out("Diverter"), ["activate", "Diverter", "Live loop", ""],
                     ["unlock", "Diverter", "", ""], ["activate", "Diverter", "Live loop", ""]])
        self.plan = judge_folder(PROGRAM, TODAY)

    def test_pictures(self):
        """While it hangs the card has it, and the legend says what it is."""
        self.assertEqual([step.answer for step in self.plan.visit], [0, 0, 23, 0, 0])
        for step, hung in zip([*self.plan.visit, None], (False, True, True, False, False, False)):
            sheet = ElementTree.fromstring(draw_plan(self.plan, step))
            texts = [one.text for one in sheet.iter(SVG + "text")]
            self.assertEqual((len(bodies(sheet)), texts.count(LOCKED), texts.count(LOCK_LEGEND)),
                             (2 * hung, hung, hung), step)
        refused = draw_plan(self.plan, self.plan.visit[2])
        self.assertIn("No: a padlock hangs on card Diverter, since row 3.", refused)

    def test_the_page_is_told(self):
        sets = [step["set"] for step in page_data(self.plan)["steps"][self.plan.first:]]
        self.assertEqual([sets[1], sets[2], sets[3]], [[["lock", DIVERTER, 1]], [], [["lock", DIVERTER, 0]]])
        failed = page_data(self.plan)["steps"][self.plan.first + 2]["failed"]
        self.assertEqual(failed, [[2, DIVERTER]])

    def test_the_page_says_it(self):
        page = page_html(self.plan, "Plan")
        self.assertIn("<dd>locked: nothing brings the card in</dd>", page)
        row = page[page.index('id="row-4"'):page.index('id="row-5"')]
        self.assertIn('<p class="way">Whoever hung it takes it off, and nobody else', row)
        bars = re.findall(r'<a class="bar locked" href="#(row-\d+)" title="([^"]*)"', page)
        self.assertEqual(bars, [("row-3", "Diverter locked, from row 3 to row 5")])

    def test_timeline(self):
        self.assertEqual([row[2:] for row in timeline_rows(self.plan) if row[1] == "Diverter"],
                         [("Live loop", "", 2, ""), ("(locked)", 3, 5, ""), ("Live loop", 6, "", "yes")])
        save(TODAY, [HEAD, *out("Diverter")])
        left = judge_folder(PROGRAM, TODAY)
        self.assertEqual(timeline_rows(left)[0], ("card", "Diverter", "Live loop", "", 2, ""))
        self.assertEqual(timeline_rows(left)[1], ("card", "Diverter", "(locked)", 3, "", "no"))
        self.assertEqual(not_back(left), ["card Diverter was in Live loop, and is at the end in no partition, locked"])

    def test_sheet(self):
        sheet = visit_sheet(self.plan, "Tuesday")
        part = sheet[sheet.index("<h2>Cards that are locked</h2>"):]
        self.assertIn("<tr><td>Diverter</td><td>from step 2 to step 4</td></tr>", part)
        self.assertIn("Lock card Diverter.", sheet)
        save(TODAY, [HEAD])
        empty = visit_sheet(judge_folder(PROGRAM, TODAY), "Tuesday")
        self.assertIn("<p>None.</p>", empty[empty.index("<h2>Cards that are locked</h2>"):])

    def test_commands(self):
        for words in (("picture", TODAY, 3), ("page", TODAY), ("timeline", TODAY), ("sheet", TODAY), ("csv", TODAY)):
            self.assertEqual(plan(*words)[0], 0, words)


class Large(unittest.TestCase):
    def test_folded_cards(self):
        """Name, padlock and count of a folded card stand side by side, with the longest name too."""
        made = sorters.visit(**sorters.LARGE, slips=())
        config, moves = made.config, [Move(2, LOCK, 1), Move(3, LOCK, 2), Move(4, UNLOCK, 2)]
        judged = judge_moves(PROGRAM, config, moves)
        self.assertTrue(judged.verdict.accepted)
        config.devices[1] = type(config.devices[1])("Weighing and measuring station of the northern hall", 1)
        sheet = ElementTree.fromstring(draw_plan(judged, judged.steps[-1]))
        self.assertEqual(len(bodies(sheet)), 2)
        texts = list(sheet.iter(SVG + "text"))
        word = next(one for one in texts if one.text == LOCKED)
        name = next(one for one in texts if (one.text or "").startswith("card Weighing"))
        count = next(one for one in texts if re.fullmatch(r"\d+ objects?", one.text or "")
                     and one.get("y") == word.get("y"))
        size = float(word.get("font-size"))
        self.assertLess(float(name.get("x")) + text_width(name.text, float(name.get("font-size"))),
                        float(bodies(sheet)[0].get("x")))
        self.assertLess(float(bodies(sheet)[0].get("x")) + 12, float(word.get("x")) - text_width(LOCKED, size) + 1)
        self.assertLess(float(word.get("x")), float(count.get("x")) - text_width(count.text, size))


class Tracks(unittest.TestCase):
    def test_locks_are_the_books(self):
        """Of random sessions: at every step a card is locked just where its track and the sheet's spans say."""
        hung = 0
        for seed in range(15):
            config = random_line(seed)
            judged = judge_moves(PROGRAM, config, lock_visit(config, seed))
            found = {track.number: track for track in tracks(judged) if track.locks}
            for card in config.devices:
                told = [step.place for step in judged.steps for stay in (found[card].locks if card in found else ())
                        if stay.began <= step.place and (stay.left is None or step.place < stay.left.place)]
                self.assertEqual(told, [step.place for step in judged.steps if card in step.after.locked])
                hung += len(told)
            self.assertEqual(sum(len(track.locks) for track in found.values()), len(locked_cards(judged)))
        self.assertGreater(hung, 300)


if __name__ == "__main__":
    unittest.main()
