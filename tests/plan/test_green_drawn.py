"""Green zones are drawn in green and named so: in pictures, on the page, in its timeline."""
import re
import unittest
import xml.etree.ElementTree as ElementTree

from common import PROGRAM, InFolder
from planner import wording as w
from planner.judged import judge_folder
from planner.page import page_html, part
from planner.page_data import page_data
from planner.picture import GREEN_ZONE, ZONE_COLOURS, draw_plan
from planner.svg import text_width
from test_green import HEAD, UP
from test_repair import save

SVG = "{http://www.w3.org/2000/svg}"
GREEN_PAPER, PLAIN_PAPER = ZONE_COLOURS["green"][0], ZONE_COLOURS["plain"][0]
LIVE_LOOP, TEST_BENCH, SPARE = 1, 2, 3
RECORD, QUEUE = 10, 11


class Drawn(InFolder):
    """The loop and a zone without a name are green, the bench is not; at the end the scale may not leave."""

    def setUp(self):
        super().setUp()
        save(self.visit, [HEAD, *UP, ["create green", "", str(SPARE), ""],
                          ["write", "Sorting control", "", "Job queue = Divert by weight"],
                          ["deactivate", "Scale", "", ""], ["destroy", "", str(SPARE), ""]])
        self.plan = judge_folder(PROGRAM, self.visit)

    def papers(self, step):
        """How many boxes of a picture have the paper of a green zone, and how many that of a plain one."""
        sheet = ElementTree.fromstring(draw_plan(self.plan, step))
        fills = [shape.get("fill") for shape in sheet.iter(SVG + "rect")]
        return fills.count(GREEN_PAPER), fills.count(PLAIN_PAPER), [text.text for text in sheet.iter(SVG + "text")]

    def test_pictures(self):
        steps = self.plan.steps
        self.assertEqual([self.papers(step)[:2] for step in (steps[0], steps[1], steps[5], steps[-1], None)],
                         [(1, 0), (1, 1), (2, 1), (1, 1), (1, 1)])
        texts = self.papers(steps[5])[2]
        self.assertLessEqual({f"{GREEN_ZONE}, partition 1", "partition 2", f"partition {SPARE}", GREEN_ZONE},
                             set(texts))
        self.assertFalse([text for text in self.papers(None)[2] if text == GREEN_ZONE])

    def test_a_long_name_keeps_apart_from_the_words(self):
        self.edit("partitions.csv", "Live loop,", "Live loop of the sorter in the northern hall by the gate,")
        rows = (self.visit / "visit.csv").read_text(encoding="utf-8")
        (self.visit / "visit.csv").write_text(rows.replace("Live loop", str(LIVE_LOOP)), encoding="utf-8")
        sheet = ElementTree.fromstring(draw_plan(judge_folder(PROGRAM, self.visit)))
        words = next(one for one in sheet.iter(SVG + "text") if one.text == f"{GREEN_ZONE}, partition 1")
        title = next(one for one in sheet.iter(SVG + "text") if (one.text or "").startswith("Live loop of"))
        self.assertTrue(title.text.endswith("…"), title.text)
        begins = float(words.get("x")) - text_width(words.text, float(words.get("font-size")))
        self.assertLess(float(title.get("x")) + text_width(title.text, float(title.get("font-size"))), begins)

    def test_what_stays_and_what_leaves_are_marked(self):
        refused = self.plan.steps[7]
        self.assertEqual(refused.answer, w.IN_REACH)
        self.assertEqual(self.plan.findings(refused)[0].things, [("object", QUEUE), ("object", RECORD)])
        self.assertEqual(draw_plan(self.plan, refused).count('fill="#fdecee"'), 2)

    def test_the_page_is_told(self):
        data = page_data(self.plan)
        self.assertEqual(data["standings"], {"plain": 1, "green": 3})
        set_by = [step["set"][0] for step in data["steps"] if step["set"] and step["set"][0][0] == "partition"]
        self.assertEqual(set_by, [["partition", LIVE_LOOP, 3], ["partition", TEST_BENCH, 1], ["partition", SPARE, 3],
                                  ["partition", SPARE, 2]])
        self.assertEqual(data["steps"][7]["failed"], [["object", QUEUE], ["object", RECORD]])
        self.assertNotIn("chain", data["steps"][7])

    def test_the_page_says_it(self):
        page = page_html(self.plan, "Plan")
        row = page[page.index('id="row-9"'):page.index('id="row-10"')]
        self.assertIn("named by no descriptor that stays in the green zone?", row)
        self.assertIn('<p class="way">In a green zone that counts whether or not a card reads Job queue', row)
        self.assertIn("<dd>green zone: no card may write a transfer descriptor there</dd>", page)
        bars = re.findall(r'<a class="(bar[^"]*)" href="[^"]*" title="([^"]*)"', page)
        self.assertEqual({look for look, _ in bars}, {"bar green"})
        self.assertTrue(all("in Live loop (green zone), from row" in words for _, words in bars))

    def test_plain_zones_are_not_said_to_be_green(self):
        self.edit("visit.csv", "create green,,Live loop", "create,,Live loop")
        page = page_html(judge_folder(PROGRAM, self.visit), "Plan")
        self.assertNotIn('class="bar green"', page)
        self.assertIn('class="bar tint1"', page)
        self.assertNotIn("(green zone)", page)

    def test_the_script_knows_the_standings_by_name(self):
        """No number of a standing stands in it: they come with the data."""
        for name in ("state.js", "picture.js"):
            script = part(name)
            self.assertNotRegex(script, r"partition\[number\] === \d|value === [123]\b", name)
        self.assertIn("data.standings.green", part("state.js"))


if __name__ == "__main__":
    unittest.main()
