"""A plan is walked through in a browser as a planner does it: slider, keys, clicks, chains, and print."""
import subprocess
import tempfile
import time
import unittest
from dataclasses import replace
from pathlib import Path

import sorters
from common import PROGRAM, ROOT
from devtools import Browser
from lines import mailbox_line, mailbox_visit, with_serials
from planner import wording as w
from planner.judged import judge_folder, judge_moves
from planner.page import page_html
from planner.page_data import contents, stops
from planner.picture import draw_plan, shown_state
from planner.visit import Move, move_words

# What stands where on the page, and what is lit, read from what is shown.
SHOWN = """(() => {
  const places = {};
  const lit = (look) => [...document.querySelectorAll(".object." + look)].map((one) => Number(one.dataset.object));
  for (const part of document.querySelectorAll(".partition"))
    for (const row of part.querySelectorAll(".object"))
      places[row.querySelector(".name").textContent] = [part.querySelector("h3 span").textContent,
        row.querySelector(".held").firstChild.textContent];
  const locked = [...document.querySelectorAll(".group .padlock")].map((one) =>
    one.parentElement.querySelector(".name").textContent);
  const serials = [...document.querySelectorAll(".group .serial")].map((one) =>
    [one.parentElement.querySelector(".name").textContent, one.textContent]);
  return { places, locked, serials, stop: document.getElementById("slider").value, changed: lit("changed"),
    failed: lit("failed") };
})()"""
LIT = "[...document.querySelectorAll('.object.{}')].map((one) => Number(one.dataset.object)).sort((a, b) => a - b)"
ARROWS = "[...document.querySelectorAll('.arrow.chosen')].map((one) => one.dataset.link)"
WIDEST = "Math.max(...[...document.querySelectorAll('body *')].filter((one) => !one.closest('.arrows, .hidden'))" \
         ".map((one) => one.getBoundingClientRect().right))"
CUT = "[...document.querySelectorAll('h1, h2, h3, p, .object, .owner, .pick, .why, .partition, th')]" \
      ".filter((one) => one.scrollWidth > one.clientWidth + 1).map((one) => one.textContent)"
CHOSEN = "document.querySelector('.stop.chosen').id"
# The partitions that are drawn as green zones, and what stands beside their names.
GREEN_ZONES = "[...document.querySelectorAll('.partition.green h3')].map((one) => [...one.children]" \
              ".map((part) => part.textContent))"


def plans():
    """Plans on lines of 5, 40, 96 and 192 objects, the example, also with its loop green, with a padlock and with
    serials, one with rings, one with long names; each named."""
    config, moves = sorters.small()
    yield "small", judge_moves(PROGRAM, config, moves)
    for name, size in (("middle", dict(cards=7, loose=2)), ("large", sorters.LARGE), ("wide", sorters.WIDE)):
        made = sorters.visit(**size)
        yield name, judge_moves(PROGRAM, made.config, made.rows())
    example = judge_folder(PROGRAM, ROOT / "examples" / "visit")
    yield "example", example
    moves = [step.move for step in example.visit]
    yield "green", judge_moves(PROGRAM, example.config, [replace(moves[0], code=13)] + moves[1:])
    turns = [(11, 1), (14, 1), (8, 1, 1), (14, 2), (15, 1), (8, 1, 1)]
    yield "locked", judge_moves(PROGRAM, example.config, moves[:9] + [Move(row, *turn) for row, turn in
                                                                     enumerate(turns, 11)])
    yield "serials", judge_moves(PROGRAM, with_serials(example.config, 70000, 0, 2097151), moves)
    yield "rings", judge_moves(PROGRAM, mailbox_line(), mailbox_visit(1, 2))
    config, moves = sorters.small()
    config.drivers[1], config.partitions[1] = "Sortieranlagensteuerung" * 4, "Paketverteilzentrum" * 5
    config.objects[5] = replace(config.objects[5], name="Barcodezuordnungstabelle" * 4)
    yield "long", judge_moves(PROGRAM, config, moves)


class Walk(unittest.TestCase):
    @classmethod
    def setUpClass(cls):
        passing = tempfile.TemporaryDirectory()
        cls.addClassCleanup(passing.cleanup)
        cls.folder, cls.plans = Path(passing.name), dict(plans())
        for name, plan in cls.plans.items():
            (cls.folder / f"{name}.html").write_text(page_html(plan, f"Plan {name}"), encoding="utf-8")
        cls.browser = Browser()
        cls.addClassCleanup(cls.browser.close)

    def setUp(self):
        self.browser.faults.clear()

    def tearDown(self):
        self.browser.value("0")
        self.assertEqual(self.browser.faults, [])

    def open(self, name, key="", **size):
        self.browser.open((self.folder / f"{name}.html").as_uri() + (f"#{key}" if key else ""), **size)

    def at(self, row):
        """A link is followed a moment after the click."""
        end = time.monotonic() + 10
        while self.browser.value(CHOSEN) != f"row-{row}" and time.monotonic() < end:
            time.sleep(0.02)
        self.assertEqual(self.browser.value(CHOSEN), f"row-{row}")

    def test_sizes(self):
        sizes = {name: len(plan.config.objects) for name, plan in self.plans.items()}
        self.assertEqual([sizes[name] for name in ("small", "middle", "large", "wide")], [5, 40, 96, 192])

    def test_every_state(self):
        """With the arrow key from the first stop to the last: each object is shown where it is, with what it holds."""
        for name, plan in self.plans.items():
            self.open(name, "start")
            if self.browser.value("document.getElementById('fold').checked"):
                self.browser.click("#fold")
            for place, step in enumerate(stops(plan)):
                shown = self.browser.value(SHOWN)
                self.assertEqual(shown["stop"], str(place))
                self.shown_as_it_is(plan, step, shown, f"{name}, stop {place}")
                self.browser.press("ArrowRight")

    def shown_as_it_is(self, plan, step, shown, where):
        config, state = plan.config, shown_state(plan, step) if step else plan.visit[0].before
        wanted = {config.object(n): [config.partition(state.objects[n]) if state.objects[n] else "In no partition",
                                     contents(config, n, state)] for n in config.objects}
        self.assertEqual(shown["places"], wanted, where)
        self.assertEqual(sorted(shown["locked"]), sorted(config.actor(w.DEVICE, n) for n in state.locked), where)
        self.assertEqual(sorted(shown["serials"]), sorted([config.actor(w.DEVICE, n), f"serial {one.serial}"]
                                                          for n, one in config.devices.items() if one.serial), where)
        if step and step.accepted:
            changed = {n for n in config.objects if step.after.contents[n] != step.before.contents[n]}
            self.assertLessEqual(changed, set(shown["changed"]), where)
            self.assertLessEqual(set(shown["changed"]), changed | set(step.move.named()), where)
            self.assertEqual(shown["failed"], [], where)
        elif step:
            things = [thing for finding in plan.findings(step) for thing in finding.things]
            wanted = sorted({number for sort, number in things if sort == "object"})
            self.assertEqual(sorted(shown["failed"]), wanted, where)
            self.assertEqual(shown["changed"], [], where)

    def test_keys(self):
        self.open("example", "row-5")
        self.at(5)
        for key, row in (("ArrowRight", 6), ("ArrowDown", 7), ("ArrowLeft", 6), ("ArrowUp", 5), ("PageDown", 15),
                         ("PageUp", 5), ("End", 23), ("p", 18), ("p", 17), ("n", 18)):
            self.browser.press(key)
            self.at(row)
        self.browser.press("Home")
        self.assertEqual(self.browser.value(CHOSEN), "start")
        self.browser.press("ArrowLeft")
        self.assertEqual(self.browser.value(CHOSEN), "start")

    def test_keys_with_the_focus_in_the_list_and_on_the_slider(self):
        """The focus goes along in the list; on the slider the keys go the same way, and it says where it is."""
        self.open("example", "row-5")
        self.browser.value("document.querySelector('.stop.chosen .pick').focus()")
        self.browser.press("ArrowDown")
        self.assertEqual(self.browser.value("document.activeElement.closest('.stop').id"), "row-6")
        self.browser.value("document.getElementById('slider').focus()")
        self.browser.press("ArrowDown")
        self.at(7)
        said = self.browser.value("document.getElementById('slider').getAttribute('aria-valuetext')")
        self.assertEqual(said, "Row 7, activate card Scanner in Live loop, accepted")
        self.assertEqual(self.browser.value("document.querySelector('[aria-current]').closest('.stop').id"), "row-7")

    def test_slider_and_clicks(self):
        self.open("example")
        self.at(11)
        self.browser.click("#slider", 0.999)
        self.at(23)
        self.browser.click("#row-17 .pick")
        self.at(17)
        self.assertEqual(self.browser.value("location.hash"), "#row-17")
        self.browser.click("#on")
        self.at(18)
        self.browser.click(".summary a")
        self.at(11)
        self.browser.click(".bar.tint2")
        self.at(14)

    def test_chains_link_by_link(self):
        answers = set()
        for name, plan in self.plans.items():
            for step in plan.steps:
                if step.answer in w.BY_CHAIN:
                    self.chain_is_shown(name, plan, step)
                    answers.add(step.answer)
        self.assertEqual(answers, set(w.BY_CHAIN))

    def chain_is_shown(self, name, plan, step):
        """Each link is named in words, and its two rows and its arrow are lit."""
        links = plan.explained(step)[0].chain
        self.open(name, f"row-{step.move.row}")
        visible = "[...document.querySelectorAll('.link')].filter((one) => one.offsetHeight).length"
        self.assertEqual(self.browser.value(visible), len(links))
        self.assertEqual(self.browser.value("document.querySelectorAll('.arrow').length"),
                         sum(link.kind != "wired" for link in links))
        shown = self.browser.value("document.getElementById('said').textContent")
        self.assertEqual(shown.endswith("Shown as it would be after this move."), step.answer in w.AFTERWARDS)
        for place, link in enumerate(links):
            self.browser.press("ArrowDown", shift=True)
            rows = sorted({link.descriptor, link.to} - {0})
            self.assertEqual(self.browser.value(LIT.format("chosen")), rows, f"{name}, link {place + 1}")
            self.assertEqual(self.browser.value(ARROWS), [] if link.kind == "wired" else [str(place)])
            said = self.browser.value("document.getElementById('live').textContent")
            self.assertIn(plan.config.object(link.to or link.descriptor), said)
            self.assertEqual(said, self.browser.value("document.querySelector('.link[aria-pressed=true]').textContent"))
        self.assertEqual(self.browser.value("location.hash"), f"#row-{step.move.row}-link-{len(links)}")
        self.browser.press("Escape")
        self.assertEqual(self.browser.value(LIT.format("chosen")), [])

    def test_folding(self):
        """A large line shows what matters, and all of it if wanted; a card by itself, too."""
        shown = "document.querySelectorAll('.object').length"
        for name, own, count in (("large", 5, 96), ("wide", 11, 192)):
            self.open(name, "row-40")
            few = self.browser.value(shown)
            self.assertLess(few, 12, name)
            self.browser.click("#owner-card-9")
            self.assertEqual(self.browser.value(shown), few + own)
            self.browser.click("#fold")
            self.assertEqual(self.browser.value(shown), count)

    def test_nothing_sticks_out(self):
        """At the width of a desk and of a telephone nothing is wider than the page, nor text than what it is in."""
        for name in self.plans:
            for width in (1280, 390):
                self.open(name, "row-4", width=width)
                self.browser.value("document.getElementById('fold').checked && document.getElementById('fold').click()")
                self.assertLessEqual(self.browser.value(WIDEST), width + 1, f"{name} at {width}")
                self.assertEqual(self.browser.value(CUT), [], f"{name} at {width}")

    def test_themes(self):
        """Text is well set off from its ground in both themes: at least 4.5 to 1, as the guidelines have it."""
        self.open("example", "row-17")
        for _ in range(2):
            for one in (".row", ".verdict", ".said", ".held.none", ".note.fault", ".question", ".fingerprint", ".link"):
                self.assertGreaterEqual(self.contrast(one), 4.5, one)
            self.browser.click("#theme")

    def test_green_zones(self):
        """The loop is green and named so, the bench is not; a move that 22 refuses shows things as they stand."""
        self.open("green", "row-17")
        self.assertEqual(self.browser.value(GREEN_ZONES), [["Live loop", "green zone, partition 1"]])
        self.assertIn("Shown as things stand.", self.browser.value("document.getElementById('said').textContent"))
        for _ in range(2):
            for one in (".partition.green h3", ".partition.green small", ".partition.green .held"):
                self.assertGreaterEqual(self.contrast(one), 4.5, one)
            self.browser.click("#theme")
        self.open("green", "row-2")
        self.assertIn("created by this move as a green zone", self.browser.value(
            "document.querySelector('.partition.green .note').textContent"))
        self.assertGreater(self.browser.value("document.querySelectorAll('.bar.green').length"), 3)
        self.open("example", "row-17")
        self.assertEqual(self.browser.value(GREEN_ZONES), [])

    def test_padlocks(self):
        """A locked card has one, with a word that can be read; a move that 23 refuses has failed on the card."""
        self.open("locked", "row-13")
        self.assertEqual(self.browser.value(SHOWN)["locked"], ["card Diverter"])
        self.assertEqual(self.browser.value("document.querySelector('.card.failed .owner .name').textContent"),
                         "card Diverter")
        for _ in range(2):
            self.assertGreaterEqual(self.contrast(".group .padlock"), 4.5)
            self.browser.click("#theme")
        for row, words in ((12, "locked by this move"), (15, "unlocked by this move")):
            self.open("locked", f"row-{row}")
            self.assertEqual(self.browser.value("document.querySelector('.card.changed > .note').textContent"), words)
        self.assertEqual(self.browser.value("[...document.querySelectorAll('.bar.locked')].map((one) => one.title)"),
                         ["Diverter locked, from row 12 to row 15"])

    def contrast(self, selector):
        """The contrast of an element's text with the first ground behind it that is not transparent."""
        colours = self.browser.value(f"""(() => {{
          let one = document.querySelector('.chosen {selector}, #state {selector}, header {selector}');
          const ink = getComputedStyle(one).color;
          const ground = () => getComputedStyle(one).backgroundColor;
          while (ground() === 'rgba(0, 0, 0, 0)' && one.parentElement) one = one.parentElement;
          return [ink, ground()].map((text) => text.match(/\\d+/g).slice(0, 3).map(Number));
        }})()""")

        def light(colour):
            parts = [c / 255 for c in colour]
            parts = [c / 12.92 if c <= 0.04045 else ((c + 0.055) / 1.055) ** 2.4 for c in parts]
            return 0.2126 * parts[0] + 0.7152 * parts[1] + 0.0722 * parts[2]

        low, high = sorted(map(light, colours))
        return (high + 0.05) / (low + 0.05)

    def test_a_watched_page_is_loaded_again(self):
        """Made anew meanwhile, it shows the new plan at the same row when one comes back; others stay as they are."""
        again = self.folder / "again.html"
        for watched in (True, False):
            again.write_text(page_html(self.plans["example"], "before", watched), encoding="utf-8")
            self.browser.open(again.as_uri() + "#row-14")
            self.browser.click("#fold")
            again.write_text(page_html(self.plans["example"], "after", watched), encoding="utf-8")
            self.browser.value("window.dispatchEvent(new Event('blur')); window.dispatchEvent(new Event('focus')); 0")
            end = time.monotonic() + (20 if watched else 0.5)
            while self.title() != "after" and time.monotonic() < end:
                time.sleep(0.02)
            self.assertEqual(self.title(), "after" if watched else "before")
            self.at(14)
            self.assertTrue(self.browser.value("document.getElementById('fold').checked"))

    def title(self):
        """The page's, once it is there. Both are asked at once: between two questions the page may change."""
        try:
            return self.browser.value("document.readyState === 'complete' ? document.title : ''")
        except RuntimeError:
            return ""

    def test_print(self):
        """All moves, what the refused ones failed on, their chains, and the fingerprint are on the paper."""
        for name, plan in self.plans.items():
            self.open(name)
            (self.folder / "page.pdf").write_bytes(self.browser.printed())
            text = subprocess.run(["pdftotext", "-raw", self.folder / "page.pdf", "-"], capture_output=True, text=True,
                                  check=True).stdout
            flat = "".join(text.split())
            for step in plan.steps:
                words = f"Row {step.move.row} {move_words(plan.config, step.move)}"
                self.assertIn("".join(words.split()), flat, name)
                for finding in plan.findings(step):
                    self.assertIn("".join(finding.text[1:].split()), flat, name)
            links = sum(len(finding.chain) + finding.text.count("has an entry") for step in plan.steps
                        for finding in plan.findings(step))
            self.assertEqual(flat.count("hasanentry") + flat.count("readsitshard-wireddescriptor"), links, name)
            self.assertIn("line.bin", flat)

    def test_a_picture_at_full_size(self):
        """The picture of all 96 objects, or 192, is printed on one page, an A3."""
        for name in ("large", "wide"):
            (self.folder / "picture.svg").write_text(draw_plan(self.plans[name]), encoding="utf-8")
            self.browser.open((self.folder / "picture.svg").as_uri())
            (self.folder / "picture.pdf").write_bytes(self.browser.printed())
            told = subprocess.run(["pdfinfo", self.folder / "picture.pdf"], capture_output=True, text=True).stdout
            self.assertRegex(told, r"Pages: +1\n", name)
            self.assertRegex(told, r"Page size: +84[12]\S* x 119[01]\S* pts", name)


if __name__ == "__main__":
    unittest.main()
