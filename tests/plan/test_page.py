"""The page of a plan stands alone, says of each move what the program answered, and its data lead to the book's states.

What it does in a browser is tried by tests/browser.sh.
"""
import argparse
import base64
import contextlib
import hashlib
import io
import json
import re
import shutil
import subprocess
import tempfile
import unittest
from dataclasses import replace
from html import unescape
from pathlib import Path
from unittest import mock

import sorters
from common import PROGRAM, ROOT, InFolder, plan
from lines import green_visit, random_line, random_visit, ring_line, wide_line
from planner import cli
from planner import wording as w
from planner.causes import origins
from planner.fingerprint import fingerprint
from planner.judged import judge_folder, judge_moves
from planner.page import PARTS, page_html
from planner.page_data import contents, page_data, stops
from planner.picture import shown_state
from planner.visit import move_words

DATA = re.compile(r'<script type="application/json" id="data">(.*?)</script>', re.DOTALL)
SCRIPT = re.compile(r"<script>(.*?)</script>", re.DOTALL)
STOP = re.compile(r'<li class="stop ([a-z ]*)" id="([a-z]+-?\d*)">(.*?)(?=<li class="stop |</ol>\n</section>)',
                  re.DOTALL)
# What browsers of five years ago do not know, and what would need a network.
NEW = re.compile(r":has\(|@container|@layer|color-mix|structuredClone|\.at\(|findLast|hasOwn|\binert\b|popover|dvh|"
                 r"@starting-style|view-transition|\bsubgrid|text-wrap|:popover|\?\?=|\|\|=|&&=")
NETWORK = re.compile(r"https?://(?!www\.w3\.org/2000/svg)|\bsrc=|url\((?!#)|@import|fetch\(|XMLHttp|WebSocket|<link|"
                     r"<iframe")
COLUMNS, LINES = 120, 400


def text_of(html):
    return unescape(re.sub(r"<[^>]*>", "", html))


def example():
    return judge_folder(PROGRAM, ROOT / "examples" / "visit")


class Page(InFolder):
    def test_command(self):
        status, text, complaints = plan("page", "examples/visit")
        self.assertEqual((status, text, complaints), (0, f"Written: {Path('examples/visit/page.html')}\n", ""))
        page = (self.visit / "page.html").read_text(encoding="utf-8")
        self.assertEqual(page, page_html(example(), "Plan visit"))

    def test_a_watched_page_knows_it(self):
        """Only what `watch` writes is to be loaded again."""
        for run, watched in ((cli.run_page, False), (cli.run_watch, True)):
            with contextlib.redirect_stdout(io.StringIO()):
                cli.run_page(argparse.Namespace(run=run, dir=self.visit, office=PROGRAM))
            self.assertEqual('<html lang="en" data-watched>' in (self.visit / "page.html").read_text("utf-8"), watched)

    def test_a_refused_line_has_no_page(self):
        self.edit("cards.csv", "Scale start-up", "Calibrate")
        status, text, _ = plan("page", "examples/visit")
        self.assertEqual(status, 1)
        self.assertIn("The line is refused by question 6", text)
        self.assertFalse((self.visit / "page.html").exists())

    def test_an_empty_plan(self):
        for words in (("new", "monday"), ("page", "monday"), ("timeline", "monday")):
            self.assertEqual(plan(*words)[0], 0, words)
        page = Path("monday/page.html").read_text(encoding="utf-8")
        self.assertEqual([key for _, key, _ in STOP.findall(page)], ["start"])

    def test_a_refusal_without_a_chain(self):
        """The page is still made; the row is a cause, and nothing is made up."""
        with mock.patch("planner.reach.outside_chain", return_value=None):
            self.assertEqual(plan("page", "examples/visit")[0], 0)
        page = (self.visit / "page.html").read_text(encoding="utf-8")
        looks, _, html = next(stop for stop in STOP.findall(page) if stop[1] == "row-17")
        self.assertEqual((looks, html.count('class="link"')), ("refused cause", 0))
        self.assertIn("could not be explained", html)

    def test_fingerprint(self):
        """The very digests that sha256sum prints of the files that were judged."""
        plan("check", "examples/visit")
        plan("page", "examples/visit")
        page = text_of((self.visit / "page.html").read_text(encoding="utf-8"))
        for name in ("line.bin", "session.bin"):
            digest = subprocess.run(["sha256sum", self.visit / name], capture_output=True, text=True, check=True).stdout
            self.assertIn(f"{name} {digest.split()[0]}", page)
            self.assertIn(f"{name} {digest.split()[0]}", fingerprint(example().line, example().session))

    def test_bring_up(self):
        """The page begins where the sorter is; a row of the bring-up is told if it is refused."""
        shutil.copytree(ROOT / "examples" / "today", "today")
        judged = judge_folder(PROGRAM, Path("today"))
        self.assertGreater(judged.first, 0)
        keys = [key for _, key, _ in STOP.findall(page_html(judged, "Plan"))]
        self.assertEqual(keys, ["start"] + [f"row-{step.move.row}" for step in judged.visit])
        bringup = Path("today/bringup.csv")
        spoiled = bringup.read_text(encoding="utf-8").replace("create,,Live loop", "create,,9", 1)
        bringup.write_text(spoiled, encoding="utf-8")
        judged = judge_folder(PROGRAM, Path("today"))
        found = STOP.findall(page_html(judged, "Plan"))
        self.assertIn("Row 3 of bringup.csv", text_of(found[0][2]))
        self.assertEqual([key for _, key, _ in found],
                         [f"bringup-{step.move.row}" for step in judged.failed_bringup] + ["start"] +
                         [f"row-{step.move.row}" for step in judged.visit])
        States.leads_to_the_book(self, judged)


class Script(unittest.TestCase):
    def test_without_a_browser(self):
        """It is said that nothing was tried; in the gate that is a failure."""
        with tempfile.TemporaryDirectory() as folder:
            for tool in ("bash", "dirname", "id"):
                Path(folder, tool).symlink_to(shutil.which(tool))
            for ci, status in (("", 0), ("true", 1)):
                done = subprocess.run(["bash", ROOT / "tests" / "browser.sh"], capture_output=True, text=True,
                                      env={"PATH": folder, "CI": ci})
                self.assertEqual(done.returncode, status, done.stderr)
                self.assertEqual(done.stdout, "" if status else "skipped: no browser\n")


class Alone(unittest.TestCase):
    def setUp(self):
        self.page = page_html(example(), "Plan")

    def test_nothing_is_fetched(self):
        self.assertEqual(NETWORK.findall(self.page), [])
        policy = re.search(r'http-equiv="Content-Security-Policy" content="([^"]*)"', self.page)[1]
        digest = base64.b64encode(hashlib.sha256(SCRIPT.search(self.page)[1].encode()).digest()).decode()
        self.assertEqual(policy, f"default-src 'none'; style-src 'unsafe-inline'; script-src 'sha256-{digest}'")

    def test_nothing_is_too_new(self):
        self.assertEqual(NEW.findall(self.page), [])

    def test_no_slot_is_left(self):
        self.assertNotIn("@@", self.page)

    def test_parts_are_small(self):
        for path in PARTS.iterdir():
            rows = path.read_text(encoding="utf-8").splitlines()
            self.assertLess(len(rows), LINES, path.name)
            self.assertEqual([row for row in rows if len(row) > COLUMNS], [], path.name)

    def test_names_are_text(self):
        """Whatever a name looks like, it is shown as it is and does nothing."""
        found = example()
        name = '</script><img src="x" onerror="alert(1)">&amp;@@moves@@<!--'
        found.config.devices[1] = replace(found.config.devices[1], name=name)
        page = page_html(found, name)
        self.assertEqual(page.count("<img"), 0)
        self.assertEqual(page.count("</script>"), 2)
        self.assertEqual(json.loads(DATA.search(page)[1])["cards"][0], name)
        self.assertIn(f"activate card {name} in Live loop", text_of(STOP.findall(page)[5][2]))


class Moves(unittest.TestCase):
    def test_every_move_with_its_answer(self):
        made = sorters.visit()
        for judged in (example(), judge_moves(PROGRAM, made.config, made.rows())):
            page, found = page_html(judged, "Plan"), origins(judged)
            shown = STOP.findall(page)
            self.assertEqual(len(shown), len(judged.steps) + 1)
            for step, (looks, key, html) in zip(judged.steps, shown[1:]):
                text = text_of(html)
                self.assertEqual(key, f"row-{step.move.row}")
                self.assertIn(move_words(judged.config, step.move), text)
                if step.accepted:
                    self.assertEqual((looks, text.count("accepted")), ("accepted", 1))
                    continue
                causes = found[step.place].causes
                self.assertEqual(looks, "refused consequence" if causes else "refused cause")
                self.assertIn(f"refused by {step.answer}: " + ("comes of row" if causes else "a cause"), text)
                self.assertIn(w.question(step.answer, step.move.code), text)
                for finding in judged.findings(step):
                    self.assertIn(finding.text[1:], text)
                    self.assertEqual(html.count('class="link"'), len(finding.chain))

    def test_where_to_begin(self):
        made = sorters.visit()
        judged = judge_moves(PROGRAM, made.config, made.rows())
        summary = re.search(r'<p class="summary">(.*?)</p>', page_html(judged, "Plan"))[1]
        self.assertEqual(text_of(summary), "35 moves: 29 accepted, 6 refused. Begin with row 18 (2 more come of it), "
                                           "row 26 (1 more comes of it), row 32.")


class States(unittest.TestCase):
    def test_the_data_lead_to_the_books_states(self):
        """As the script does it: what accepted moves set in their order; for 19 and 21 what the move would set, too."""
        lines = [*map(random_line, range(30)), *map(wide_line, range(4)), *map(ring_line, range(10))]
        plans = [judge_moves(PROGRAM, config, (random_visit, green_visit)[seed % 3 == 0](config, seed))
                 for seed, config in enumerate(lines)]
        self.assertLessEqual({w.GREEN_RULE, *w.BY_CHAIN}, {step.answer for judged in plans for step in judged.steps})
        shown = 0
        for judged in plans + [example(), judge_folder(PROGRAM, ROOT / "examples" / "today")]:
            shown += States.leads_to_the_book(self, judged)
        self.assertGreater(shown, 1000)

    @staticmethod
    def leads_to_the_book(test, judged):
        """Holds every stop of a plan to the book; how many there are."""
        data = json.loads(json.dumps(page_data(judged)))
        for stop, step in zip(data["stops"], stops(judged)):
            wanted = shown_state(judged, step) if step else judged.visit[0].before
            States.same(test, judged.config, data, States.at(data, stop), wanted)
        return len(data["stops"])

    @staticmethod
    def at(data, stop):
        state = {"partition": {}, "driver": {}, "card": {}, "object": {}, "lock": {},
                 "holds": dict(enumerate(data["held"], 1))}
        here = [] if stop["step"] is None else [data["steps"][stop["step"]]]
        before = data["steps"][:stop["step"] if here else stop["done"]]
        for step in [step for step in before if not step["answer"]] + here:
            for sort, number, value in step["set"]:
                state[sort][number] = value
        return state

    @staticmethod
    def same(test, config, data, state, wanted):
        for sort, there in (("driver", wanted.drivers), ("card", wanted.devices), ("object", wanted.objects)):
            test.assertEqual({n: state[sort].get(n, 0) for n in there}, there)
        standing = {n: 2 if n in wanted.destroyed else 3 if n in wanted.green else 1 for n in wanted.created}
        test.assertEqual(state["partition"], standing)
        test.assertEqual({n for n, hung in state["lock"].items() if hung}, set(wanted.locked))
        test.assertEqual({n: data["words"][state["holds"][n]] for n in config.objects},
                         {n: contents(config, n, wanted) for n in config.objects})


if __name__ == "__main__":
    unittest.main()
