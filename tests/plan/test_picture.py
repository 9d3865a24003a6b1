"""Pictures of random refusals are whole: a mark for each link, nothing outside the sheet, large lines folded."""
import unittest
import xml.etree.ElementTree as ElementTree
from collections import Counter

import sorters
from common import PROGRAM, InFolder, plan
from lines import random_line, random_visit, ring_line, ring_visit
from planner import wording as w
from planner.config import Object
from planner.judged import judge_moves
from planner.picture import RED, draw, draw_plan, marked, shown_state
from planner.routes import draw_routes, pack_bands, pack_lanes, plan_routes
from planner.scene import MOST_UNFOLDED, arrange, build
from planner.shelves import shelve
from planner.svg import text_width
from planner.visit import Move

SVG = "{http://www.w3.org/2000/svg}"


def refusals(seeds):
    """Judged plans with each of their steps that has a chain, on lines without rings and with them."""
    for make, visit in ((random_line, random_visit), (ring_line, ring_visit)):
        for seed in seeds:
            config = make(seed)
            judged = judge_moves(PROGRAM, config, visit(config, seed))
            for step in judged.steps:
                if step.answer in w.BY_CHAIN:
                    yield judged, step


class Pictures(unittest.TestCase):
    def test_a_mark_for_each_link_and_all_on_the_sheet(self):
        drawn, ends = Counter(), set()
        for judged, step in refusals(range(40)):
            sheet = ElementTree.fromstring(draw_plan(judged, step))
            links = judged.explained(step)[0].chain
            arrows = [path for path in sheet.iter(SVG + "path") if path.get("stroke") == RED]
            legend = 3 if links[-1].mode == w.BOTH else 2
            self.assertEqual(len(arrows) - legend, sum(link.kind != "wired" for link in links))
            self.drawn_as_the_legend_says(arrows[:-legend], arrows[-legend:], links)
            ends.add(links[-1].mode)
            self.assertEqual(len(list(sheet.iter(SVG + "circle"))), 2 * len(links))
            self.on_the_sheet(sheet)
            drawn[step.answer] += 1
        self.assertGreater(min(drawn[answer] for answer in w.BY_CHAIN), 30)
        self.assertEqual(ends, set(w.MODES))

    def drawn_as_the_legend_says(self, arrows, legend, links):
        """Solid reads, dashed writes, and one that does both is like neither; so also where the chain ends."""
        looks = {mode: arrow.get("stroke-dasharray") for mode, arrow in zip((w.READ, w.WRITE, w.BOTH), legend)}
        self.assertIsNone(looks[w.READ])
        self.assertEqual(len(set(looks.values())), len(legend))
        modes = [{"reads": w.READ, "puts": w.WRITE}.get(link.kind, link.mode) for link in links if link.kind != "wired"]
        self.assertEqual([arrow.get("stroke-dasharray") for arrow in arrows], [looks[mode] for mode in modes])

    def on_the_sheet(self, sheet):
        width, height = float(sheet.get("width")), float(sheet.get("height"))
        for shape in sheet.iter(SVG + "rect"):
            self.assertGreaterEqual(float(shape.get("x")), 0)
            self.assertLessEqual(float(shape.get("x")) + float(shape.get("width")), width)
            self.assertLessEqual(float(shape.get("y")) + float(shape.get("height")), height)
        for shape in sheet.iter(SVG + "text"):
            if shape.get("text-anchor") is None:
                size = float(shape.get("font-size"))
                self.assertLessEqual(float(shape.get("x")) + text_width(shape.text, size), width + 1, shape.text)

    def test_a_large_line_is_folded_at_a_row_only(self):
        config = random_line(1)
        for _ in range(MOST_UNFOLDED):
            number = len(config.objects) + 1
            config.objects[number] = Object(f"O{number}", w.DATA, w.EXTERNAL, 0)
        judged = judge_moves(PROGRAM, config, [Move(2, 5, 0, 1), Move(3, 7, 1, 1)])
        last = f">O{len(config.objects)}<"
        self.assertIn(last, draw_plan(judged))
        self.assertNotIn(last, draw_plan(judged, judged.steps[1]))
        self.assertIn(" objects<", draw_plan(judged, judged.steps[1]))


class Lanes(unittest.TestCase):
    def test_no_two_arrows_lie_on_one_another(self):
        """Lanes are shared, but by arrows that are apart; so are the bands over the boxes."""
        arrows, lanes = 0, 0
        for judged, step in refusals(range(60)):
            chain = judged.explained(step)[0].chain
            scene = build(judged.config, shown_state(judged, step), chain, marked(judged, step, [], chain))
            shelve(scene)
            routes = plan_routes(scene, chain)
            bands = pack_bands(routes, scene.lines)
            gutters = pack_lanes(scene, routes, bands)
            arrange(scene, 0, gutters, bands)
            draw_routes(scene, routes)
            self.apart([part for route in routes for part in upright_parts(route)])
            self.apart([part for route in routes for part in level_parts(route)])
            arrows += sum(len(route.lanes) for route in routes)
            lanes += len({(x, gutter) for route in routes for gutter, x in route.lanes.items()})
        self.assertGreater(arrows, 400)
        self.assertLess(lanes, arrows)

    def apart(self, parts):
        """Parts of one line do not touch, unless they are of one arrow."""
        for place, (number, line, low, high) in enumerate(parts):
            for other, same, least, most in parts[:place]:
                if line == same and number != other:
                    self.assertTrue(high < least or most < low, (number, other))


def upright_parts(route):
    """The stretches of an arrow in gutters: its number, x, and from where to where."""
    for (ax, ay), (bx, by) in zip(route.points, route.points[1:]):
        if ax == bx and ay != by:
            yield route.number, ax, min(ay, by), max(ay, by)


def level_parts(route):
    """The stretches over the top of boxes."""
    if len(route.points) > 4:
        (ax, y), (bx, _) = route.points[2:4]
        yield route.number, y, min(ax, bx), max(ax, bx)


class FullSize(unittest.TestCase):
    def test_each_picture_prints_on_one_page(self):
        """96 objects and 16 cards: every row, and the end with all objects shown, can be read on A3."""
        end = self.drawn(sorters.LARGE, 96)
        self.assertTrue(end.prints)
        self.assertIn("@page {size: A3 portrait", end.text)

    def test_of_a_wide_line(self):
        """192 objects and 16 cards: so can every row, but not the end, which is laid out for one page all the same."""
        end = self.drawn(sorters.WIDE, 192)
        self.assertFalse(end.prints)
        self.assertIn("@page {size: A3 portrait", end.text)

    def drawn(self, size, objects):
        """The picture of a sorter's end; it is whole, and so is each row's, which can be read on A3."""
        made = sorters.visit(**size)
        judged = judge_moves(PROGRAM, made.config, made.rows())
        self.assertEqual((len(judged.config.objects), len(judged.config.devices)), (objects, 16))
        for step in [*judged.steps, None]:
            picture = draw(judged, step)
            self.assertTrue(picture.prints or step is None, step)
            sheet = ElementTree.fromstring(picture.text)
            Pictures.on_the_sheet(self, sheet)
            self.nothing_overlaps(sheet)
        return picture

    def nothing_overlaps(self, sheet):
        """Groups of objects stand beside or below one another."""
        boxes = [tuple(float(one.get(key)) for key in ("x", "y", "width", "height")) for one in sheet.iter(SVG + "rect")
                 if one.get("rx") == "6"]
        self.assertGreater(len(boxes), 5)
        for place, (x, y, width, height) in enumerate(boxes):
            for left, top, wide, tall in boxes[:place]:
                self.assertTrue(x >= left + wide or left >= x + width or y >= top + tall or top >= y + height)


class TooLarge(InFolder):
    def test_the_tool_says_so(self):
        """Sixty partitions with something in most of them are too much for a picture."""
        names = [f"Table {n}" for n in range(60)]
        (self.visit / "objects.csv").write_text((self.visit / "objects.csv").read_text(encoding="utf-8") +
                                                "".join(f"{name},data,external,\n" for name in names), encoding="utf-8")
        rows = "".join(f"create,,{n},\nactivate,,{n},{name}\n" for n, name in enumerate(names, 3))
        (self.visit / "visit.csv").write_text("operation,who,where,what\n" + rows, encoding="utf-8")
        status, text, _ = plan("picture", "examples/visit")
        self.assertEqual((status, text), (0, "Drawn: examples/visit/picture.svg\nToo large to be read on one A3 page: "
                                             "picture.svg. Try: tools/plan page examples/visit\n"))

    def test_several_rows(self):
        status, text, _ = plan("picture", "examples/visit", "17", "11", "17")
        drawn = [f"Drawn: examples/visit/picture-row-{row}.svg" for row in (17, 11)]
        self.assertEqual((status, text.splitlines()), (0, drawn))
        status, text, _ = plan("picture", "examples/visit", "all")
        drawn = [f"Drawn: examples/visit/picture{row}.svg" for row in [*(f"-row-{n}" for n in range(2, 24)), ""]]
        self.assertEqual((status, text.splitlines()), (0, drawn))
        self.assertEqual(len(list(self.visit.glob("picture*.svg"))), 23)
        for word in ("every", "99"):
            self.assertEqual(plan("picture", "examples/visit", "17", word)[0], 2)


if __name__ == "__main__":
    unittest.main()
