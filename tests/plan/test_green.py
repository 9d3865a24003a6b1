"""Green zones in the example: what 22 and the stricter 20 fail on, in words, and what would help."""
import unittest
import unittest.mock
from collections import Counter
from pathlib import Path

from common import PROGRAM, InFolder, plan
from lines import green_visit, random_line, ring_line, wide_line
from planner import wording as w
from planner.book import follow, fresh
from planner.causes import failures, origins, remaining
from planner.green import breaches, clinging, leaves_green, put_green, rule_findings
from planner.judged import judge_folder, judge_moves
from planner.reach import found_chain
from planner.repair import Search
from planner.repairs import changed_lines
from planner.visit import Move, Pair
from test_repair import accepted, cells, save

HEAD = ["operation", "who", "where", "what"]
UP = [["create green", "", "Live loop", ""], ["create", "", "Test bench", ""],
      ["activate", "Sorting control", "Live loop", ""], ["activate", "Diverter", "Live loop", ""],
      ["activate", "Scale", "Live loop", ""]]
QUEUE = "Job queue (transfer descriptor of driver Sorting control)"
GREEN_LOOP = "Live loop, which is green"
# Values whose entries break the rule, each in its own way, and one that keeps to it.
VALUES = "".join(f"{row},\n" for row in (
    "Peek,Scale wiring,read,", "Give a job,Scale ring,write,Weigh parcels", "Share a job,Scale ring,both,Weigh parcels",
    "Look,Scale ring,read,", "Fetch,Barcode table,read,", "Weights,Reference weights,both,",
    "Far job,Scanner ring,write,Peek"))
SESSIONS, WIDE_SESSIONS = 120, 20


class Green(InFolder):
    """The example's tables, with visits of their own in which the loop is green."""

    def judged(self, *rows):
        """The plan of rows that come after the loop is up."""
        save(self.visit, [HEAD, *UP, *rows])
        return judge_folder(PROGRAM, self.visit)

    def last(self, *rows):
        """The answer to the last of these rows, and what it failed on; all before are accepted."""
        judged = self.judged(*rows)
        self.assertEqual(set(judged.verdict.answers[:-1]), {w.ACCEPTED})
        step = judged.steps[-1]
        return step.answer, [finding.text for finding in judged.findings(step)]

    def queue(self, value):
        return ["write", "Sorting control", "", f"Job queue = {value}"]


class Rule(Green):
    def setUp(self):
        super().setUp()
        path = self.visit / "values.csv"
        path.write_text(path.read_text(encoding="utf-8") + VALUES, encoding="utf-8")

    def breaks(self, value, text, *before):
        """The value is refused for one entry, in these words."""
        self.assertEqual(self.last(*before, self.queue(value)), (
            w.GREEN_RULE, [f"'{value}', to be written into {QUEUE}, has an entry that {text}"]))

    def test_each_clause(self):
        writes = "no value in a green zone may write a transfer descriptor"
        ring = "Scale ring (transfer descriptor of card Scale)"
        self.breaks("Fetch", f"reads Barcode table (external data): that is in no partition, and not in {GREEN_LOOP}")
        self.breaks("Weights", "reads and writes Reference weights (data of driver Service laptop): that is in Test "
                    f"bench, and not in {GREEN_LOOP}", ["activate", "Service laptop", "Test bench", ""])
        self.breaks("Peek", "reads Scale wiring (hard-wired descriptor of card Scale): no value in a green zone may "
                    "name a hard-wired descriptor")
        self.breaks("Give a job", f"writes {ring}: {writes}")
        self.breaks("Share a job", f"reads and writes {ring}: {writes}")
        self.breaks("Far job", "writes Scanner ring (transfer descriptor of card Scanner): that is in no partition, "
                    f"and not in {GREEN_LOOP}; and {writes}")

    def test_what_keeps_to_it(self):
        """A transfer descriptor that is read, data and function descriptors of the zone, nothing at all."""
        for value in ("Look", "Weigh parcels", "Divert by weight", "cleared"):
            before = [["activate", "", "Live loop", "Parcel counter"]]
            self.assertEqual(self.last(*before, self.queue(value)), (w.ACCEPTED, []), value)
        self.assertEqual(self.last(["read", "Sorting control", "", "Job queue; Job queue -> Scale ring"])[0], 0)

    def test_in_a_zone_that_is_not_green(self):
        """There all of these values may be held, as long as no card is led out by them: no card reads the queue."""
        for value in ("Fetch", "Weights", "Peek", "Give a job", "Share a job", "Far job"):
            self.judged(self.queue(value))
            self.edit("visit.csv", "create green,", "create,")
            self.assertTrue(judge_folder(PROGRAM, self.visit).verdict.accepted, value)

    def test_each_item_and_each_entry(self):
        judged = self.judged(["write", "Sorting control", "",
                              "Scale ring = Look; Job queue = Scan and queue; Diverter ring = Fetch; "
                              "Lane table = text x"])
        found = judged.findings(judged.steps[-1])
        self.assertEqual([finding.things for finding in found],
                         [[("object", 11), ("object", 14)], [("object", 11), ("object", 11)],
                          [("object", 2), ("object", 14)]])

    def test_a_copy_is_judged_by_its_source(self):
        """In a state that no moves lead to: what a green zone's descriptors hold there could not be written there."""
        config = self.judged().config
        state = fresh(config)
        for move in (Move(2, 13, where=1), Move(3, 7, 1, 1), Move(4, 8, 3, 1)):
            state = follow(config, state, move)
        ring, queue = 8, 11
        state.contents[ring] = next(n for n, one in config.values.items() if one.name == "Fetch")
        copy, back = Move(5, 3, 1, 0, (Pair(ring, queue),)), Move(5, 3, 1, 0, (Pair(queue, ring), Pair(ring, 0)))
        self.assertEqual([finding.text for finding in rule_findings(config, state, copy)], [
            f"'Fetch', which Scale ring holds and which would be copied into {QUEUE}, has an entry that reads Barcode "
            f"table (external data): that is in no partition, and not in {GREEN_LOOP}"])
        self.assertEqual(rule_findings(config, state, back), [])
        plain = follow(config, state, Move(6, 5, where=1))
        self.assertEqual(rule_findings(config, plain, copy), [], "the zone is no longer green")

    def test_ways(self):
        bring = "first, and this entry keeps to the rule."
        for value, way in (("Fetch", f"Bring Barcode table into Live loop {bring}"),
                           ("Weights", f"Bring driver Service laptop into Live loop {bring}"), ("Peek", ""),
                           ("Give a job", "Such a value can be stored in a zone that is not green, if question 19 lets "
                                          "it be stored there.")):
            self.judged(self.queue(value))
            text = " ".join(plan("explain", self.visit, 7)[1].split())
            self.assertTrue(text.endswith(way or "may name a hard-wired descriptor."), text)

    def test_what_it_names_is_brought_in_first(self):
        for value, words in (("Fetch", "activate in Live loop: Barcode table"),
                             ("Weights", "deactivate driver Service laptop; activate driver Service laptop in Live "
                                         "loop")):
            self.judged(["activate", "Service laptop", "Test bench", ""], self.queue(value))
            status, text, _ = plan("repair", self.visit, 8, "--write", 1)
            self.assertEqual((status, text.splitlines()[0]), (
                0, f"Written: examples/visit/visit.csv: what its value names brought in first: {words}"))
            self.assertTrue(judge_folder(PROGRAM, self.visit).verdict.accepted)

    def test_no_move_helps_a_value_that_writes_or_names_what_it_may_not(self):
        for value in ("Peek", "Give a job", "Far job"):
            self.judged(self.queue(value))
            text = plan("repair", self.visit, 7)[1]
            self.assertIn("changes tried has it accepted without harm to other rows.", " ".join(text.split()))
            self.assertNotIn("brought in", text)


    def test_causes(self):
        """Row 7 wants the zone plain: with that done 19 is put in place of 22, and stops one of the two writes.

        The diverter would be led to a ring that is in no partition; the queue nobody reads.
        """
        judged = self.judged(["create", "", "Live loop", ""], self.queue("Give a job"),
                             ["write", "Sorting control", "", "Diverter ring = Far job"])
        self.assertEqual(list(judged.verdict.answers[5:]), [14, w.GREEN_RULE, w.GREEN_RULE])
        found = origins(judged)
        self.assertEqual([[one.place for one in found[place].causes] for place in (6, 7, 8)], [[], [6], []])

    def test_two_causes_together(self):
        """A value names what two rows failed to bring in; of either alone it does not come."""
        path = self.visit / "values.csv"
        path.write_text(path.read_text(encoding="utf-8") + "Both,Barcode table,read,,\nBoth,Parcel counter,read,,\n",
                        encoding="utf-8")
        absent = [["activate", "", "3", name] for name in ("Barcode table", "Parcel counter")]
        judged = self.judged(*absent, self.queue("Both"))
        self.assertEqual(list(judged.verdict.answers[5:]), [14, 14, w.GREEN_RULE])
        self.assertEqual([one.place for one in origins(judged)[8].causes], [])
        here = [["activate", "", "Live loop", f"{name}; Scale ring"] for name in ("Barcode table", "Parcel counter")]
        judged = self.judged(*here, self.queue("Both"))
        self.assertEqual(list(judged.verdict.answers[5:]), [13, 13, w.GREEN_RULE])
        self.assertEqual([one.place for one in origins(judged)[8].causes], [6, 7])


class Cards(Green):
    def setUp(self):
        super().setUp()
        self.edit("values.csv", "Scale start-up,Scale ring,read,,", "Scale start-up,Scale ring,both,Weigh parcels,")

    def test_a_card_with_a_ring(self):
        judged = self.judged(["activate", "", "Live loop", "Parcel counter"], ["activate", "Scale", "Live loop", ""],
                             ["activate", "", "Test bench", "Barcode table"], ["activate", "Scale", "Test bench", ""])
        self.assertEqual(list(judged.verdict.answers[4:]), [w.GREEN_RULE, 0, w.GREEN_RULE, 0, w.ENTERS_OUTSIDE])
        self.assertEqual([finding.text for finding in judged.findings(judged.steps[4])], [
            "'Scale start-up', which is hard-wired in card Scale, has an entry that reads and writes Scale ring "
            "(transfer descriptor of card Scale): no card that writes a transfer descriptor may come into "
            f"{GREEN_LOOP}"])
        status, text, _ = plan("explain", self.visit, 6)
        self.assertEqual(status, 0)
        self.same_as_golden("explain-green-card.txt", text)
        self.assertEqual(plan("repair", self.visit, 6)[1].count("None of the"), 1)

    def test_causes(self):
        """Two rows fail on the same ring; what was to be written into it comes of that."""
        judged = self.judged(["activate", "Scale", "Live loop", ""],
                             ["write", "Sorting control", "", "Scale ring = cleared"])
        self.assertEqual(list(judged.verdict.answers[4:]), [w.GREEN_RULE, w.GREEN_RULE, 17])
        found = origins(judged)
        self.assertEqual([[one.place for one in found[place].causes] for place in (5, 6, 7)], [[], [5], [5]])
        self.assertTrue(found[6].same)

    def test_22_comes_before_21(self):
        """With what its ring names brought in, the scale would get past 21; were the zone green, not past 22."""
        save(self.visit, [HEAD, ["create", "", "Live loop", ""], ["activate", "Scale", "Live loop", ""]])
        judged = judge_folder(PROGRAM, self.visit)
        step, config = judged.steps[1], judged.config
        self.assertEqual(step.answer, w.ENTERS_OUTSIDE)
        failed = failures(config, step.before, step.move, step.answer)
        there = follow(config, step.before, Move(4, 9, 0, 1, (15,)))
        self.assertEqual(remaining(config, there, step, failed), frozenset())
        self.assertEqual(remaining(config, follow(config, there, Move(5, 13, where=1)), step, failed), failed)


class Leaving(Green):
    """The scale is to leave, and the queue, which no card reads, holds a job that names the scale's record."""

    out = ["deactivate", "Scale", "", ""]
    text = (f"{QUEUE} stays in {GREEN_LOOP}, and holds 'Divert by weight', which reads Weight record (data of card "
            "Scale), which leaves")

    def test_a_descriptor_that_no_card_reads(self):
        self.assertEqual(self.last(self.queue("Divert by weight"), self.out), (w.IN_REACH, [self.text]))
        status, said, _ = plan("explain", self.visit, 8)
        self.assertEqual(status, 0)
        self.same_as_golden("explain-green-leaves.txt", said)
        self.assertEqual(plan("check", self.visit)[0], 1)
        self.edit("visit.csv", "create green,", "create,")
        self.assertTrue(judge_folder(PROGRAM, self.visit).verdict.accepted, "a plain zone lets it go")

    def test_beside_a_chain(self):
        """The diverter's ring leads to the record, and the queue names it too; what the chain tells is told once."""
        both = ["write", "Sorting control", "", "Diverter ring = Divert by weight; Job queue = Divert by weight"]
        answer, found = self.last(both, self.out)
        self.assertEqual((answer, len(found), found[1]), (w.IN_REACH, 2, self.text))
        self.assertIn("a chain of 3 links", found[0])
        one = ["write", "Sorting control", "", "Diverter ring = Divert by weight"]
        self.assertEqual(len(self.last(one, self.out)[1]), 1)

    def test_the_question_is_put_as_it_is_put_there(self):
        more = "named by no descriptor that stays in the green zone?"
        judged = self.judged(self.queue("Divert by weight"), self.out)
        self.assertIn(more, judged.steps[-1].question(judged.config))
        self.edit("visit.csv", "create green,", "create,")
        self.edit("visit.csv", "Job queue =", "Diverter ring =")
        judged = judge_folder(PROGRAM, self.visit)
        self.assertEqual(judged.verdict.answers[-1], w.IN_REACH)
        self.assertNotIn(more, judged.steps[-1].question(judged.config))

    def test_without_an_explanation_none_is_made_up(self):
        self.judged(self.queue("Divert by weight"), self.out)
        with unittest.mock.patch("planner.reach.clinging", return_value=[]):
            self.assertEqual(plan("explain", self.visit, 8)[0], 5)

    def test_what_leaves_together(self):
        """A driver takes along a descriptor that names its own data."""
        counter = ["activate", "", "Live loop", "Barcode table"]
        self.assertEqual(self.last(counter, self.queue("Divert by barcode"), ["deactivate", "Sorting control", "", ""]),
                         (w.ACCEPTED, []))

    def test_cleared_first(self):
        judged = self.judged(self.queue("Divert by weight"), self.out)
        repairs = Search(PROGRAM, judged, judged.steps[-1]).find()
        self.assertEqual(repairs[0].change.texts,
                         ("cleared first: driver Sorting control writes Job queue = cleared",))
        for repair in repairs:
            save(self.visit, changed_lines(judged, repair.change))
            left = accepted(judge_folder(PROGRAM, self.visit))
            for one in accepted(judged) + [cells(judged.steps[-1])]:
                self.assertIn(one, left, repair.change.texts)
                left.remove(one)

    def test_cleared_by_a_driver_that_comes_for_it(self):
        """The diverter's ring names the table, and no driver is in the loop."""
        counter = ["activate", "", "Live loop", "Barcode table; Parcel counter"]
        ring = ["write", "Sorting control", "", "Diverter ring = Scan parcels; Scale ring = Scan parcels"]
        self.judged(counter, ring, ["deactivate", "Sorting control", "", ""],
                    ["deactivate", "", "Live loop", "Barcode table"])
        status, text, _ = plan("repair", self.visit, 10, "--write", 1)
        self.assertEqual((status, text.splitlines()[0]), (0, (
            "Written: examples/visit/visit.csv: cleared first: activate driver Sorting control in Live loop; driver "
            "Sorting control writes Diverter ring = cleared; Scale ring = cleared; deactivate driver Sorting control")))
        self.assertTrue(judge_folder(PROGRAM, self.visit).verdict.accepted)

    def test_causes(self):
        """Were the queue cleared, which row 8 fails to do, the scale could leave."""
        judged = self.judged(self.queue("Divert by weight"),
                             ["write", "Sorting control", "",
                              "Job queue = cleared; Diverter ring = Divert by barcode"], self.out)
        self.assertEqual(list(judged.verdict.answers[5:]), [0, w.GREEN_RULE, w.IN_REACH])
        self.assertEqual([one.place for one in origins(judged)[8].causes], [7])


class Whole(Green):
    def test_words(self):
        """The example's visit, with the loop green: one job writes the queue, and that is refused each time."""
        self.edit("visit.csv", "create,,Live loop", "create green,,Live loop")
        status, text, complaints = plan("check", self.visit)
        self.assertEqual((status, complaints), (1, ""))
        self.same_as_golden("green.txt", text)

    def test_a_partition_is_created_once(self):
        for verb, again, sort in (("create green", "create", " as a green zone"), ("create", "create green", ""),
                                  ("create green", "create green", " as a green zone")):
            save(self.visit, [HEAD, [verb, "", "Live loop", ""], [again, "", "Live loop", ""]])
            judged = judge_folder(PROGRAM, self.visit)
            self.assertEqual(list(judged.verdict.answers), [0, 14])
            self.assertEqual(judged.findings(judged.steps[1])[0].text,
                             f"partition Live loop was already created{sort} in row 2")
            self.assertEqual(judged.steps[1].question(judged.config), "Was the partition never used before?")

    def test_import_brings_it_back(self):
        self.judged(self.queue("Divert by weight"))
        plan("check", self.visit)
        self.assertEqual(plan("import", self.visit / "line.bin", "back")[0], 0)
        self.assertIn("\ncreate green,,1,,\ncreate,,2,,\n", Path("back/visit.csv").read_text(encoding="utf-8"))
        plan("check", "back")
        self.assertEqual(Path("back/session.bin").read_bytes(), (self.visit / "session.bin").read_bytes())

    def test_sheet_and_timeline(self):
        self.judged(["deactivate", "Scale", "", ""], ["activate", "Scale", "Test bench", ""])
        plan("sheet", self.visit)
        sheet = (self.visit / "visit-sheet.html").read_text(encoding="utf-8")
        self.assertIn("Create green partition Live loop.", sheet)
        self.assertIn("<td>Live loop</td><td>from step 1 to step 4</td>", sheet)
        self.assertIn("<td>Test bench</td><td>from step 2 to step 7</td>", sheet)
        self.assertIn("<td>Scale, out of Live loop</td><td>from step 6 to the end, and after it</td>", sheet)
        plan("timeline", self.visit)
        self.assertIn("\ncard,Scale,Live loop,6,7,\n", (self.visit / "timeline.csv").read_text(encoding="utf-8"))

    def test_names_of_the_operation(self):
        for cells, said in ((["Create  GREEN", "", "Live loop", ""], ""),
                            (["create green", "Scale", "Live loop", ""], "column who: must be empty: 'create green' is "
                             "done by nobody in particular"), (["create green", "", "", ""], "column where: is empty"),
                            (["creategreen", "", "Live loop", ""], "did you mean 'create green'?")):
            save(self.visit, [HEAD, cells])
            status, _, complaints = plan("check", self.visit)
            self.assertEqual(status, 3 if said else 0, complaints)
            self.assertIn(said, complaints)


class Random(unittest.TestCase):
    """Where the program says 22, and 20 of green zones, the tool shows an entry for it; where it says yes, none."""

    def test_an_entry_for_each_refusal_and_none_else(self):
        counts = Counter()
        for make, count in ((random_line, SESSIONS), (ring_line, SESSIONS), (wide_line, WIDE_SESSIONS)):
            for seed in range(count):
                config = make(seed)
                for step in judge_moves(PROGRAM, config, green_visit(config, seed)).steps:
                    self.look(config, step, counts, f"{make.__name__} {seed}, row {step.move.row}")
        least = min(counts[sort] for sort in ("write", "card", "passes", "stays", "both", "leaves"))
        self.assertGreater(least, 30, counts)

    def look(self, config, step, counts, where):
        state, move = step.before, step.move
        named = clinging(config, state, move)
        if step.answer in (w.ACCEPTED, w.GREEN_RULE):
            self.assertEqual(bool(breaches(config, state, move)), step.answer == w.GREEN_RULE, where)
            self.assertEqual(named, [], where)
            counts["passes"] += step.accepted and put_green(state, move)
            counts["leaves"] += step.accepted and leaves_green(config, state, move)
            counts["card" if move.code in w.ACTIVATES else "write"] += step.answer == w.GREEN_RULE
        elif step.answer == w.IN_REACH:
            chain = found_chain(config, state, move)
            self.assertTrue(chain or named, where)
            self.assertEqual(bool(named), leaves_green(config, state, move), where)
            counts["both" if chain and named else "stays"] += bool(named)
        elif step.answer == w.OUTSIDE:
            self.assertFalse(put_green(state, move), where)


if __name__ == "__main__":
    unittest.main()
