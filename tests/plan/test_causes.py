"""Causes are told from what comes of them: where the slips of a plan are known, mending one, as the program judges it,
has just those rows accepted that were said to come of it."""
import unittest
from collections import Counter

import sorters
from common import PROGRAM, ROOT
from lines import random_line, random_visit
from planner import wording as w
from planner.causes import origins
from planner.judged import judge_folder, judge_moves
from planner.visit import Item, Move


def judged(slips=sorters.SLIPS):
    made = sorters.visit(slips=slips)
    return judge_moves(PROGRAM, made.config, made.rows())


def told(plan):
    """The rows of the causes of each refused row."""
    by_place = {step.place: step.move.row for step in plan.steps}
    return {by_place[place]: [cause.move.row for cause in origin.causes] for place, origin in origins(plan).items()}


def key(step):
    return step.move.code, step.move.who, step.move.where, step.move.what


def refused(plan):
    return Counter(key(step) for step in plan.steps if not step.accepted)


def on_example(*moves):
    """The answers to moves on the example's line, and the causes' rows."""
    config = judge_folder(PROGRAM, ROOT / "examples" / "visit").config
    plan = judge_moves(PROGRAM, config, [Move(row, *move) for row, move in enumerate(moves, 2)])
    return plan, [step.answer for step in plan.steps], told(plan)


class KnownSlips(unittest.TestCase):
    def test_the_example(self):
        """Four slips, none of which comes of another."""
        plan = judge_folder(PROGRAM, ROOT / "examples" / "visit")
        self.assertEqual(told(plan), {11: [], 16: [], 17: [], 18: []})

    def test_a_plan_with_six_refusals(self):
        plan = judged()
        self.assertEqual((len(plan.steps), len(told(plan))), (35, 6))
        self.assertEqual(told(plan), {18: [], 20: [18], 21: [18], 26: [], 27: [26], 32: []})
        self.assertEqual([step.answer for step in plan.steps if not step.accepted], [20, 16, 17, 14, 16, 19])

    def test_mending_a_cause_mends_what_comes_of_it(self):
        plan, groups = judged(), {}
        causes = origins(plan)
        for step in plan.steps:
            if not step.accepted:
                root = (causes[step.place].causes or (step,))[0]
                groups.setdefault(root.place, Counter())[key(step)] += 1
        mended = [refused(plan) - refused(judged([slip for slip in sorters.SLIPS if slip != one]))
                  for one in sorters.SLIPS]
        self.assertEqual(sorted(map(str, groups.values())), sorted(map(str, mended)))
        self.assertTrue(judged(()).verdict.accepted)


class Cases(unittest.TestCase):
    def test_a_partition_that_cannot_be_created(self):
        """Its number is used up: whoever was to go there, and what they were to do, comes of it."""
        _, answers, causes = on_example((5, 0, 1, ()), (6, 0, 1, ()), (5, 0, 1, ()), (7, 1, 1, ()), (10, 1, 0, ()))
        self.assertEqual((answers, causes), ([0, 0, 14, 14, 16], {4: [], 5: [4], 6: [4]}))

    def test_the_same_failure(self):
        """Nobody creates the partition: the first row shows it, the others fail on the same, unless something else."""
        plan, answers, causes = on_example((7, 1, 1, ()), (8, 1, 1, ()), (8, 2, 9, ()), (5, 0, 1, ()), (8, 3, 9, ()))
        self.assertEqual((answers, causes), ([14, 14, 14, 0, 14], {2: [], 3: [2], 4: [], 6: [4]}))
        self.assertTrue(all(origin.same for origin in origins(plan).values() if origin.causes))

    def test_what_comes_of_the_same_failure(self):
        """Had the partition been there, the card of row 3 would be in it, and could leave in row 4."""
        _, answers, causes = on_example((7, 1, 1, ()), (8, 1, 1, ()), (11, 1, 0, ()))
        self.assertEqual((answers, causes), ([14, 14, 16], {2: [], 3: [2], 4: [2]}))

    def test_two_causes_together(self):
        """Two external objects are each kept out by a row of their own; taking both away comes of both."""
        up = (5, 0, 1, ()), (5, 0, 2, ()), (9, 0, 2, (14, 15))
        _, answers, causes = on_example(*up, (9, 0, 1, (14,)), (9, 0, 1, (15,)), (12, 0, 1, (14, 15)))
        self.assertEqual((answers, causes), ([0, 0, 0, 16, 16, 17], {5: [], 6: [], 7: [5, 6]}))

    def test_what_was_undone_since_is_no_cause(self):
        """A card that could not leave at first has left since: coming back twice is a slip of its own."""
        _, answers, causes = on_example((5, 0, 1, ()), (11, 1, 0, ()), (8, 1, 1, ()), (8, 1, 1, ()))
        self.assertEqual((answers, causes), ([0, 16, 0, 16], {3: [], 5: []}))

    def test_who_would_be_stopped_before_comes_of_nothing(self):
        """Had the driver left in row 6, it could not write in row 7 either: that is no mending of row 7."""
        queue, record = Item(2, w.VALUE_FORM, 4), Item(10, w.RAW_FORM)
        _, answers, causes = on_example((5, 0, 1, ()), (7, 1, 1, ()), (8, 1, 1, ()), (1, 1, 0, (queue,)),
                                        (10, 1, 0, ()), (1, 1, 0, (record,)))
        self.assertEqual((answers, causes), ([0, 0, 0, 0, 20, 17], {6: [], 7: []}))

    def test_what_rests_on_no_state_is_a_cause(self):
        _, answers, causes = on_example((5, 0, 1, ()), (8, 9, 1, ()), (8, 9, 1, ()), (9, 0, 1, (1,)), (9, 0, 1, (99,)))
        self.assertEqual((answers, causes), ([0, 11, 11, 13, 11], {3: [], 4: [], 5: [], 6: []}))

    def test_random_sessions(self):
        """Whatever the answers, a cause is an earlier refused row that comes of no other."""
        consequences = 0
        for seed in range(60):
            config = random_line(seed)
            causes = told(judge_moves(PROGRAM, config, random_visit(config, seed)))
            for row, rows in causes.items():
                consequences += bool(rows)
                for one in rows:
                    self.assertLess(one, row)
                    self.assertEqual(causes[one], [])
        self.assertGreater(consequences, 100)


if __name__ == "__main__":
    unittest.main()
