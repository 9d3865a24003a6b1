"""Every 19 to 21 of some hundred random sessions gets a chain that holds and ends where it must; wrong ones fail."""
import unittest
from collections import Counter
from dataclasses import replace

from common import PROGRAM, ROOT
from lines import (green_visit, mailbox_line, mailbox_visit, random_line, random_visit, ring_line, ring_visit,
                   wide_line, wide_ring_line)
from planner import wording as w
from planner.book import concerned, follow, fresh
from planner.chain import BrokenChain, confirm
from planner.closure import outside_chain
from planner.green import leaves_green
from planner.judged import judge_folder, judge_moves
from planner.reach import chain_sentences, explained_chain, searched_state

SESSIONS, WIDE_SESSIONS, RING_SESSIONS, GREEN_SESSIONS = 300, 40, 200, 100
# The codes of the moves that are searched for a chain; bringing in drivers and external objects never makes one.
SEARCHED = {1, 3} | w.ACTIVATES | w.DEACTIVATES


def judged_sessions():
    """On small lines, on wide ones and on those with rings, in green zones too, each with what tells it from others."""
    for make, visit, count in ((random_line, random_visit, SESSIONS), (wide_line, random_visit, WIDE_SESSIONS),
                               (ring_line, ring_visit, RING_SESSIONS), (wide_ring_line, ring_visit, WIDE_SESSIONS),
                               (random_line, green_visit, GREEN_SESSIONS), (ring_line, green_visit, GREEN_SESSIONS)):
        for seed in range(count):
            config = make(seed)
            yield f"{make.__name__} {seed}, {visit.__name__}", judge_moves(PROGRAM, config, visit(config, seed))


class Chains(unittest.TestCase):
    @classmethod
    def setUpClass(cls):
        cls.plans = list(judged_sessions())

    def test_every_refusal_says_on_what(self):
        counts = Counter()
        for seed, plan in self.plans:
            self.assertFalse(plan.verdict.refused_line or plan.verdict.too_long, seed)
            for step in plan.steps:
                counts[step.answer] += 1
                if not step.accepted:
                    self.assertTrue(plan.findings(step), f"seed {seed}, row {step.move.row}, answer {step.answer}")
        self.assertEqual(set(w.QUESTIONS) - set(counts), set(range(1, 10)), "an answer never came up")
        self.assertGreater(counts[w.OUTSIDE], 500)
        self.assertGreater(counts[w.IN_REACH], 150)
        self.assertGreater(counts[w.ENTERS_OUTSIDE], 150)
        self.assertGreater(counts[w.GREEN_RULE], 500)

    def chains(self):
        """Every refusal that has a chain, with what tells it from the others.

        Only what leaves a green zone may be refused without one; there may be descriptors that name it.
        """
        for seed, plan in self.plans:
            for step in plan.steps:
                if step.answer in w.BY_CHAIN:
                    links, where = plan.findings(step)[0].chain, f"seed {seed}, row {step.move.row}"
                    if links:
                        yield plan.config, step, links, where
                    else:
                        self.assertTrue(leaves_green(plan.config, step.before, step.move), where)

    def test_every_chain_ends_where_it_must(self):
        lengths = {answer: Counter() for answer in w.BY_CHAIN}
        for config, step, links, where in self.chains():
            self.ends(config, step, links, where)
            self.assertEqual(len(chain_sentences(config, step.before, step.move, links)), len(links))
            lengths[step.answer][len(links)] += 1
        for answer, counts in lengths.items():
            long = sum(count for length, count in counts.items() if length > 5)
            self.assertGreater(long, 10, f"long chains of {answer} are rare")

    def test_a_chain_of_21_begins_at_the_card_that_comes_in(self):
        begun = 0
        for config, step, links, where in self.chains():
            if step.answer == w.ENTERS_OUTSIDE:
                begun += 1
                own = config.hardcoded_object(step.move.who)
                self.assertEqual((links[0].kind, links[0].device, links[0].descriptor),
                                 ("wired", step.move.who, own), where)
        self.assertGreater(begun, 150)

    def test_rings(self):
        """A hard-wired value puts something somewhere only on lines with rings, and behind every 21 one does."""
        found = Counter()
        for config, step, links, where in self.chains():
            by_ring = any(link.kind == "puts" and config.objects[link.descriptor].kind == w.HARDCODED for link in links)
            self.assertTrue("ring_line" in where if by_ring else step.answer != w.ENTERS_OUTSIDE, where)
            found[step.answer] += by_ring
        self.assertGreater(found[w.OUTSIDE], 0)
        self.assertGreater(found[w.IN_REACH], 10)

    def test_chains_by_numbers_of_two_bytes(self):
        """On wide lines a chain goes through objects above 127, and mostly through no others."""
        found = Counter()
        for _, step, links, _ in self.chains():
            found[step.answer] += min(n for link in links for n in (link.descriptor, link.to) if n) > 127
        self.assertGreater(found[w.OUTSIDE] + found[w.IN_REACH], 60)
        self.assertGreater(found[w.ENTERS_OUTSIDE], 20)

    def test_what_is_accepted_has_no_chain(self):
        """The search and the book behind it agree with the program where it says yes, too."""
        searched = 0
        for seed, plan in self.plans:
            for step in plan.steps:
                if step.accepted and step.move.code in SEARCHED:
                    searched += 1
                    with self.assertRaises(BrokenChain, msg=f"seed {seed}, row {step.move.row}"):
                        explained_chain(plan.config, step.before, step.move)
        self.assertGreater(searched, 2000)

    def ends(self, config, step, links, where):
        """The last link crosses, or names what leaves; asked here in words of its own."""
        state, last = searched_state(config, step.before, step.move), links[-1]
        named = {(entry.object, entry.mode) for entry in config.entries(last.value)}
        self.assertIn((last.to, last.mode), named, where)
        if step.answer in w.AFTERWARDS:
            crosses = state.objects[last.to] != state.devices[last.device]
            self.assertTrue(crosses or config.objects[last.to].kind == w.HARDCODED, where)
        else:
            self.assertIn(last.to, concerned(config, step.move), where)
            self.assertNotEqual((step.move.actor, step.move.who), (w.DEVICE, last.device), where)


class TwoRings(unittest.TestCase):
    """Two cards feed each other: which of them comes in last is refused, and the chain begins there."""

    def links_of(self, first, second):
        plan = judge_moves(PROGRAM, mailbox_line(), mailbox_visit(first, second))
        self.assertEqual(list(plan.verdict.answers), [0, 0, 0, w.ENTERS_OUTSIDE, 0, 0])
        links = plan.explained(plan.steps[3])[0].chain
        return [(link.kind, link.device, link.to) for link in links]

    writer = [("wired", 1, 0), ("puts", 1, 2), ("reads", 1, 2), ("puts", 1, 5)]
    reader = [("wired", 2, 0), ("puts", 2, 4), ("reads", 2, 4)]
    end = [("reads", 2, 5), ("outside", 2, 6)]

    def test_who_comes_in_has_another_led_out(self):
        self.assertEqual(self.links_of(2, 1), self.writer + self.reader + self.end)

    def test_who_comes_in_is_led_out_by_another(self):
        self.assertEqual(self.links_of(1, 2), self.reader + self.writer + self.end)

    def test_a_chain_without_the_card_begins_at_the_one_that_crosses(self):
        """In a state that no moves lead to: both cards are in, and a third one, without a ring, is to come in."""
        config = mailbox_line()
        state = fresh(config)
        for move in mailbox_visit(1, 2)[:4]:
            state = follow(config, state, move)
        links = outside_chain(config, state, 3)
        self.assertEqual([(link.kind, link.device, link.to) for link in links], self.reader + self.writer + self.end)
        confirm(config, state, links)


class WrongChains(unittest.TestCase):
    """The check is worth something: no link of the example's chains, or of one of 21, can be left out or changed."""

    def setUp(self):
        self.cases = []
        mailbox = judge_moves(PROGRAM, mailbox_line(), mailbox_visit(1, 2))
        for plan in (judge_folder(PROGRAM, ROOT / "examples" / "visit"), mailbox):
            for step in plan.steps:
                if step.answer in w.BY_CHAIN:
                    leaving = concerned(plan.config, step.move) if step.answer == w.IN_REACH else ()
                    gone = step.move.who if step.answer == w.IN_REACH else 0
                    state = searched_state(plan.config, step.before, step.move)
                    self.cases.append((plan.config, state, list(plan.findings(step)[0].chain), leaving, gone))
        self.assertEqual(len(self.cases), 3)

    def refused(self, config, state, links, leaving, gone):
        with self.assertRaises(BrokenChain):
            confirm(config, state, links, leaving, gone)

    def test_right_ones_hold(self):
        for config, state, links, leaving, gone in self.cases:
            confirm(config, state, links, leaving, gone)

    def test_no_link_can_be_left_out(self):
        for config, state, links, leaving, gone in self.cases:
            for place in range(len(links)):
                self.refused(config, state, links[:place] + links[place + 1:], leaving, gone)

    def test_no_field_can_be_changed(self):
        for config, state, links, leaving, gone in self.cases:
            fields = {"device": config.devices, "descriptor": config.objects, "value": config.values,
                      "to": config.objects, "stored": config.values, "mode": w.MODES}
            for place, link in enumerate(links):
                for field, known in fields.items():
                    for other in known:
                        if getattr(link, field) not in (0, other):
                            changed = links[:place] + [replace(link, **{field: other})] + links[place + 1:]
                            self.refused(config, state, changed, leaving, gone)

    def test_the_state_before_does_not_bear_out_a_chain_of_21(self):
        """There the card is not active yet."""
        config, state, links, _, _ = self.cases[-1]
        before = replace(state, devices={**state.devices, links[0].device: 0})
        with self.assertRaisesRegex(BrokenChain, "link 1: the card is not active"):
            confirm(config, before, links)

    def test_a_value_that_no_entry_puts_is_refused(self):
        """The chain of 19 as it would be with the scanner's old job, which puts nothing into the queue."""
        config, state, links, _, _ = next(case for case in self.cases if not case[3])
        old = next(n for n, value in config.values.items() if value.name == "Scan parcels")
        read = next(n for n, link in enumerate(links) if link.kind == "reads")
        forged = [replace(link, stored=old) if n == read else replace(link, value=old) if link.kind == "puts" else link
                  for n, link in enumerate(links)]
        before = replace(state, contents={**state.contents, links[read].to: old})
        with self.assertRaisesRegex(BrokenChain, "no entry puts this value there"):
            confirm(config, before, forged)

    def test_a_chain_that_stays_inside_is_refused(self):
        for config, state, links, leaving, _ in self.cases:
            if not leaving:
                home = replace(state, objects={n: state.devices[links[-1].device] for n in state.objects})
                self.refused(config, home, links, (), 0)
                self.refused(config, state, [], (), 0)

    def test_a_chain_of_the_leaving_card_is_refused(self):
        config, state, links, leaving, _ = next(case for case in self.cases if case[3])
        self.refused(config, state, links, leaving, links[-1].device)


if __name__ == "__main__":
    unittest.main()
