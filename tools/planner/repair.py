"""The command `repair`: small changes, each judged by the program; those that have a row accepted are listed."""
import itertools
import os
from collections import Counter
from concurrent.futures import ThreadPoolExecutor
from dataclasses import dataclass

from . import changes as c
from . import office, pack
from . import wording as w
from .judged import steps_of

DEPTH = 3
MOST = 200
TOO_LONG = -1
KEPT = {"later": 1, "earlier": 1, "first": 3, "after": 3, "left out": 1, "added": 6}
WORKERS = min(4, os.cpu_count() or 1)


@dataclass(frozen=True)
class Repair:
    """A change after which the row is accepted, and the refused rows that are accepted with it."""
    change: c.Change
    others: tuple

    @property
    def rank(self):
        one = self.change
        return len(one.texts), one.dropped, -len(self.others), one.added, one.moved, one.distance


@dataclass(frozen=True)
class Outcome:
    """How a changed order was judged: whether rows that were accepted still are, the target's step, who else is."""
    change: c.Change
    kept: bool
    step: object
    others: tuple

    @property
    def good(self):
        return self.kept and (self.step is None or self.step.accepted)


class Search:
    """The changes tried for one refused row. `progress(done, most)` is told how far it is."""

    def __init__(self, program, plan, step, progress=lambda done, most: None, most=MOST):
        self.program, self.plan, self.target, self.progress, self.most = program, plan, step, progress, most
        self.moves = {one.move.row: one.move for one in plan.visit}
        self.rows = list(self.moves)
        self.accepted = {one.move.row for one in plan.visit if one.accepted}
        self.refused = [row for row in self.rows if row not in self.accepted]
        self.before = [one.move for one in plan.steps[:plan.first]]
        self.tried = 0

    def find(self):
        """The repairs, fewest changes first."""
        base = c.Change("", tuple(range(2, self.plan.table.last + 1)), ())
        found = self.outcomes(self.single(base))
        repairs, seen = self.good(found), {base.order}
        frontier = [Outcome(base, True, self.target, ())]
        for _ in range(DEPTH):
            seen.update(one.change.order for one in found)
            more = [change for one in frontier for change in self.around(one) if change.order not in seen]
            found = self.outcomes(more)
            repairs += self.good(found)
            frontier = [one for one in found if one.kept and one.step and not one.step.accepted]
            if repairs or not frontier:
                break
        return shortlist(repairs)

    def single(self, base):
        """A row moved or left out."""
        row, order, rows = self.target.move.row, base.order, self.rows
        made = [*c.left_out(order, self.target, self.plan.steps), *c.later_places(rows, order, row),
                *c.earlier_places(rows, order, row), *c.others_first(rows, order, row),
                *c.others_after(rows, order, row, self.refused)]
        made.sort(key=lambda change: change.distance)
        chosen = {}
        for change in made:
            if change.order != order and c.keeps_padlocks(change, self.moves, self.accepted):
                chosen.setdefault(change.order, change)
        return list(chosen.values())[:self.most * 3 // 4]

    def around(self, outcome):
        """Moves added around the row, as its question suggests in the order that was judged."""
        findings = self.plan.findings(outcome.step)
        chain = findings[0].chain if findings else ()
        return list(c.additions(self.plan.config, outcome.step, chain, outcome.change))

    def outcomes(self, wanted):
        """Has the program judge each change, as many as are still allowed."""
        wanted = wanted[:self.most - self.tried]
        made = []
        with ThreadPoolExecutor(WORKERS) as pool:
            try:
                for outcome in pool.map(self.judge, wanted):
                    made.append(outcome)
                    self.progress(self.tried + len(made), self.most)
            except BaseException:
                pool.shutdown(cancel_futures=True)
                raise
        self.tried += len(made)
        return made

    def judge(self, change):
        """The outcome of a change. What stands below the target is judged only if it is accepted so far."""
        order = [one for one in change.order if not isinstance(one, int) or one in self.moves]
        target = self.target.move.row
        if change.sort in ("later", "earlier", "first"):
            head = order[:order.index(target) + 1]
            wanted = self.accepted | {target}
            if any(answer != w.ACCEPTED for one, answer in self.answers(head) if one in wanted):
                return Outcome(change, False, None, ())
        judged = self.answers(order)
        kept = all(answer == w.ACCEPTED for one, answer in judged if one in self.accepted or not isinstance(one, int))
        others = tuple(one for one, answer in judged if answer == w.ACCEPTED and one in self.refused and one != target)
        return Outcome(change, kept, self.step(order, judged) if kept and target in order else None, others)

    def moves_of(self, order):
        return [self.moves[one] if isinstance(one, int) else one for one in order]

    def answers(self, order):
        """The order with the program's answers; no answer at all if it is too long for one session."""
        session = pack.session_bytes(self.before + self.moves_of(order))
        answers = office.judge(self.program, self.plan.line, session).answers[len(self.before):]
        return list(itertools.zip_longest(order, answers, fillvalue=TOO_LONG))

    def step(self, order, judged):
        """The target's step in an order."""
        moves = self.before + self.moves_of(order)
        answers = [one.answer for one in self.plan.steps[:self.plan.first]] + [answer for _, answer in judged]
        at = len(self.before) + order.index(self.target.move.row)
        return steps_of(self.plan.config, moves, answers)[at]

    def good(self, outcomes):
        return [Repair(one.change, one.others) for one in outcomes if one.good]


def shortlist(repairs):
    """The best of each sort, fewest changes first; of another row that is moved the nearest place that helps."""
    counts, chosen, rows = Counter(), [], set()
    for one in sorted(repairs, key=lambda one: one.rank):
        sort, row = one.change.sort, one.change.row
        if counts[sort] < KEPT[sort] and (not row or (sort, row) not in rows):
            counts[sort] += 1
            rows.add((sort, row))
            chosen.append(one)
    return chosen
