"""Padlocks: the book and state areas keep them, 23 is told in words, and no repair has one hang for a shorter time."""
import shutil
import unittest
from collections import Counter
from pathlib import Path

from common import PROGRAM, ROOT, InFolder, plan
from layout import AREA, LOCKS_FROM, MOST_DEVICES, WIDE_AREA, WIDE_LOCKS_FROM
from lines import lock_visit, random_line, ring_line, wide_line
from planner import wording as w
from planner.area import MARK, OLDER_MARK, area_bytes, differences, digest, read_area, take_area
from planner.book import follow, fresh
from planner.causes import origins
from planner.config import Config, Device, Object
from planner.judged import judge_folder, judge_moves
from planner.repair import Search
from planner.repairs import PADLOCKS, changed_lines
from planner.visit import Move
from test_repair import save
from test_start import NEEDED, TODAY, WRAPPED, comes_back

HEAD = ["operation", "who", "where", "what"]
LOCK, UNLOCK, INACTIVE = 14, 15, 16
# The example's cards are the diverter, the scanner and the scale.
DIVERTER, SCALE = 1, 3
# A lock byte of the example's area by its card, what it is set to, and what is said of it. The scale is in the loop.
FAULTS = (
    (DIVERTER, 2, f"byte {LOCKS_FROM}: 2 is no lock of card Diverter"),
    (DIVERTER, 255, f"byte {LOCKS_FROM}: 255 is no lock of card Diverter"),
    (SCALE, 1, f"byte {LOCKS_FROM + 2}: card Scale is locked, and is in Live loop"),
    (SCALE + 1, 1, f"byte {LOCKS_FROM + 3}: the tables have no card 4, and the area has a lock of it"),
    (MOST_DEVICES, 7, f"byte {AREA - 1}: the tables have no card 16, and the area has a lock of it"),
)


def out(card):
    """Rows by which a card of the example leaves and a padlock is hung on it."""
    return [["deactivate", card, "", ""], ["lock", card, "", ""]]


def all_cards(objects):
    """A line of sixteen cards with their hard-wired descriptors, and with so many objects in all."""
    config = Config(devices={n: Device(f"C{n}", 0) for n in range(1, MOST_DEVICES + 1)})
    for n in range(1, objects + 1):
        own = n <= MOST_DEVICES
        config.objects[n] = Object(f"O{n}", *((w.HARDCODED, w.DEVICE, n) if own else (w.DATA, w.EXTERNAL, 0)))
    return config


class Book(unittest.TestCase):
    def test_a_padlock_is_all_that_changes(self):
        for objects, locks, length in ((96, LOCKS_FROM, AREA), (97, WIDE_LOCKS_FROM, WIDE_AREA)):
            config = all_cards(objects)
            state = fresh(config)
            before = area_bytes(config, state)
            self.assertEqual((len(before), before[locks:]), (length, bytes(MOST_DEVICES)))
            for card in (1, 7, MOST_DEVICES):
                hung = follow(config, state, Move(4, LOCK, card))
                marks = bytes(number == card for number in config.devices)
                self.assertEqual(area_bytes(config, hung), before[:locks] + marks)
                self.assertEqual(read_area(config, area_bytes(config, hung)).locked.keys(), {card})
                self.assertEqual((hung.locked, state.locked), ({card: "row 4"}, {}))
                off = follow(config, hung, Move(5, UNLOCK, card))
                self.assertEqual((area_bytes(config, off), off.locked, off.unlocked), (before, {}, {card: "row 5"}))
                self.assertEqual(follow(config, off, Move(6, LOCK, card)).unlocked, {})

    def test_the_request_s_session(self):
        """Over file L: the answers are the request's, and the book's locks those that follow."""
        config = judge_folder(PROGRAM, ROOT / "examples" / "visit").config
        moves = (LOCK, 1), (LOCK, 1), (5, 0, 1), (8, 1, 1), (8, 1, 9), (UNLOCK, 1), (UNLOCK, 1), (8, 1, 1), \
                (LOCK, 1), (UNLOCK, 1), (LOCK, 4), (LOCK, 0), (11, 1), (LOCK, 1)
        judged = judge_moves(PROGRAM, config, [Move(row, *move) for row, move in enumerate(moves, 2)])
        self.assertEqual(judged.verdict.answers, (0, 23, 0, 23, 14, 0, 23, 0, 16, 16, 11, 11, 0, 0))
        self.assertEqual(judged.last_state().locked, {1: "row 15"})


class Areas(InFolder):
    def setUp(self):
        super().setUp()
        shutil.copytree(ROOT / TODAY, TODAY)
        self.area, self.line = (TODAY / "state.bin").read_bytes(), (TODAY / "line.bin").read_bytes()

    def start(self, data):
        Path("stored").write_bytes(data)
        return plan("start", TODAY, "stored", "--replace")

    def test_what_is_no_lock(self):
        for card, byte, said in FAULTS:
            data = bytearray(self.area)
            data[LOCKS_FROM + card - 1] = byte
            self.assertEqual(self.start(data), (2, "", f"plan: stored: {said}\n"))

    def test_in_a_wide_area(self):
        """The lock bytes stand behind its records; where a small one has them, it has a record."""
        config = all_cards(97)
        for at, faults in ((WIDE_LOCKS_FROM + 15, [f"byte {WIDE_AREA - 1}: 3 is no lock of card C16"]),
                           (LOCKS_FROM, [f"byte {LOCKS_FROM}, object 97: O97 (external data) is in partition 3, which "
                                         "does not exist in the area"])):
            data = bytearray(WIDE_AREA)
            data[at] = 3
            self.assertEqual(take_area(config, data)[1], faults)

    def test_a_locked_card(self):
        """It left the loop and kept what it held: it is brought in for that, leaves, and is locked last."""
        judged = judge_folder(PROGRAM, self.visit)
        moves = [step.move for step in judged.steps[:13]] + [Move(20, 11, SCALE), Move(21, LOCK, SCALE)]
        state = judge_moves(PROGRAM, judged.config, moves).last_state()
        self.assertEqual(list(state.locked), [SCALE])
        self.assertTrue(state.contents[9], "it holds something")
        data = area_bytes(judged.config, state)
        self.assertEqual(data[LOCKS_FROM:], bytes([0, 0, 1]) + bytes(13))
        status, text, _ = self.start(data)
        self.assertEqual(status, 0, text)
        rows = (TODAY / "bringup.csv").read_text(encoding="utf-8").splitlines()
        self.assertEqual(rows[-1], "lock,Scale,,,")
        free = data[:LOCKS_FROM] + bytes(MOST_DEVICES)
        self.assertEqual(differences(judged.config, state, read_area(judged.config, free)),
                         ["card Scale: locked, and not unlocked"])

    def test_of_before_there_were_locks(self):
        """Plain and as it was stored then, it is the same state; no other mark is taken for its length.

        A file of today that is cut to that length is none.
        """
        older, was = self.area[:LOCKS_FROM], (TODAY / "bringup.csv").read_bytes()
        wrapped = [mark + digest(self.line) + older for mark in (OLDER_MARK, MARK)]
        for data in (older, wrapped[0] + digest(wrapped[0])):
            self.assertEqual(self.start(data), (
                0, "Made: examples/today/bringup.csv, 7 moves: 7 accepted, 0 refused.\nstored was stored before there "
                   f"were locks: its area has {LOCKS_FROM:,} bytes, and no card in it is locked.\nThe state after it "
                   f"is that of stored, byte for byte ({AREA:,} bytes, with the zeros that this version has behind "
                   "it).\n", ""))
            self.assertEqual((TODAY / "bringup.csv").read_bytes(), was)
        self.assertEqual(self.start(wrapped[1] + digest(wrapped[1])),
                         (2, "", f"plan: stored: {NEEDED.format(f'{LOCKS_FROM + WRAPPED:,} bytes')}\n"))
        self.assertEqual(self.start(b"x" + wrapped[0][1:] + digest(wrapped[0])),
                         (2, "", "plan: stored: does not begin with SGSTATE1, as the example controller stores it\n"))
        now = OLDER_MARK + digest(self.line) + self.area
        self.assertEqual(self.start(now + digest(now)),
                         (2, "", "plan: stored: does not begin with SGSTATE2, as the example controller stores it\n"))

    def test_a_wide_one_of_before(self):
        config = all_cards(97)
        data = bytearray(WIDE_LOCKS_FROM)
        self.assertEqual(take_area(config, data.ljust(WIDE_AREA, b"\0")), (fresh(config), []))


class Random(unittest.TestCase):
    def test_sessions(self):
        """23 comes of each of its codes, is told of the card, and a locked card is in no partition.

        The bring-up to where a session ends leads there again.
        """
        met, locked = Counter(), 0
        for make, count in ((random_line, 40), (ring_line, 20), (wide_line, 6)):
            for seed in range(count):
                config = make(seed)
                judged = judge_moves(PROGRAM, config, lock_visit(config, seed))
                for step in judged.steps:
                    self.assertFalse([card for card in step.after.locked if step.after.devices[card]])
                    if step.answer == w.LOCKED:
                        met[step.move.code] += 1
                        told = judged.findings(step)
                        self.assertEqual([one.things for one in told], [[(w.DEVICE, step.move.who)]])
                        self.assertIn(f" padlock hangs on card C{step.move.who}", told[0].text)
                self.assertTrue(comes_back(config, judged.last_state()), f"{make.__name__} {seed}")
                locked += bool(judged.last_state().locked)
        self.assertGreater(min(met[code] for code in (8, LOCK, UNLOCK)), 30, met)
        self.assertGreater(locked, 20)


class Plans(InFolder):
    """Plans on today's sorter, with the diverter, the scanner and the scale in the loop."""

    def setUp(self):
        super().setUp()
        shutil.copytree(ROOT / TODAY, TODAY)

    def judged(self, *rows):
        save(TODAY, [HEAD, *rows])
        return judge_folder(PROGRAM, TODAY)

    def answers(self, judged):
        return [step.answer for step in judged.visit]

    def causes(self, judged):
        rows = {step.place: step.move.row for step in judged.steps}
        return {rows[place]: [cause.move.row for cause in origin.causes] for place, origin in origins(judged).items()}

    def repairs(self, judged, row):
        step = next(step for step in judged.visit if step.move.row == row)
        return [repair.change for repair in Search(PROGRAM, judged, step).find()]


class Words(Plans):
    def test_who_is_a_card(self):
        for row, said in ((["lock", "", "", ""], "is empty: 'lock' needs a card"),
                          (["unlock", "Service laptop", "", ""],
                           "'Service laptop' is a driver: 'unlock' needs a card"),
                          (["lock", "driver #1", "", ""], "'driver #1' is a driver: 'lock' needs a card")):
            save(TODAY, [HEAD, row])
            self.assertEqual(plan("check", TODAY), (3, "", f"plan: visit.csv, row 2, column who: {said}\n"))
        save(TODAY, [HEAD, ["lock", "Scale", "Live loop", ""]])
        self.assertIn("column where: must be empty", plan("check", TODAY)[2])

    def test_ways(self):
        """Explained: the padlock is for who hung it, and there is one for a card."""
        self.judged(*out("Diverter"), ["activate", "Diverter", "Live loop", ""], ["lock", "Diverter", "", ""])
        for row, said in ((4, "Whoever hung it takes it off, and nobody else"), (5, "One padlock is kept for a card")):
            text = plan("explain", TODAY, row)[1]
            self.assertIn(f"Refused by question {w.LOCKED}: ", text)
            self.assertIn(said, text)

    def test_hung_by_the_bring_up(self):
        bringup = TODAY / "bringup.csv"
        bringup.write_text(bringup.read_text(encoding="utf-8") + "deactivate,Diverter,,,\nlock,Diverter,,,\n",
                           encoding="utf-8")
        judged = self.judged(["activate", "Diverter", "Live loop", ""])
        self.assertEqual([one.text for one in judged.findings(judged.visit[0])],
                         ["a padlock hangs on card Diverter, since row 10 of bringup.csv"])

    def test_import_brings_them_back(self):
        self.judged(*out("Diverter"), ["unlock", "Diverter", "", ""])
        plan("check", TODAY)
        self.assertEqual(plan("import", TODAY / "line.bin", "back")[0], 0)
        rows = Path("back/visit.csv").read_text(encoding="utf-8")
        self.assertIn("\ndeactivate,C1,,,\nlock,C1,,,\nunlock,C1,,,\n", rows)


class Causes(Plans):
    def test_what_comes_of_a_padlock(self):
        """The diverter could not come in: what it was to do there, and that it was to leave, comes of row 4."""
        judged = self.judged(*out("Diverter"), ["activate", "Diverter", "Live loop", ""],
                             ["write", "Sorting control", "", "Diverter ring = Follow the queue"],
                             ["deactivate", "Diverter", "", ""])
        self.assertEqual(self.answers(judged), [0, 0, 23, 17, 16])
        self.assertEqual(self.causes(judged), {4: [], 5: [4], 6: [4]})

    def test_what_comes_of_a_refused_lock(self):
        """It could not be hung, since the card is still in: so there is nothing to take off."""
        judged = self.judged(["lock", "Diverter", "", ""], ["deactivate", "Diverter", "", ""],
                             ["unlock", "Diverter", "", ""])
        self.assertEqual((self.answers(judged), self.causes(judged)), ([16, 0, 23], {2: [], 4: [2]}))

    def test_the_same_padlock(self):
        """Twice stopped by one padlock; by another one it is a cause again."""
        again = ["activate", "Diverter", "Live loop", ""]
        judged = self.judged(*out("Diverter"), again, ["lock", "Diverter", "", ""], ["unlock", "Diverter", "", ""],
                             ["lock", "Diverter", "", ""], ["lock", "Diverter", "", ""])
        self.assertEqual(self.answers(judged), [0, 0, 23, 23, 0, 0, 23])
        self.assertEqual(self.causes(judged), {4: [], 5: [4], 8: []})


class Repairs(Plans):
    def test_below_the_plan_s_own_unlock(self):
        """The card comes in once it is taken off; it is not taken off earlier for that."""
        judged = self.judged(*out("Diverter"), ["activate", "Diverter", "Live loop", ""],
                             ["create", "", "Test bench", ""], ["unlock", "Diverter", "", ""])
        self.assertEqual([change.texts for change in self.repairs(judged, 4)], [("row 4 later, below row 6",)])
        self.assertIn(PADLOCKS, plan("repair", TODAY, 4)[1])

    def test_no_padlock_is_taken_off(self):
        judged = self.judged(*out("Diverter"), ["activate", "Diverter", "Live loop", ""])
        self.assertEqual(self.repairs(judged, 4), [])
        text = plan("repair", TODAY, 4)[1]
        self.assertNotIn("unlock", text)
        self.assertIn(PADLOCKS, text)

    def test_no_padlock_is_hung_later(self):
        """Hung behind the rows 4 and 5 it would be in nobody's way, and would protect nobody."""
        judged = self.judged(*out("Diverter"), ["activate", "Diverter", "Live loop", ""],
                             ["deactivate", "Diverter", "", ""], ["unlock", "Diverter", "", ""])
        self.assertEqual(self.answers(judged), [0, 0, 23, 16, 0])
        for change in self.repairs(judged, 4):
            self.assertNotEqual((change.sort, change.row), ("after", 3), change.texts)
            rows = [row[0] for row in changed_lines(judged, change)]
            self.assertLess(rows.index("lock"), rows.index("activate"))

    def test_a_card_leaves_before_it_is_locked(self):
        """A row below does it, or one is added."""
        judged = self.judged(["lock", "Diverter", "", ""], ["deactivate", "Diverter", "", ""])
        self.assertIn(("row 2 later, below row 3",), [change.texts for change in self.repairs(judged, 2)])
        judged = self.judged(["lock", "Diverter", "", ""])
        self.assertEqual([change.texts for change in self.repairs(judged, 2)],
                         [("out of where it is first: deactivate card Diverter",)])

    def test_a_lock_is_left_out_only_where_one_hangs(self):
        twice = [*out("Diverter"), ["lock", "Diverter", "", ""]]
        judged = self.judged(*twice)
        self.assertIn("left out", [change.sort for change in self.repairs(judged, 4)])
        judged = self.judged(*out("Diverter"), ["unlock", "Diverter", "", ""],
                             ["activate", "Diverter", "Live loop", ""], ["lock", "Diverter", "", ""])
        self.assertEqual(self.answers(judged), [0, 0, 0, 0, INACTIVE])
        self.assertNotIn("left out", [change.sort for change in self.repairs(judged, 6)])


if __name__ == "__main__":
    unittest.main()
