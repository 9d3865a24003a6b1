"""A bring-up made from a stored area gives that area again, and check speaks of the visit's rows."""
import shutil
import unittest
from itertools import permutations
from pathlib import Path

from common import PROGRAM, ROOT, InFolder, plan
from layout import AREA, LOCKS_FROM, WIDE_AREA
from lines import (all_green_visit, data_of, green_visit, job_line, random_line, random_visit, ring_line, ring_visit,
                   wide_line)
from planner import pack
from planner import wording as w
from planner.area import (CARDS_AT, DIGEST_BYTES, DRIVERS_AT, MARK, OBJECTS_AT, RECORD, area_bytes, differences, digest,
                          read_area)
from planner.book import follow, fresh
from planner.config import Config, Device, Entry, Object, Value
from planner.judged import judge_folder, judge_moves
from planner.start import bring_up
from planner.visit import Item, Move

TODAY = Path("examples/today")
WRAPPED = 24
# What is said of a stored file of another length than the example's line has.
NEEDED = (f"has {{}}; the state area of this line has {AREA:,}, and {AREA + WRAPPED:,} as the example controller "
          "stores it")
ANOTHER = ", as for a line of more than 96 objects"
# A byte of the example's area, what it is set to, and what is said of it.
FAULTS = (
    (1, 4, "byte 1: 4 is no standing of a partition"),
    (1, 255, "byte 1: 255 is no standing of a partition"),
    (0, 1, "byte 0: 1 is no standing of a partition"),
    (0, 3, "byte 0: 3 is no standing of a partition"),
    (DRIVERS_AT, 7, "byte 64: driver Sorting control is in partition 7, which does not exist in the area"),
    (DRIVERS_AT, 7, "byte 266, object 11: Job queue (transfer descriptor of driver Sorting control) is in Live loop, "
                    "and driver Sorting control is in partition 7"),
    (CARDS_AT + 3, 1, "byte 83: the tables have no card 4, and the area has it in Live loop"),
    (OBJECTS_AT, 0, "byte 96, object 1: Diverter wiring (hard-wired descriptor of card Diverter) is in no partition, "
                    "and card Diverter is in Live loop"),
    (OBJECTS_AT + 1, 2, "byte 97, object 1: Diverter wiring (hard-wired descriptor of card Diverter) holds "
                        "'Scanner start-up', and by cards.csv 'Diverter start-up'"),
    (OBJECTS_AT + RECORD + 1, 11, "byte 114, object 2: what Diverter ring (transfer descriptor of card Diverter) holds "
                                  "is no value of the tables"),
    (OBJECTS_AT + RECORD + 2, 1, "byte 114, object 2: what Diverter ring"),
    (OBJECTS_AT + 13 * RECORD, 2, "byte 317, object 14: Barcode table (external data) is in partition Test bench, "
                                  "which does not exist in the area"),
    (LOCKS_FROM - 1, 1, "byte 1711, object 96: the tables have no such object, and the area has something there"),
)


def comes_back(config, state):
    """Whether the bring-up to a state is accepted and leads there, byte for byte."""
    area = area_bytes(config, state)
    judged = judge_moves(PROGRAM, config, bring_up(config, read_area(config, area)).moves)
    return judged.verdict.accepted and area_bytes(config, judged.last_state()) == area


def cards_brought(config, state):
    """The cards that the bring-up to a state brings in, in its order, each with the answer."""
    steps = judge_moves(PROGRAM, config, bring_up(config, state).moves).steps
    return [(step.move.who, step.answer) for step in steps if step.move.code == 8]


class BringUps(unittest.TestCase):
    def test_every_state_of_the_example(self):
        judged = judge_folder(PROGRAM, ROOT / "examples" / "visit")
        for step in judged.steps:
            self.assertTrue(comes_back(judged.config, step.after), step.move.row)

    def test_who_leads_to_another_leaves_before_it(self):
        """Card 2 left with a value that names what card 1 holds, and then card 1 left."""
        config = Config({1: "D1"}, {1: Device("C1", 1), 2: Device("C2", 2)}, {
            1: Object("O1", w.HARDCODED, w.DEVICE, 1), 2: Object("O2", w.DATA, w.DEVICE, 1),
            3: Object("O3", w.HARDCODED, w.DEVICE, 2), 4: Object("O4", w.TRANSFER, w.DEVICE, 2)}, {
            1: Value("V1", ()), 2: Value("V2", (Entry(4, w.READ, 0),)), 3: Value("V3", (Entry(2, w.READ, 0),))})
        fill = (Item(2, w.RAW_FORM, raw=b"x" * 16), Item(4, w.VALUE_FORM, 3))
        moves = [Move(2, 5, where=1), Move(3, 7, 1, 1), Move(4, 8, 1, 1), Move(5, 8, 2, 1), Move(6, 1, 1, what=fill),
                 Move(7, 11, 2), Move(8, 11, 1)]
        judged = judge_moves(PROGRAM, config, moves)
        self.assertTrue(judged.verdict.accepted)
        self.assertTrue(comes_back(config, judged.last_state()))

    def test_states_of_random_sessions(self):
        """With partitions without a driver, destroyed ones, and things that left and kept what they held."""
        kept = alone = 0
        for seed, config in enumerate([*map(random_line, range(100)), *map(wide_line, range(8))]):
            leave = [Move(99, 10, driver) for driver in config.drivers if seed % 2]
            state = judge_moves(PROGRAM, config, random_visit(config, seed) + leave).last_state()
            self.assertTrue(comes_back(config, state), f"seed {seed}")
            kept += any(content and not config.objects[n].kind == 4 and not state.objects[n]
                        for n, content in state.contents.items() if config.is_descriptor(n))
            alone += any(state.contents[n] and place and place not in state.drivers.values()
                         for n, place in state.objects.items() if config.objects[n].kind == 1)
        self.assertGreater(min(kept, alone), 5, (kept, alone))

    def test_states_with_rings(self):
        """Cards with a ring come in behind what it names, whatever their places in the tables are."""
        last = 0
        for seed in range(60):
            config = ring_line(seed)
            state = judge_moves(PROGRAM, config, ring_visit(config, seed)).last_state()
            self.assertTrue(comes_back(config, state), f"seed {seed}")
            codes = [move.code for move in bring_up(config, state).moves if move.code in w.ACTIVATES]
            last += 8 in codes[codes.index(9):] if 9 in codes else 0
        self.assertGreater(last, 5)

    def test_states_with_green_zones(self):
        """Beside other zones, and alone: then what left and kept something was written in green zones, too."""
        green = kept = 0
        for make, visit, count in ((random_line, green_visit, 60), (ring_line, green_visit, 40),
                                   (wide_line, green_visit, 8), (random_line, all_green_visit, 100)):
            for seed in range(count):
                config = make(seed)
                state = judge_moves(PROGRAM, config, visit(config, seed)).last_state()
                self.assertTrue(comes_back(config, state), f"{make.__name__} {seed}, {visit.__name__}")
                green += any(state.is_green(place) for place in state.devices.values())
                kept += visit is all_green_visit and any(
                    state.contents[n] and not state.objects[n] for n in config.objects
                    if config.objects[n].kind == w.TRANSFER)
        self.assertGreater(min(green, kept), 30, (green, kept))

    def test_what_left_a_green_zone_together(self):
        """Two external descriptors that name each other, and a driver's that names one of them; no other zone is there.

        The driver left first: had it stayed, what it names could not have left.
        """
        config = Config({1: "D1", 2: "D2"}, {}, {1: Object("O1", w.TRANSFER, w.EXTERNAL, 0),
                                                 2: Object("O2", w.TRANSFER, w.EXTERNAL, 0),
                                                 3: Object("O3", w.TRANSFER, w.DRIVER, 1)},
                        {1: Value("V1", (Entry(2, w.READ, 0),)), 2: Value("V2", (Entry(1, w.READ, 0),))})
        items = tuple(Item(n, w.VALUE_FORM, value) for n, value in ((1, 1), (2, 2), (3, 1)))
        moves = [Move(2, 13, where=1), Move(3, 7, 1, 1), Move(4, 9, 0, 1, (1, 2)), Move(5, 1, 1, what=items),
                 Move(6, 12, 0, 1, (1, 2)), Move(7, 10, 1), Move(8, 12, 0, 1, (1,)), Move(9, 12, 0, 1, (1, 2))]
        judged = judge_moves(PROGRAM, config, moves)
        self.assertEqual(list(judged.verdict.answers), [0, 0, 0, 0, w.IN_REACH, 0, w.IN_REACH, 0])
        self.assertEqual(judged.last_state().contents, {1: 1, 2: 2, 3: 1})
        self.assertTrue(comes_back(config, judged.last_state()))

    def test_a_driver_that_kept_what_names_a_green_zone_without_one(self):
        """The only driver fills zone 2, which names what its own descriptor kept: there it writes that, and leaves."""
        config = Config({1: "D1"}, {1: Device("C1", 1)}, {
            1: Object("O1", w.TRANSFER, w.DRIVER, 1), 2: Object("O2", w.HARDCODED, w.DEVICE, 1),
            3: Object("O3", w.TRANSFER, w.DEVICE, 1), 4: Object("O4", w.DATA, w.EXTERNAL, 0)},
            {1: Value("V1", (Entry(3, w.READ, 0),)), 2: Value("V2", (Entry(4, w.READ, 0),))})
        items = (Item(1, w.VALUE_FORM, 2), Item(3, w.VALUE_FORM, 2))
        judged = judge_moves(PROGRAM, config, [Move(2, 13, where=1), Move(3, 13, where=2), Move(4, 7, 1, 2),
                                               Move(5, 8, 1, 2), Move(6, 9, 0, 2, (4,)), Move(7, 1, 1, what=items),
                                               Move(8, 10, 1)])
        self.assertTrue(judged.verdict.accepted)
        self.assertTrue(comes_back(config, judged.last_state()))

    def test_rings_of_which_one_order_is_accepted(self):
        """C1 puts a job into the mailbox, C2 does what it finds there: to read C3's data. C3 reads C2's data.

        C1 can come in first, but then neither of the others can.
        """
        mailbox, letter = 1, 7
        config = job_line(Entry(mailbox, w.WRITE, letter), Entry(mailbox, w.READ, 0), data_of(2), data_of(3))
        judged = {order: judge_moves(PROGRAM, config, [Move(2, 5, where=1), Move(3, 9, 0, 1, (mailbox,))] +
                                     [Move(row, 8, card, 1) for row, card in enumerate(order, 4)])
                  for order in permutations(config.devices)}
        self.assertEqual([order for order in judged if judged[order].verdict.accepted], [(2, 3, 1)])
        self.assertEqual(judged[1, 2, 3].verdict.answers, (0, 0, 0, w.ENTERS_OUTSIDE, w.ENTERS_OUTSIDE))
        state = judged[2, 3, 1].last_state()
        self.assertTrue(comes_back(config, state))
        self.assertEqual(cards_brought(config, state), [(2, 0), (3, 0), (1, 0)])

    def test_rings_that_come_in_passing(self):
        """What C1 kept leads to a card with a ring, which is to leave again, and before what its ring names.

        Else C3 cannot come in, which would find in the mailbox what C2 puts there; nor can C2 leave, whom C3 names.
        """
        mailbox, ring_1, data_3, letter, kept = 1, 3, 10, 9, 10
        posted = job_line(data_of(1), Entry(mailbox, w.WRITE, letter), Entry(mailbox, w.READ, 0), *[data_of(4)] * 2)
        posted.values[kept] = Value("kept", (data_of(2),))
        named = job_line(data_of(1), data_of(2), data_of(2), data_of(4), data_of(4))
        named.values[kept] = Value("kept", (data_of(3),))
        up, write = [(5, 0, 1), (5, 0, 2), (7, 1, 2)], (1, 1, 0, (Item(ring_1, w.VALUE_FORM, kept),))
        last = (8, 3, 2), (1, 1, 0, (Item(data_3, w.RAW_FORM, raw=b"x" * 16),)), (11, 3)
        for config, moves in ((posted, [(9, 0, 2, (mailbox,)), (8, 2, 2), (8, 1, 2), write, (11, 1), (11, 2), *last]),
                              (named, [(8, 2, 2), (8, 3, 2), (8, 1, 2), write, (11, 1), (11, 3), (11, 2), (8, 2, 1)])):
            judged = judge_moves(PROGRAM, config, [Move(row, *move) for row, move in enumerate(up + moves, 2)])
            self.assertTrue(judged.verdict.accepted)
            self.assertTrue(comes_back(config, judged.last_state()))

    def test_rings_of_which_no_order_is_accepted(self):
        """In areas that no moves lead to: with two cards that name each other's data, one and two that never come in.

        The other cards, which have an order, come in all the same.
        """
        never, letter = Entry(2, w.READ, 0), data_of(1)
        for jobs, refused in (((data_of(2), data_of(1), data_of(4), data_of(4)), {1, 2}),
                              ((never, data_of(3), data_of(3)), {1}),
                              ((never, data_of(3), data_of(3), never), {1, 4})):
            config = job_line(*jobs, letter)
            state = follow(config, fresh(config), Move(2, 5, where=1))
            for card in config.devices:
                state = follow(config, state, Move(3, 8, card, 1))
            self.assertEqual(sorted(cards_brought(config, state)),
                             [(card, w.ENTERS_OUTSIDE if card in refused else 0) for card in config.devices])


class Today(InFolder):
    def setUp(self):
        super().setUp()
        shutil.copytree(ROOT / TODAY, TODAY)
        self.area = (TODAY / "state.bin").read_bytes()

    def start(self, data, *words):
        Path("stored").write_bytes(data)
        return plan("start", TODAY, "stored", "--replace", *words)

    def test_the_stored_files_are_what_is_made(self):
        for name in ("bringup.csv", "line.bin", "session.bin"):
            (TODAY / name).unlink()
        self.assertEqual(plan("start", TODAY, TODAY / "state.bin"), (
            0, "Made: examples/today/bringup.csv, 7 moves: 7 accepted, 0 refused.\nThe state after it is that of "
               f"examples/today/state.bin, byte for byte ({AREA:,} bytes).\n", ""))
        status, text, _ = plan("check", TODAY)
        self.assertEqual(status, 1)
        self.same_as_golden("today.txt", text)
        for name in ("bringup.csv", "line.bin", "session.bin"):
            self.same_as_stored(ROOT / TODAY / name, (TODAY / name).read_bytes(), f"{name} is not what is made")

    def test_a_bring_up_that_is_there_stays(self):
        before = (TODAY / "bringup.csv").read_bytes()
        (TODAY / "bringup.csv").write_bytes(before + b"create,,9,,\n")
        self.assertEqual(plan("start", TODAY, TODAY / "state.bin"), (
            3, "", "plan: examples/today/bringup.csv: is already there; nothing was changed (--replace does it)\n"))
        self.assertEqual(self.start(self.area)[0], 0)
        self.assertEqual((TODAY / "bringup.csv").read_bytes(), before)

    def test_as_the_example_controller_stores_it(self):
        whole = MARK + digest((TODAY / "line.bin").read_bytes()) + self.area
        other, wider = MARK + digest(b"another") + self.area, bytes(WIDE_AREA - AREA)
        self.assertEqual(self.start(whole + digest(whole))[0], 0)
        for data, said in ((whole + digest(other), "is damaged: its checksum does not fit"),
                           (other + digest(other), "was stored with another line file than these tables make"),
                           (other[1:] + digest(other), NEEDED.format(f"{AREA + WRAPPED - 1:,} bytes")),
                           (b"x" + other[1:] + digest(other), f"does not begin with {MARK.decode()}, as the example "
                                                              "controller stores it"),
                           (self.area[1:], NEEDED.format(f"{AREA - 1:,} bytes")),
                           (self.area + bytes(1), NEEDED.format(f"{AREA + 1:,} bytes")),
                           (self.area + wider, NEEDED.format(f"{WIDE_AREA:,} bytes{ANOTHER}")),
                           (whole + digest(whole) + wider, NEEDED.format(f"{WIDE_AREA + WRAPPED:,} bytes{ANOTHER}"))):
            self.assertEqual(self.start(data), (2, "", f"plan: stored: {said}\n"))

    def test_an_area_that_is_none_of_this_line(self):
        for at, byte, said in FAULTS:
            data = bytearray(self.area)
            data[at] = byte
            status, text, complaints = self.start(data)
            self.assertEqual((status, text), (2, ""))
            self.assertIn(f"plan: stored: {said}", complaints)

    def test_what_shows_of_the_damage(self):
        """Beside a checksum that does not fit the objects are named too, if the file is of this line."""
        for line, more in (((TODAY / "line.bin").read_bytes(), True), (b"another", False)):
            data = bytearray(MARK + digest(line) + self.area + digest(MARK + digest(line) + self.area))
            data[-DIGEST_BYTES - 1 - (AREA - LOCKS_FROM)] = 1
            self.assertEqual(self.start(data), (2, "", "plan: stored: is damaged: its checksum does not fit\n"
                                                + f"plan: stored: {FAULTS[-1][2]}\n" * more))

    def test_what_cannot_be_brought_about_is_said(self):
        """An area that no moves lead to: the scale is on the bench, and the diverter still reads its record."""
        judged = judge_folder(PROGRAM, self.visit)
        state = judged.steps[14].after.copy()
        state.contents[11] = next(n for n, one in judged.config.values.items() if one.name == "Divert by weight")
        status, text, _ = self.start(area_bytes(judged.config, state))
        self.assertEqual(status, 1)
        self.assertIn("1 refused.", text)
        self.assertIn("See: tools/plan explain examples/today bringup:9\n", text)
        self.assertIn("Row 9 of bringup.csv (move 8): driver Sorting", plan("explain", TODAY, "bringup:9")[1])
        self.assertIn("The state after it is not that of stored. It should be:", text)
        self.assertTrue(text.endswith("It should be:\n  What Diverter ring (transfer descriptor of card Diverter) "
                                      "holds: 'Follow the queue', and not cleared.\n"), "all else is as it should be")

    def test_a_green_zone_in_an_area(self):
        """It is created as one; the area of a plain one differs, and so does one that no moves lead to."""
        data = bytearray(self.area)
        data[1] = 3
        status, text, _ = self.start(data)
        self.assertEqual(status, 0, text)
        self.assertIn("\ncreate green,,Live loop,,\n", (TODAY / "bringup.csv").read_text(encoding="utf-8"))
        config = judge_folder(PROGRAM, TODAY).config
        plain, green = (read_area(config, bytes(area)) for area in (self.area, data))
        self.assertEqual(differences(config, green, plain),
                         ["partition Live loop: there as a green zone, and not there"])
        ring = next(n for n, one in config.objects.items() if one.name == "Scanner ring")
        green.contents[ring] = next(n for n, one in config.values.items() if one.name == "Scan and queue")
        status, text, _ = self.start(area_bytes(config, green))
        self.assertEqual(status, 1)
        self.assertIn("1 refused.", text)
        self.assertIn("no value in a green zone may write a transfer descriptor", " ".join(text.split()))
        self.assertTrue(text.endswith("holds: 'Scan and queue', and not cleared.\n"), text)

    def test_a_line_without_drivers(self):
        shutil.copytree(TODAY, "alone")
        Path("alone/drivers.csv").write_text("driver,note\n", encoding="utf-8")
        objects = Path("alone/objects.csv").read_text(encoding="utf-8")
        Path("alone/objects.csv").write_text(objects.replace("Sorting control", "external")
                                             .replace("Service laptop", "external"), encoding="utf-8")
        data = bytearray(self.area)
        data[DRIVERS_AT] = 0
        Path("stored").write_bytes(data)
        status, text, _ = plan("start", "alone", "stored", "--replace")
        self.assertEqual(status, 1)
        self.assertIn("  What Scale ring (transfer descriptor of card Scale) holds: 'Weigh parcels', and not cleared.",
                      text)
        self.assertTrue(text.endswith("Why: the line has no driver, so that nothing can be written.\n"), text)

    def test_a_line_that_is_refused(self):
        """By 5 in three ways: two hard-wired descriptors of a card, one of nobody, none."""
        before = (TODAY / "bringup.csv").read_bytes()
        text = (TODAY / "objects.csv").read_text(encoding="utf-8")
        for changed in (text + "Wiring,hard-wired,Scale,\n", text + "Wiring,hard-wired,external,\n",
                        text.replace("Scale wiring,hard-wired", "Scale wiring,data")):
            (TODAY / "objects.csv").write_text(changed, encoding="utf-8")
            status, said, _ = self.start(self.area)
            self.assertEqual(status, 1)
            self.assertTrue(said.startswith("The line is refused by question 5"), said)
            self.assertEqual((TODAY / "bringup.csv").read_bytes(), before)

    def test_an_area_of_a_hard_wired_descriptor_of_nobody(self):
        config = Config({}, {}, {1: Object("O1", w.HARDCODED, w.EXTERNAL, 0)}, {})
        self.assertEqual(read_area(config, bytes(AREA)).contents, {1: 0})


class Told(InFolder):
    """What check, explain and csv say of a plan with a bring-up, one row of which is refused."""

    def setUp(self):
        super().setUp()
        shutil.copytree(ROOT / TODAY, TODAY)
        bringup = TODAY / "bringup.csv"
        bringup.write_text(bringup.read_text(encoding="utf-8") + "deactivate,Scale,,,\n", encoding="utf-8")

    def test_a_refused_row_of_it(self):
        status, text, _ = plan("check", TODAY)
        self.assertEqual(status, 1)
        self.assertIn("Bring-up: 8 moves, 1 refused (row 9 of bringup.csv).\n", text)
        self.assertIn("bringup.csv, row 9 (move 8)  refused 20  deactivate card Scale\n", text)
        self.assertIn("See: tools/plan explain examples/today bringup:9\n", text)
        self.assertIn("row  2 (move  9)  accepted    create partition Test bench\n", text)
        self.assertNotIn("activate card Diverter", text)
        self.assertIn("11 moves: 8 accepted, 3 refused (rows 4, 5, 6).\n", text)

    def test_explained(self):
        status, text, _ = plan("explain", TODAY, "bringup:9")
        self.assertEqual(status, 0)
        self.assertTrue(text.startswith("Row 9 of bringup.csv (move 8): deactivate card Scale\nRefused by question 20"))
        self.assertIn("Row 4 (move 11): deactivate card Scale\n", plan("explain", TODAY, 4)[1])
        self.assertEqual(plan("explain", TODAY, "bringup:10")[2],
                         "plan: bringup.csv has no move in row 10; moves are in rows 2 to 9\n")
        self.assertEqual(plan("explain", TODAY, "visitor:4")[0], 2)

    def test_answers(self):
        self.assertEqual(plan("csv", TODAY)[0], 0)
        rows = (TODAY / "answers.csv").read_text(encoding="utf-8").splitlines()
        self.assertEqual(len(rows), 1 + 11 + 1)
        self.assertTrue(rows[1].startswith("2,9,create,,Test bench,,0,accepted,,"), rows[1])
        self.assertTrue(rows[-1].startswith("bringup.csv 9,8,deactivate,Scale,,,20,refused,"), rows[-1])

    def test_faults_of_both_tables_at_once(self):
        for name in ("bringup.csv", "visit.csv"):
            text = (TODAY / name).read_text(encoding="utf-8")
            (TODAY / name).write_text(text.replace("Scale,", "Skale,", 1), encoding="utf-8")
        self.assertEqual(plan("check", TODAY), (3, "", (
            "plan: bringup.csv, row 6, column who: there is no driver or card called 'Skale'; did you mean 'Scale'?\n"
            "plan: visit.csv, row 4, column who: there is no driver or card called 'Skale'; did you mean 'Scale'?\n")))

    def test_one_session(self):
        judged = judge_folder(PROGRAM, TODAY)
        self.assertEqual((judged.first, len(judged.visit), len(judged.steps)), (8, 11, 19))
        self.assertEqual(judged.session, pack.session_bytes([step.move for step in judged.steps]))


if __name__ == "__main__":
    unittest.main()
