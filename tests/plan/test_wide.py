"""Lines of more than 96 objects: numbers of two bytes, the longer state areas, and the words of a small line.

The example is made wide by tables before its own objects, which then have the largest numbers.
"""
import unittest
from pathlib import Path

import sorters
from common import GOLDEN, PROGRAM, InFolder, plan
from layout import AREA as SMALL_AREA
from layout import RECORD as RECORD_BYTES
from layout import RECORDS_FROM as OBJECTS_FROM
from layout import LOCKS_FROM, WIDE_AREA, WIDE_LOCKS_FROM
from lines import WIDE
from planner import pack
from planner import wording as w
from planner.area import MARK, area_bytes, digest, length_for, read_area, room
from planner.book import fresh
from planner.config import Config, Object
from planner.judged import judge_folder, judge_moves
from planner.unpack import read_line_bytes, read_session_bytes
from test_workbooks import SUFFIXES, needs_libraries

OWN = 15
WRAPPED = 24
# What is said of a stored file of another length than a wide line has.
NEEDED = (f"has {{}}; the state area of this line has {WIDE_AREA:,}, and {WIDE_AREA + WRAPPED:,} as the example "
          "controller stores it")
ANOTHER = ", as for a line of at most 96 objects"


def two_bytes(number):
    """A number from 128 to 255 as document 01 writes it, worked out here: 128 is added to the first byte."""
    return [number % 128 + 128, number // 128] if number > 127 else [number]


class Widened(InFolder):
    """A test on the example's line with more objects."""

    def setUp(self):
        super().setUp()
        self.heading, self.objects = (self.visit / "objects.csv").read_text(encoding="utf-8").split("\n", 1)
        self.small = {name: (self.visit / name).read_bytes() for name in ("line.bin", "session.bin")}

    def widen(self, count):
        """So many objects, the example's own being the last."""
        tables = "".join(f"Table {n},data,external,\n" for n in range(count - OWN))
        (self.visit / "objects.csv").write_text(f"{self.heading}\n{tables}{self.objects}", encoding="utf-8")


class Words(Widened):
    def test_they_are_those_of_the_small_line(self):
        """Answers, reasons and chains go by names: only the counts of the first two rows are others."""
        small = (GOLDEN / "check.txt").read_text(encoding="utf-8").splitlines()
        for count in WIDE:
            self.widen(count)
            status, text, complaints = plan("check", "examples/visit")
            self.assertEqual((status, complaints), (1, ""), count)
            self.assertEqual(text.splitlines()[2:], small[2:])
            self.assertIn(f"Line: 2 drivers, 3 cards, {count} objects, 10 values; line.bin has ", text)
            for row in (11, 16, 17, 18, 19):
                told = (GOLDEN / f"explain-{row}.txt").read_text(encoding="utf-8")
                self.assertEqual(plan("explain", "examples/visit", row), (0, told, ""), f"{count}, row {row}")

    def test_a_chain_by_large_numbers(self):
        """Row 17 is refused by 19, and each link of its chain is at numbers that have two bytes."""
        self.widen(192)
        judged = judge_folder(PROGRAM, self.visit)
        step = next(step for step in judged.visit if step.move.row == 17)
        links = judged.explained(step)[0].chain
        self.assertEqual((step.answer, len(links)), (w.OUTSIDE, 7))
        self.assertGreater(min(n for link in links for n in (link.descriptor, link.to or link.descriptor)), 127)

    def test_one_object_more(self):
        self.widen(193)
        status, text, _ = plan("check", "examples/visit")
        self.assertEqual(status, 1)
        self.assertIn("The line is refused by question 3 ", text)
        self.assertIn("There are 193 objects; a line has at most 192.", text)

    def test_a_number_for_what_has_no_name(self):
        """The first that has two bytes, the last, and one that the line has not."""
        for row, said in (("#128 = text A", "Table 127 = text A"), ("#192 = text A", "Parcel counter = text A"),
                          ("#193 = text A", "There is no object #193.")):
            self.widen(192)
            self.edit("visit.csv", "Lane table = text HEAVY TO 8", row)
            self.assertIn(said, plan("check", "examples/visit")[1])
            self.edit("visit.csv", row, "Lane table = text HEAVY TO 8")


class Bytes(Widened):
    def test_line(self):
        """The small line's bytes, each below 128, with tables before the objects and the objects' numbers moved."""
        old = list(self.small["line.bin"])
        objects, rest = old[5:5 + 3 * OWN], old[5 + 3 * OWN:]
        for count in WIDE:
            cards, values = rest[:3], rest[3:]
            wanted = old[:3] + two_bytes(count) + old[4:5] + [3, 0, 0] * (count - OWN) + objects + cards
            while values:
                entries = values[0]
                wanted.append(entries)
                for at in range(1, 3 * entries + 1, 3):
                    wanted += two_bytes(values[at] + count - OWN) + values[at + 1:at + 3]
                values = values[1 + 3 * entries:]
            self.widen(count)
            plan("check", "examples/visit")
            self.assertEqual((self.visit / "line.bin").read_bytes(), bytes(wanted), count)

    def test_records(self):
        """Of a write, of a copy and of external objects, by a number of two bytes."""
        self.widen(192)
        (self.visit / "visit.csv").write_text(
            "operation,who,where,what\nwrite,Sorting control,,Parcel counter = text A; Scanner ring = cleared\n"
            "read,Scanner,,Scanner ring -> Job queue; Table 126\nactivate,,Live loop,Table 127; Table 0\n",
            encoding="utf-8")
        ring, queue = (self.place(name) for name in ("Scanner ring", "Job queue"))
        wanted = [[1, 1, 2, *two_bytes(192), 1, ord("A"), *[0] * 15, *two_bytes(ring), 0, 0],
                  [4, 2, 2, *two_bytes(ring), *two_bytes(queue), 127, 0], [9, 1, 2, *two_bytes(128), 1]]
        plan("check", "examples/visit")
        session = (self.visit / "session.bin").read_bytes()
        self.assertEqual(list(session), [byte for record in wanted for byte in [len(record), *record]])

    def place(self, name):
        """An object's place in the table, which is its number."""
        rows = (self.visit / "objects.csv").read_text(encoding="utf-8").splitlines()
        return next(place for place, row in enumerate(rows) if row.startswith(f"{name},"))

    def test_there_and_back(self):
        for count in WIDE:
            self.widen(count)
            plan("check", "examples/visit")
            made = {name: (self.visit / name).read_bytes() for name in self.small}
            config = read_line_bytes(made["line.bin"])
            self.assertEqual((len(config.objects), pack.line_bytes(config)), (count, made["line.bin"]))
            moves = read_session_bytes(made["session.bin"])
            self.assertEqual(pack.session_bytes(moves), made["session.bin"])
            self.assertEqual(plan("import", "examples/visit/line.bin", f"back{count}")[0], 0)
            self.assertEqual(plan("check", f"back{count}")[0], 1)
            self.assertEqual({name: Path(f"back{count}", name).read_bytes() for name in made}, made)


    @needs_libraries
    def test_workbooks(self):
        """192 names in the lists and sheets, and the same line and session from them."""
        self.widen(192)
        plan("check", "examples/visit")
        for suffix in SUFFIXES:
            self.assertEqual(plan("workbook", "examples/visit", f"book{suffix}/plan{suffix}")[0], 0)
            self.assertEqual(plan("check", f"book{suffix}")[0], 1)
            for name in self.small:
                self.assertEqual(Path(f"book{suffix}", name).read_bytes(), (self.visit / name).read_bytes())


class Areas(Widened):
    def test_lengths(self):
        """By the line's count alone; a small line's is what it was."""
        for count, length in ((0, SMALL_AREA), (1, SMALL_AREA), (96, SMALL_AREA), (97, WIDE_AREA), (128, WIDE_AREA),
                              (192, WIDE_AREA)):
            config = Config(objects={n: Object(f"O{n}", w.DATA, w.EXTERNAL, 0) for n in range(1, count + 1)})
            area = area_bytes(config, fresh(config))
            self.assertEqual((len(area), length_for(room(config)), any(area)), (length, length, False), count)
            self.assertEqual(read_area(config, area), fresh(config))

    def test_the_last_record(self):
        """Object 192 stands right before the lock bytes, its partition first; the others are where they were."""
        config = Config(objects={n: Object(f"O{n}", w.DATA, w.EXTERNAL, 0) for n in range(1, 193)})
        state = fresh(config)
        state.created[3] = "row 2"
        for n in (1, 97, 192):
            state.objects[n], state.contents[n] = 3, bytes(range(n, n + 16))
        area = area_bytes(config, state)
        for n in (1, 97, 192):
            at = OBJECTS_FROM + RECORD_BYTES * (n - 1)
            self.assertEqual(area[at:at + RECORD_BYTES], bytes([3, *range(n, n + 16)]))
        self.assertEqual((at + RECORD_BYTES, len(area), sum(map(bool, area))),
                         (WIDE_LOCKS_FROM, WIDE_AREA, 1 + 3 * RECORD_BYTES))

    def stored(self, data):
        Path("stored").write_bytes(data)
        return plan("start", "examples/visit", "stored", "--replace")

    def test_a_bring_up(self):
        """From what a controller stores of a wide line, plain or with its mark and digests, byte for byte."""
        for count in WIDE:
            self.widen(count)
            judged = judge_folder(PROGRAM, self.visit)
            area = area_bytes(judged.config, judged.last_state())
            self.assertEqual(len(area), WIDE_AREA)
            whole = MARK + digest(judged.line) + area
            for data in (area, whole + digest(whole)):
                status, text, complaints = self.stored(data)
                self.assertEqual((status, complaints), (0, ""), count)
                self.assertIn(" 0 refused.\nThe state after it is that of stored, byte for byte "
                              f"({WIDE_AREA:,} bytes).\n", text)
            (self.visit / "bringup.csv").unlink()

    def test_other_lengths(self):
        """Those of small lines, older ones too, are known as such; a byte more or less is not."""
        self.widen(97)
        small = [length + more for length in (SMALL_AREA, LOCKS_FROM) for more in (0, WRAPPED)]
        wide = [length + more for length in (WIDE_AREA, WIDE_LOCKS_FROM) for more in (0, WRAPPED)]
        for count, words in [(count, ANOTHER) for count in small] + [(count + by, "") for count in wide
                                                                     for by in (-1, 1)] + [(0, "")]:
            said = NEEDED.format(f"{count:,} bytes{words}")
            self.assertEqual(self.stored(bytes(count)), (2, "", f"plan: stored: {said}\n"))

    def test_absent_objects(self):
        """A byte in the record behind the last object, in the last record, and the last byte of all records."""
        for count in WIDE[:-1]:
            self.widen(count)
            judged = judge_folder(PROGRAM, self.visit)
            area = area_bytes(judged.config, judged.last_state())
            for n, byte in ((count + 1, 0), (192, 0), (192, RECORD_BYTES - 1)):
                at = OBJECTS_FROM + RECORD_BYTES * (n - 1)
                spoiled = bytearray(area)
                spoiled[at + byte] = 1
                said = f"byte {at}, object {n}: the tables have no such object, and the area has something there"
                self.assertEqual(self.stored(spoiled), (2, "", f"plan: stored: {said}\n"))


class Sorter(unittest.TestCase):
    def test_the_largest(self):
        """192 objects: the slips are refused by the questions and causes that they have on a small line."""
        answers = []
        for size in (sorters.LARGE, sorters.WIDE):
            made = sorters.visit(**size)
            judged = judge_moves(PROGRAM, made.config, made.rows())
            answers.append([(step.answer, len(judged.findings(step)[0].chain) if step.answer else 0)
                            for step in judged.steps])
        self.assertEqual(len(made.config.objects), 192)
        self.assertEqual(answers[0], answers[1])
        self.assertLessEqual({w.OUTSIDE, w.IN_REACH}, {answer for answer, _ in answers[1]})
        kept = sorters.visit(**sorters.WIDE, slips=())
        self.assertTrue(judge_moves(PROGRAM, kept.config, kept.rows()).verdict.accepted)


if __name__ == "__main__":
    unittest.main()
