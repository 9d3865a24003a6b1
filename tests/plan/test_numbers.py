"""Numbers as large as three groups hold, in every field of a move: judged, told, and back from a session.bin."""
import unittest
from pathlib import Path

from common import PROGRAM, InFolder, plan
from planner import pack
from planner import wording as w
from planner.judged import judge_folder
from planner.unpack import Unreadable, read_record, read_session_bytes
from planner.visit import Item, Move, Pair

LARGEST = 2097151
# Numbers that a record can hold and nothing has, and numbers that none can hold.
LARGE = (65535, 65536, 70000, LARGEST)
TOO_LARGE = (LARGEST + 1, 9999999)
# A move as it is typed, with N in the place of a number that nothing has, and what is said of it.
TYPED = [
    ("create,,N,", "There is no partition N; they go from 1 to 63."),
    ("activate,driver #N,1,", "There is no driver #N."),
    ("activate,card #N,1,", "There is no card #N."),
    ("activate,Scale,N,", "There is no partition N; they go from 1 to 63."),
    ("activate,,1,#N", "There is no object #N."),
    ("deactivate,,N,Barcode table", "There is no partition N; they go from 1 to 63."),
    ("lock,card #N,,", "There is no card #N."),
    ("write,Sorting control,,#N = text A", "There is no object #N."),
    ("write,Sorting control,,Job queue = #N", "There is no value #N."),
    ("write,card #N,,Job queue = cleared", "There is no card #N."),
    ("read,Sorting control,,#N", "There is no object #N."),
    ("read,Sorting control,,Lane table -> #N", "There is no object #N."),
]


def moves(number):
    """A move of every code with the number in each of its fields in turn."""
    for code in w.CODES.values():
        lists = {"items": (Item(number, w.RAW_FORM), Item(1, w.VALUE_FORM, number)),
                 "pairs": (Pair(number, 1), Pair(1, number)), "objects": (number,)}
        parts = next((lists[field] for field in code.fields if field in lists), ())
        fields = [field for field in code.fields if field not in lists]
        for large in [*fields, *parts]:
            who, where = (number if large == field else int(field in fields) for field in ("who", "where"))
            yield Move(2, code.number, who, where, parts[:1] if large in fields else (large,))


class Typed(InFolder):
    def check(self, number):
        """The answers of the moves with a number, and what is said of each."""
        rows = [row.replace("N", str(number)) for row, _ in TYPED]
        (self.visit / "visit.csv").write_text("operation,who,where,what\n" + "\n".join(rows), encoding="utf-8")
        steps = judge_folder(PROGRAM, self.visit).steps
        return [step.answer for step in steps], plan("check", "examples/visit")[1]

    def test_what_a_record_can_hold(self):
        for number in LARGE:
            answers, text = self.check(number)
            self.assertEqual(answers, [11] * len(TYPED))
            said = [line.split("No: ")[1] for line in text.splitlines() if "No: " in line]
            self.assertEqual(said, [words.replace("N", str(number)) for _, words in TYPED])

    def test_what_it_cannot(self):
        for number in TOO_LARGE:
            answers, text = self.check(number)
            self.assertEqual(answers, [10] * len(TYPED))
            self.assertEqual(text.count(f"No: The number {number} is above 2,097,151."), len(TYPED))

    def test_what_is_no_number(self):
        """It has more digits than any number of a record."""
        (self.visit / "visit.csv").write_text("operation,who,where,what\nread,Scale,,#10000000\n", encoding="utf-8")
        self.assertIn("there is no object called '#10000000'", plan("check", "examples/visit")[2])


class ThereAndBack(InFolder):
    def test_every_field(self):
        """A session.bin with large numbers becomes a visit.csv that gives the same bytes."""
        for number in (0, 1, 127, 128, 16383, 16384) + LARGE:
            made = list(moves(number))
            self.assertEqual({move.code for move in made}, set(w.CODES))
            session = pack.session_bytes(made)
            self.assertEqual([(move.code, move.who, move.where, move.what) for move in read_session_bytes(session)],
                             [(move.code, move.who, move.where, move.what) for move in made])
            (self.visit / "session.bin").write_bytes(session)
            self.assertEqual(plan("import", "examples/visit/line.bin", f"back{number}")[0], 0)
            self.assertEqual(plan("check", f"back{number}")[0], 1)
            self.assertEqual(Path(f"back{number}/session.bin").read_bytes(), session, number)

    def test_more_than_three_bytes(self):
        """Question 10 stops such a record, so that it is no move."""
        for number in TOO_LARGE:
            for move in moves(number):
                with self.assertRaises(Unreadable) as told:
                    read_record(pack.record_bytes(move), 2)
                self.assertEqual(str(told.exception), "a number has more than three bytes")


if __name__ == "__main__":
    unittest.main()
