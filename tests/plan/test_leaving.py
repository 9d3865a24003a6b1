"""A card that leaves: what it names itself is excused, and what it could put for a card that stays is not (20)."""
import os
import tempfile
import unittest
from pathlib import Path

from common import ROOT, plan

# Card 1 reads object 2, whose value puts value 4 into object 4; card 2 reads object 4, and value 4 reads object 2.
LINE = "1 1 2 4 4 4 2 1 1 2 1 4 2 2 1 2 2 1 2 1 2 1 0 1 4 1 0 1 4 2 4 1 2 1 0"
RECORDS = ("5 1", "7 1 1", "8 1 1", "8 2 1", "1 1 1 2 0 3", "11 1")


def numbers(text):
    return bytes(map(int, text.split()))


class Leaving(unittest.TestCase):
    def setUp(self):
        passing = tempfile.TemporaryDirectory()
        self.addCleanup(passing.cleanup)
        self.addCleanup(os.chdir, os.getcwd())
        os.chdir(passing.name)
        Path("line.bin").write_bytes(numbers(LINE))
        Path("session.bin").write_bytes(b"".join(bytes([len(one)]) + one for one in map(numbers, RECORDS)))
        self.assertEqual(plan("import", "line.bin", "made")[0], 0)

    def test_clearing_what_it_would_put_it_from_helps(self):
        status, text, _ = plan("repair", "made", 7)
        self.assertEqual(status, 0)
        self.assertIn("  1. Cleared first: driver D1 writes O2 = cleared (1 move added).", text)
        self.assertEqual(plan("repair", "made", 7, "--write", 1)[0], 0)
        status, text, _ = plan("check", "made")
        self.assertEqual(status, 0)
        self.assertIn("7 moves: 7 accepted, 0 refused.", text)

    def test_the_manual_says_so(self):
        text = " ".join((ROOT / "docs" / "PLANNER.md").read_text(encoding="utf-8").split())
        self.assertIn("What a card that leaves names itself does not count. What it could put into a descriptor counts "
                      "for the cards that stay: clear first where it would put it from.", text)

    def test_what_it_names_itself_is_excused(self):
        """With a value in object 2 that only reads object 2 itself the card leaves."""
        rows = Path("made/visit.csv").read_text(encoding="utf-8")
        Path("made/visit.csv").write_text(rows.replace("O2 = V3", "O2 = V4"), encoding="utf-8")
        self.assertEqual(plan("check", "made")[0], 0)


if __name__ == "__main__":
    unittest.main()
