"""The timeline: which card is where from which row to which, and what did not come back."""
import codecs
import shutil
import unittest
from pathlib import Path

from common import PROGRAM, ROOT, InFolder, plan
from lines import random_line, random_visit
from planner.judged import judge_folder, judge_moves
from planner.timeline import not_back, timeline_rows, tracks, where


class Timeline(InFolder):
    def test_the_example(self):
        status, text, complaints = plan("timeline", "examples/visit")
        self.assertEqual((status, text, complaints), (0, f"Written: {Path('examples/visit/timeline.csv')}\n", ""))
        self.same_as_golden("timeline.csv", (self.visit / "timeline.csv").read_text(encoding="utf-8"))

    def test_saved_as_the_visit_is(self):
        rows = "operation;who;where;what", "create;;Live loop;", "activate;Scale;Live loop;", ""
        (self.visit / "visit.csv").write_bytes(codecs.BOM_UTF8 + "\r\n".join(rows).encode())
        self.assertEqual(plan("timeline", "examples/visit")[0], 0)
        data = (self.visit / "timeline.csv").read_bytes()
        self.assertTrue(data.startswith(codecs.BOM_UTF8 + b"what;name;partition;from row;to row;back\r\n"))
        self.assertIn(b"\ncard;Scale;Live loop;3;;yes\r\n", data)

    def test_who_is_not_back(self):
        """Left on the bench, and left nowhere; a desk whose partition is gone is not missed."""
        self.edit("visit.csv", "activate,Scale,Live loop,,\nwrite,Sorting control,,Lane", "write,Sorting control,,Lane")
        _, text, _ = plan("timeline", "examples/visit")
        self.assertIn("Not back: card Scale was in Live loop, and is at the end in no partition.\n", text)
        self.edit("visit.csv", "deactivate,Scale,,,calibrated\n", "")
        _, text, _ = plan("timeline", "examples/visit")
        self.assertIn("Not back: card Scale was in Live loop, and is at the end in Test bench.\n", text)
        self.assertNotIn("laptop", text)

    def test_with_a_bring_up(self):
        """What is there when the visit begins has no first row, and belongs where it is then."""
        shutil.copytree(ROOT / "examples" / "today", "today")
        rows = timeline_rows(judge_folder(PROGRAM, Path("today")))
        self.assertIn(("card", "Diverter", "Live loop", "", "", "yes"), rows)
        self.assertEqual([row[2:] for row in rows if row[1] == "Scale"],
                         [("Live loop", "", 8, ""), ("Live loop", 9, "", "yes")])


class Tracks(unittest.TestCase):
    def test_stays_are_the_books(self):
        """Of random sessions: at every step a thing is in the partition that its stays say."""
        stays = 0
        for seed in range(20):
            config = random_line(seed)
            judged = judge_moves(PROGRAM, config, random_visit(config, seed))
            for track in tracks(judged):
                for step in judged.visit:
                    inside = [stay for stay in track.stays if (stay.came is None or stay.came.place <= step.place)
                              and (stay.left is None or step.place < stay.left.place)]
                    self.assertEqual([stay.partition for stay in inside],
                                     [at for at in [where(step.after, track.sort, track.number)] if at])
                stays += len(track.stays)
            self.assertEqual(len(not_back(judged)), sum(not track.back for track in tracks(judged)))
        self.assertGreater(stays, 150)


if __name__ == "__main__":
    unittest.main()
