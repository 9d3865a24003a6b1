"""The office program's text is taken only if it is whole, and nothing but a status of 0 is a good end."""
import os
import unittest
from pathlib import Path

import broken
from common import PROGRAM, ROOT, InFolder, plan
from planner import office, programs

# Sessions with how many whole records they have, and whether they are cut behind them.
SESSIONS = [
    (b"", 0, False),
    (b"\x00", 1, False),
    (b"\x02\x05\x01\x00\x02\x05\x02", 3, False),
    (b"\x80\x01" + bytes(128), 1, False),
    (b"\xff\xff\x03" + bytes(65535), 1, False),
    (b"\x80\x80\x04" + bytes(65536) + b"\x00", 2, False),
    (b"\xff\xff\x7f" + bytes(2097151) + b"\x00", 2, False),
    (b"\x00\x80", 1, True),
    (b"\x00\x81\x00\x00", 1, True),
    (b"\x00\x80\x80\x00", 1, True),
    (b"\x00\x81\x80\x80\x00\x00", 1, True),
    (b"\x00\xf0\xa2\x04" + bytes(69999), 1, True),
    (b"\x00\xff\xff\x7f" + bytes(2097150), 1, True),
    (b"\x00\x80\x80\x80\x01" + bytes(2097152), 1, True),
    (b"\x02\x05\x01\x02\x05", 1, True),
    (b"\x7f" + bytes(126), 0, True),
]


class Whole(unittest.TestCase):
    def test_records_are_counted(self):
        for session, count, cut in SESSIONS:
            self.assertEqual(office.records(session), (count, cut), session[:8])

    def test_every_text_and_no_part_of_one(self):
        """Of each whole text no beginning is taken, but those that are whole for another session."""
        for session, text in ((b"\x00" * 12, b"".join(b"%d 10\n" % place for place in range(1, 13))),
                              (b"\x00\x00\x80", b"1 10\n2 0\ncut\n"), (b"\x80", b"cut\n"),
                              (b"\x00", b"line 6\n"), (b"\x00", b"long\n")):
            office.parse(text, session)
            for length in range(len(text)):
                with self.assertRaises(programs.ProgramError, msg=text[:length]):
                    office.parse(text[:length], session)

    def test_accepted_is_every_record(self):
        for text, session, accepted in ((b"", b"", True), (b"1 0\n2 0\n", b"\x00\x00", True),
                                        (b"1 0\n2 9\n", b"\x00\x00", False), (b"1 0\ncut\n", b"\x00\x80", False),
                                        (b"cut\n", b"\x80", False), (b"long\n", b"", False), (b"line 1\n", b"", False)):
            self.assertEqual(office.parse(text, session).accepted, accepted, text)


class Programs(InFolder):
    def test_of_a_program_that_fails_nothing_is_taken(self):
        """On a visit whose moves are all accepted, so that rows alone would look good."""
        visit = self.visit / "visit.csv"
        visit.write_text("".join(visit.read_text(encoding="utf-8").splitlines(True)[:10]), encoding="utf-8")
        self.assertEqual(plan("check", "examples/visit")[0], 0)
        Path("programs").mkdir()
        for name, path, message in broken.programs(Path("programs").resolve(), PROGRAM):
            with self.subTest(name):
                status, text, complaints = plan("--office", path, "check", "examples/visit")
                self.assertEqual((status, text), (4, ""))
                self.assertIn(message, complaints)
                self.assertEqual(plan("--office", path, "csv", "examples/visit")[:2], (4, ""))

    def test_import_takes_nothing_either(self):
        for script in ("kill -SEGV $$", "exit 1", "echo 1 0", "printf 'line 5'"):
            Path("office").write_text(f"#!/bin/sh\n{script}\n", encoding="utf-8")
            Path("office").chmod(0o755)
            self.assertEqual(plan("--office", "./office", "import", "examples/visit/line.bin", "back")[:2], (4, ""))
            self.assertFalse(Path("back").exists())

    def test_no_program(self):
        self.assertEqual(plan("--office", "./nothing", "check", "examples/visit")[0], 4)

    def test_the_tests_use_the_repositorys_own(self):
        self.assertTrue(os.path.samefile(PROGRAM, ROOT / "target" / "bin" / "office"))


if __name__ == "__main__":
    unittest.main()
