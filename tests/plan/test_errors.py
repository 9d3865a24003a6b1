"""Faults of tables name file, row and column; refused lines say on what; statuses are those of the help."""
import os
import shutil
import subprocess
import sys
import unittest
from pathlib import Path

from common import PROGRAM, ROOT, InFolder, plan
from planner import office

# Table, what is changed to what, then the complaint: row, column and how it begins.
FAULTS = [
    ("drivers.csv", "Service laptop,", "Sorting control,",
     3, "driver", "'Sorting control' stands twice: here and in drivers.csv, row 2\n"),
    ("drivers.csv", "driver,note", "name,note",
     1, "driver", "is missing; the heading must have: driver (tried between the columns: comma, semicolon, tab)\n"),
    ("drivers.csv", "Service laptop", "a;b",
     3, "driver", "'a;b' has ';' in it"),
    ("drivers.csv", "Service laptop", "#2",
     3, "driver", "'#2' begins with '#'"),
    ("drivers.csv", "Service laptop", "external",
     3, "driver", "'external' is kept"),
    ("cards.csv", "Scale,", "Sorting  CONTROL,",
     4, "card", "'Sorting CONTROL' stands twice: here and in drivers.csv, row 2 ('Sorting control')\n"),
    ("objects.csv", "Parcel counter,", "Job Queue,",
     16, "object", "'Job Queue' stands twice: here and in objects.csv, row 12 ('Job queue')\n"),
    ("drivers.csv", "driver,note", "driver,Driver",
     1, "driver", "stands in the heading twice\n"),
    ("cards.csv", "Scale start-up", "Scale startup",
     4, "hard-wired value", "there is no value called 'Scale startup'; did you mean 'Scale start-up'?"),
    ("cards.csv", "Scale start-up", "",
     4, "hard-wired value", "is empty"),
    ("objects.csv", "Lane table,data", "Lane table,date",
     13, "kind", "'date' is none of: transfer, function, data, hard-wired; did you mean 'data'?\n"),
    ("objects.csv", "Lane table,data,Sorting control", "Lane table,data,Sorting controll",
     13, "owner", "there is no driver or card called 'Sorting controll'; did you mean"),
    ("values.csv", "Job queue,read", "Job queue,reads",
     9, "mode", "'reads' is none of: read, write, both; did you mean 'read'?\n"),
    ("values.csv", "Job queue,write,Divert by weight", "Job queue,write,",
     18, "put", "is empty"),
    ("values.csv", "Barcode table,read,", "Barcode table,read,Calibrate",
     10, "put", "must be empty"),
    ("values.csv", "Calibrate,Reference weights", "cleared,Reference weights",
     21, "value", "'cleared' is"),
    ("values.csv", "Calibrate,Reference weights,read", "Calibrate,,read",
     21, "object", "is empty"),
    ("partitions.csv", "Test bench,2", "Test bench,64",
     3, "number", "'64' is not a number from 1"),
    ("partitions.csv", "Test bench,2", "Test bench,1",
     3, "number", "1 is already partition"),
    ("partitions.csv", "Test bench,2", "7,2",
     3, "partition", "'7' is a number"),
    ("visit.csv", "create,,Test bench", "make,,Test bench",
     3, "operation", "'make' is none of: write, read, create, create green, destroy, activate, deactivate, "
     "lock, unlock\n"),
    ("visit.csv", "create,,Test bench", "craete,,Test bench",
     3, "operation", "'craete' is none of: write, read, create, create green, destroy, activate, deactivate, "
     "lock, unlock; did you "
     "mean 'create'?\n"),
    ("visit.csv", "deactivate,Scale,,", "De-activate,Scale,,",
     11, "operation", "'De-activate' is none of: write, read, create, create green, destroy, activate, "
     "deactivate, lock, unlock; did "
     "you mean 'deactivate'?\n"),
    ("visit.csv", "create,,Test bench", "create,Scale,Test bench",
     3, "who", "must be empty"),
    ("visit.csv", "create,,Test bench", "create,,Tset bench",
     3, "where", "there is no partition called 'Tset bench'; did you mean 'Test bench'?"),
    ("visit.csv", "create,,Test bench,", "create,,,",
     3, "where", "is empty"),
    ("visit.csv", "create,,Test bench,", "create,,Test bench,Scale ring",
     3, "what", "must be empty"),
    ("visit.csv", "activate,Diverter,", "activate,Divertor,",
     6, "who", "there is no driver or card called"),
    ("visit.csv", "write,Service laptop,", "write,,",
     15, "who", "is empty: 'write' needs a driver or a"),
    ("visit.csv", "Job queue = Divert by barcode", "Job queue",
     12, "what", "'Job queue' does not say"),
    ("visit.csv", "Job queue = Divert by barcode", "Job queue = Divert",
     12, "what", "there is no value"),
    ("visit.csv", "text HEAVY TO 8", "HEAVY",
     16, "what", "'HEAVY' is no value; contents of Lane table"),
    ("visit.csv", "text HEAVY TO 8", "text SEVENTEEN LETTERS",
     16, "what", "'text SEVENTEEN LETTERS' has"),
    ("visit.csv", "text HEAVY TO 8", "bytes 0g",
     16, "what", "'bytes 0g' is not in pairs"),
    ("visit.csv", "text HEAVY TO 8", "text A          B  C  D",
     16, "what", "'text A          B  C  D' has 18 bytes; an object holds 16\n"),
    ("visit.csv", "text HEAVY TO 8", "TEXT  ",
     16, "what", "'text' has no text behind it; write 'cleared' for none\n"),
    ("visit.csv", "Lane table = text HEAVY TO 8,wrong", '"Lane table = text A\tB",wrong',
     16, "what", "'text A B' has a tab or a line end in it; give it as 'bytes ..'\n"),
    ("visit.csv", "Lane table = text HEAVY TO 8,wrong", '"Lane table = text A\nB",wrong',
     16, "what", "'text A B' has a tab or a line end in it; give it as 'bytes ..'\n"),
    ("visit.csv", "Barcode table; Parcel counter", ";",
     9, "what", "is empty"),
    ("visit.csv", "deactivate,Scale,,", "read,Scale,,Scale ring ->",
     11, "what", "'Scale ring ->' says no"),
]
SEVEN_ENTRIES = "\n".join(["Follow the queue,Job queue,read,,"] * 7)
SEVENTEEN_DRIVERS = "Service laptop,\n" + "\n".join(f"D{n}" for n in range(3, 18))
TABLES = "".join(f"Table {n},data,external,\n" for n in range(178))
# Table, what is changed to what, then the question that refuses the line and what is said about it.
LINES = [
    ("objects.csv", "Diverter wiring,hard-wired", "Diverter wiring,data",
     5, "Card Diverter has 0 hard-wired descriptors."),
    ("objects.csv", "Diverter gate,function", "Diverter gate,hard-wired",
     5, "Card Diverter has 2 hard-wired descriptors: Diverter wiring, Diverter gate."),
    ("objects.csv", "Lane table,data", "Lane table,hard-wired",
     5, "Lane table (hard-wired descriptor of driver Sorting control) has no card as owner."),
    ("values.csv", "Scale start-up,Scale settings,", "Scale start-up,Lane table,",
     6, "'Scale start-up', hard-wired in card Scale, names Lane table (data of driver Sorting control), which is not"),
    ("values.csv", "Scale start-up,Scale ring,read,", "Scale start-up,Scanner ring,write,cleared",
     6, "names Scanner ring (transfer descriptor of card Scanner), which is not this card's."),
    ("values.csv", "Scale start-up,Scale settings,", "Scale start-up,Scale wiring,",
     6, "names the hard-wired descriptor Scale wiring."),
    ("drivers.csv", "Service laptop,", SEVENTEEN_DRIVERS,
     3, "There are 17 drivers; a line has at most 16."),
    ("values.csv", "Follow the queue,Job queue,read,,", SEVEN_ENTRIES,
     3, "Value 'Follow the queue' has 7 entries; a value has at most 6."),
    ("objects.csv", "Diverter wiring,", TABLES + "Diverter wiring,",
     3, "There are 193 objects; a line has at most 192."),
]


class Faults(InFolder):
    def test_each_names_file_row_and_column(self):
        for name, old, new, row, column, message in FAULTS:
            with self.subTest(message):
                before = (self.visit / name).read_text(encoding="utf-8")
                self.edit(name, old, new)
                status, text, complaints = plan("check", "examples/visit")
                (self.visit / name).write_text(before, encoding="utf-8")
                self.assertEqual((status, text), (3, ""))
                place = f"plan: {name}, row {row}, column {column}: "
                self.assertTrue(complaints.startswith(place + message), complaints)

    def test_all_rows_faults_at_once(self):
        self.edit("visit.csv", "create,,Live loop", "make,,Live loop")
        self.edit("visit.csv", "create,,Test bench", "make,,Test bench")
        self.assertEqual(len(plan("check", "examples/visit")[2].splitlines()), 2)

    def test_missing_table(self):
        (self.visit / "values.csv").unlink()
        self.assertEqual(plan("check", "examples/visit"), (3, "", "plan: values.csv: is not there\n"))

    def test_letters_that_are_not_utf_8(self):
        path = self.visit / "drivers.csv"
        path.write_bytes(path.read_bytes().replace(b"laptop", b"l\xe4ptop"))
        self.assertIn("drivers.csv, row 3: has a letter that is not UTF-8", plan("check", "examples/visit")[2])

    def test_refused_lines_say_on_what(self):
        for name, old, new, number, message in LINES:
            with self.subTest(message):
                before = (self.visit / name).read_text(encoding="utf-8")
                self.edit(name, old, new)
                status, text, _ = plan("check", "examples/visit")
                for command in ("explain", "picture", "csv"):
                    row = (17,) if command == "explain" else ()
                    self.assertEqual(plan(command, "examples/visit", *row)[0], 1)
                (self.visit / name).write_text(before, encoding="utf-8")
                self.assertEqual(status, 1)
                self.assertIn(f"The line is refused by question {number} ", text)
                self.assertIn(message, " ".join(text.split()))

    def test_too_long_a_visit(self):
        path = self.visit / "visit.csv"
        path.write_text(path.read_text(encoding="utf-8") + "create,,9,,\n" * 11000, encoding="utf-8")
        status, text, _ = plan("check", "examples/visit")
        self.assertEqual(status, 1)
        self.assertIn("session.bin has 33,164 bytes; at most 32,768 are read.", text)


class Spreadsheets(InFolder):
    def test_other_separators_and_line_ends(self):
        expected = plan("check", "examples/visit")
        for separator in (";", "\t"):
            for name in ("drivers.csv", "cards.csv", "partitions.csv", "objects.csv", "values.csv"):
                text = (ROOT / "examples" / "visit" / name).read_text(encoding="utf-8").replace(",", separator)
                (self.visit / name).write_bytes(b"\xef\xbb\xbf" + text.replace("\n", "\r\n").encode())
            self.assertEqual(plan("check", "examples/visit"), expected)

    def test_columns_in_any_order_and_further_ones(self):
        expected = plan("check", "examples/visit")
        own = "who ordered it,Driver\nme,sorting CONTROL\n,Service  laptop\n"
        (self.visit / "drivers.csv").write_text(own, encoding="utf-8")
        text = plan("check", "examples/visit")[1]
        self.assertEqual(text.replace("sorting CONTROL", "Sorting control"), expected[1])

    def test_numbers_stand_for_what_has_no_name(self):
        self.edit("visit.csv", "create,,Test bench", "create,,2")
        self.edit("visit.csv", "activate,Diverter,", "activate,card #1,")
        self.edit("visit.csv", "Job queue = Divert by barcode", "#11 = #5")
        self.edit("visit.csv", "Lane table = text HEAVY TO 8,wrong", "#97 = bytes 00,wrong")
        text = plan("check", "examples/visit")[1]
        self.assertIn("No: There is no object #97.", text)
        self.assertIn("18 accepted, 4 refused", text)


class Statuses(InFolder):
    def test_usage(self):
        for arguments in ((), ("judge",), ("explain", "examples/visit"), ("explain", "examples/visit", "x"),
                          ("explain", "examples/visit", 1), ("picture", "examples/visit", 99), ("check", "nowhere"),
                          ("import", "nowhere.bin")):
            self.assertEqual(plan(*arguments)[0], 2, arguments)

    def test_the_program_of_the_repository(self):
        """Without option and variable `./judge --program` of the repository is asked."""
        shutil.copytree(ROOT / "tools", "house/tools")
        (Path("house") / "office").symlink_to(PROGRAM)
        clean = {name: text for name, text in os.environ.items() if name != office.VARIABLE}
        for script, status in ((None, 4), ("exit 1", 4), ("echo office", 1), (f"echo {PROGRAM}", 1)):
            if script:
                text = f'#!/bin/sh\n[ "$1" = --program ] || exit 9\n{script}\n'
                Path("house/judge").write_text(text, encoding="utf-8")
                Path("house/judge").chmod(0o755)
            done = subprocess.run([sys.executable, "house/tools/plan", "check", "examples/visit"], env=clean,
                                  capture_output=True, text=True)
            self.assertEqual(done.returncode, status, (script, done.stderr))

    def test_all_accepted(self):
        path = self.visit / "visit.csv"
        path.write_text("".join(path.read_text(encoding="utf-8").splitlines(True)[:10]), encoding="utf-8")
        status, text, _ = plan("check", "examples/visit")
        self.assertEqual(status, 0)
        self.assertTrue(text.endswith("9 moves: 9 accepted, 0 refused.\n"), text)


if __name__ == "__main__":
    unittest.main()
