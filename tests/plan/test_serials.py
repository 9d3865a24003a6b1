"""Cards' serials: from cards.csv into a line.bin of edition 2 and back; without any a plan keeps its bytes."""
import shutil
import unittest
from pathlib import Path
from unittest import mock

import german
from common import PROGRAM, ROOT, InFolder, plan
from lines import SERIALS, largest_line, random_line, random_visit, ring_line, wide_line, with_serials
from planner import office, pack, workbook
from planner.area import MARK, digest
from planner.book_plan import pages_of
from planner.config import Config
from planner.judged import judge_moves
from planner.tables import COLUMNS, open_tables
from planner.unpack import read_line_bytes
from test_workbooks import SUFFIXES, needs_libraries

LINE_L = ROOT / "crates" / "office" / "data" / "line.bin"
TODAY = Path("examples/today")
LONGEST, LARGEST = 1821, 2097151
BAD = "'{}' is not a number from 0 to 2,097,151 in digits alone; leave it empty where none is known"
# What a cell has for the serials of the example's three cards, and what they are.
CELLS = [(("", "", ""), (0, 0, 0)), (("0", "", "000"), (0, 0, 0)), (("70000", "", "0"), (70000, 0, 0)),
         ((" 1 ", "0000128", "2097151"), (1, 128, LARGEST)), (("5", "5", "5"), (5, 5, 5))]
NOTHING = ("-1", "2097152", "70,000", "70 000", "7e4", "1.5", "0x10", "none", "#7", "\u0663", "\u00b2", "9" * 5000)


def cards(*serials, heading="card,hard-wired value,serial"):
    """The example's cards.csv with these cells for serials."""
    names = ("Diverter", "Scanner", "Scale")
    rows = [f'{name},{name} start-up,"{serial}"' for name, serial in zip(names, serials, strict=True)]
    return "\n".join([heading, *rows, ""])


class Bytes(InFolder):
    def test_file_l(self):
        """The example of the request: 49 bytes, each card's number and then its serial."""
        plain = LINE_L.read_bytes()
        config = with_serials(read_line_bytes(plain), 70000, 0)
        line = pack.line_bytes(config)
        self.assertEqual(line, bytes([2]) + plain[1:23] + bytes([1, 240, 162, 4, 2, 0]) + plain[25:])
        self.assertEqual((len(line), office.judge(PROGRAM, line, b"").accepted), (49, True))
        self.assertEqual(read_line_bytes(line), config)

    def test_there_and_back(self):
        """Each serial at each card, on lines of both editions: the file is accepted, and comes back as it is."""
        for seed in range(12):
            config = (random_line, ring_line, wide_line)[seed % 3](seed)
            for place, serial in enumerate(SERIALS):
                made = with_serials(config, serial, *SERIALS[place // 2:place])
                line = pack.line_bytes(made)
                self.assertEqual((line[0], read_line_bytes(line)), (made.edition, made))
                self.assertEqual(made.edition, 2 if any(one.serial for one in made.devices.values()) else 1)
                self.assertTrue(office.judge(PROGRAM, line, b"").accepted, (seed, serial))

    def test_the_longest(self):
        line = pack.line_bytes(with_serials(largest_line(), LARGEST))
        self.assertEqual((len(line), office.judge(PROGRAM, line, b"").accepted), (LONGEST, True))

    def test_serials_decide_nothing(self):
        for seed in range(12):
            config = random_line(seed)
            moves = random_visit(config, seed)
            plain, serial = (judge_moves(PROGRAM, one, moves) for one in (config, with_serials(config, *SERIALS[1:])))
            self.assertEqual((plain.line[0], serial.line[0]), (1, 2))
            self.assertEqual((plain.verdict, plain.session), (serial.verdict, serial.session))

    def test_plans_without_serials_keep_their_bytes(self):
        """Without the column, and with one that is empty."""
        shutil.copytree(ROOT / TODAY, TODAY)
        for folder in (self.visit, TODAY):
            table = folder / "cards.csv"
            for text in (table.read_text(encoding="utf-8"), cards("", "", ""), cards("0", "0", "")):
                table.write_text(text, encoding="utf-8")
                self.assertEqual(plan("check", folder)[0], 1)
                for name in ("line.bin", "session.bin"):
                    self.assertEqual((folder / name).read_bytes(), (ROOT / folder / name).read_bytes(), name)


class Cells(InFolder):
    def check(self, text):
        (self.visit / "cards.csv").write_text(text, encoding="utf-8")
        return plan("check", "examples/visit")

    def test_what_a_cell_says(self):
        expected = (self.visit / "line.bin").read_bytes()
        for cells, serials in CELLS:
            self.assertEqual(self.check(cards(*cells))[0], 1)
            line = (self.visit / "line.bin").read_bytes()
            self.assertEqual([one.serial for one in read_line_bytes(line).devices.values()], list(serials))
            self.assertEqual(line == expected, not any(serials))

    def test_the_column_stands_anywhere(self):
        self.check(cards(70000, "", 1))
        expected = (self.visit / "line.bin").read_bytes()
        self.assertEqual(self.check("note,SERIAL,hard-wired value,Card\n,70000,Diverter start-up,Diverter\n"
                                    ",,Scanner start-up,Scanner\n,,,\nx,1,Scale start-up,Scale\n")[0], 1)
        self.assertEqual((self.visit / "line.bin").read_bytes(), expected)

    def test_what_is_no_serial(self):
        for cell in NOTHING:
            status, text, complaints = self.check(cards("", cell, ""))
            self.assertEqual((status, text), (3, ""))
            self.assertEqual(complaints, f"plan: cards.csv, row 3, column serial: {BAD.format(cell)}\n")
            self.assertFalse((self.visit / "line.bin").exists())

    def test_every_bad_cell_at_once(self):
        said = self.check(cards("x", 1, "y"))[2]
        self.assertEqual(said, "".join(f"plan: cards.csv, row {row}, column serial: {BAD.format(cell)}\n"
                                       for row, cell in ((2, "x"), (4, "y"))))

    def test_other_slips(self):
        for text, row, column, said in (
                (cards(1, 2, 3) + ",,4\n", 5, "card", "is empty\n"),
                (cards(1, 2, 3) + "Printer,,4\n", 5, "hard-wired value", "is empty\n"),
                (cards(1, 2, 3, heading="card,hard-wired value,serial,Serial"), 1, "serial",
                 "stands in the heading twice\n"),
                (cards(1, "2\u200b", 3), 3, "serial", "has a character in it that cannot be seen: zero width space")):
            status, _, complaints = self.check(text)
            self.assertEqual(status, 3)
            self.assertTrue(complaints.startswith(f"plan: cards.csv, row {row}, column {column}: {said}"), complaints)

    def test_every_form_of_a_table(self):
        folder, made = Path("plan"), set()
        for form in german.FORMS:
            german.save(folder, form)
            german.save_serials(folder, form)
            self.assertEqual(plan("check", folder)[0], 1)
            made.add((folder / "line.bin").read_bytes())
        line, = made
        self.assertEqual([one.serial for one in read_line_bytes(line).devices.values()],
                         [int(serial or 0) for serial in german.SERIALS])


class Imports(InFolder):
    def back(self, line):
        """What import says of a line file, and the line.bin that its tables make."""
        shutil.rmtree("back", ignore_errors=True)
        Path("given.bin").write_bytes(line)
        made = plan("import", "given.bin", "back")
        plan("check", "back")
        return made, Path("back/line.bin").read_bytes()

    def test_serials_are_kept(self):
        """And the edition by them, whichever card has the only one."""
        for seed in range(4):
            config = random_line(seed)
            for serials in [(0,), *((serial, 0) for serial in SERIALS), (0, 1), SERIALS[1:]]:
                given = pack.line_bytes(with_serials(config, *serials))
                (status, text, complaints), line = self.back(given)
                self.assertEqual((status, complaints, text.count("\n")), (0, "", 1), text)
                self.assertEqual(line, given)

    def test_no_serial_in_edition_2(self):
        """Tables have nothing to keep such an edition by, and that is said."""
        for config in (random_line(0), wide_line(1), Config()):
            with mock.patch.object(Config, "edition", 2):
                given = pack.line_bytes(config)
            (status, text, complaints), line = self.back(given)
            self.assertEqual((given[0], status, complaints), (2, 0, ""))
            self.assertEqual(text.splitlines()[1:], ["given.bin is of edition 2, and no card in it has a serial: what "
                                                     "check makes of these tables is of edition 1."])
            self.assertEqual(line, pack.line_bytes(config))

    def test_a_line_to_be_mended(self):
        """One that is refused by 5 comes back with its serials."""
        (self.visit / "cards.csv").write_text(cards(7, 8, 9), encoding="utf-8")
        self.edit("objects.csv", "Diverter wiring,hard-wired", "Diverter wiring,data")
        plan("check", "examples/visit")
        (self.visit / "session.bin").unlink()
        status, _, complaints = plan("import", "examples/visit/line.bin", "back")
        self.assertEqual(status, 1)
        self.assertIn("refused by question 5", complaints)
        rows = Path("back/cards.csv").read_text(encoding="utf-8").splitlines()
        self.assertEqual([row.split(",")[2] for row in rows], ["serial", "7", "8", "9"])


class Kept(InFolder):
    """Where tables are written the column stays."""

    def setUp(self):
        super().setUp()
        shutil.copytree(ROOT / TODAY, TODAY)
        for folder in (self.visit, TODAY):
            (folder / "cards.csv").write_text(cards("070000", "", 12), encoding="utf-8")

    def test_new_tables_have_it(self):
        self.assertEqual(plan("new", "monday")[0], 0)
        self.assertEqual(Path("monday/cards.csv").read_text(encoding="utf-8"), "card,hard-wired value,serial,note\n")

    def test_commands_that_write_tables(self):
        before = (TODAY / "cards.csv").read_bytes()
        self.assertEqual(plan("start", TODAY, TODAY / "state.bin", "--replace")[0], 0)
        self.assertEqual(plan("repair", TODAY, 4, "--write", 1)[0], 0)
        self.assertEqual(plan("check", TODAY)[0], 0)
        self.assertEqual((TODAY / "cards.csv").read_bytes(), before)
        self.assertEqual((TODAY / "line.bin").read_bytes()[0], 2)

    def test_a_state_of_the_line_before(self):
        """A plain area is of this line too; one that the example controller stored with the old line.bin is not."""
        area = (TODAY / "state.bin").read_bytes()
        plan("check", TODAY)
        for folder, status in ((ROOT / TODAY, 2), (TODAY, 0)):
            whole = MARK + digest((folder / "line.bin").read_bytes()) + area
            Path("stored").write_bytes(whole + digest(whole))
            ended, _, complaints = plan("start", TODAY, "stored", "--replace")
            self.assertEqual(ended, status)
            self.assertEqual("was stored with another line file" in complaints, status == 2)
        self.assertEqual(plan("start", TODAY, TODAY / "state.bin", "--replace")[0], 0)

    def test_sheets(self):
        """What goes into a workbook's sheets has the column, as numbers, and is read from there, without a library."""
        self.assertEqual(plan("check", TODAY)[0], 1)
        pages = pages_of(open_tables(TODAY, list(COLUMNS)))
        self.assertEqual([row[2] for row in pages["cards"].rows], ["serial", "070000", "", "12"])
        self.assertEqual([pages[name].numbers for name in ("cards", "partitions", "visit")], [(2,), (1,), ()])
        Path("book").mkdir()
        Path("book/plan.xlsx").write_bytes(b"")
        with mock.patch("planner.tables.read_book", return_value={name: page.rows for name, page in pages.items()}):
            self.assertEqual(plan("check", "book")[0], 1)
            pages["cards"].rows[1][2] = "x"
            said = f"plan: plan.xlsx, sheet cards, row 2, column serial: {BAD.format('x')}\n"
            self.assertEqual(plan("csv", "book"), (3, "", said))
        self.assertEqual(Path("book/line.bin").read_bytes(), (TODAY / "line.bin").read_bytes())

    @needs_libraries
    def test_workbooks(self):
        """Serials are numbers there, and stay whatever is written into the workbook; so does the line."""
        self.assertEqual(plan("check", TODAY)[0], 1)
        expected = (TODAY / "line.bin").read_bytes()
        for suffix in SUFFIXES:
            path = Path(f"book{suffix}/plan{suffix}")
            self.assertEqual(plan("workbook", TODAY, path)[0], 0)
            self.assertEqual(plan("start", path.parent, TODAY / "state.bin", "--replace")[0], 0)
            self.assertEqual(plan("repair", path.parent, 4, "--write", 1)[0], 0)
            cells = [row[2:] for row in workbook.read_book(path)["cards"]]
            self.assertEqual(cells, [["serial"], ["70000"], [], ["12"]])
            self.assertEqual(plan("check", path.parent)[0], 0)
            self.assertEqual((path.parent / "line.bin").read_bytes(), expected)
            self.assertEqual(plan("import", path, f"back{suffix}")[0], 0)
            self.assertEqual(plan("check", f"back{suffix}")[0], 0)
            self.assertEqual(Path(f"back{suffix}/line.bin").read_bytes(), expected)


if __name__ == "__main__":
    unittest.main()
