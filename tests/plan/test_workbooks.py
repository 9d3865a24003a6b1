"""Workbooks are the same plan as tables: read, written, saved again by a spreadsheet program, and what is none."""
import os
import shutil
import unittest
from pathlib import Path
from unittest import mock

import german
from common import ROOT, InFolder, plan
from libraries import missing
from planner import sheet, workbook
from planner.watch import changed, stamps

MADE = ("line.bin", "session.bin")
SUFFIXES = tuple(workbook.LIBRARIES)
SAVED = Path(__file__).resolve().parent / "workbooks"
ABSENT = missing()
needs_libraries = unittest.skipIf(ABSENT, f"no library for {', '.join(ABSENT)}")


class Books(InFolder):
    def setUp(self):
        super().setUp()
        german.save(Path("plan"), "Calc")
        self.expected = plan("check", "plan")
        self.files = [Path("plan", name).read_bytes() for name in MADE]
        shutil.copytree(ROOT / "examples" / "today", "today")

    def each(self):
        """A folder with the plan as a workbook, of each sort."""
        for suffix in SUFFIXES:
            folder = Path(f"book{suffix}")
            shutil.rmtree(folder, ignore_errors=True)
            self.assertEqual(plan("workbook", "plan", folder / f"plan{suffix}"), (
                0, f"Written: {folder}/plan{suffix}\n", ""))
            yield folder, folder / f"plan{suffix}"

    def today(self, suffix):
        """The plan of examples/today as a workbook."""
        shutil.rmtree("book", ignore_errors=True)
        self.assertEqual(plan("workbook", "today", f"book/plan{suffix}")[0], 0)
        return Path("book"), Path(f"book/plan{suffix}")

    def rewrite(self, path, sheet_name, change):
        """Changes the rows of a sheet, all others as they are."""
        pages = {name: workbook.Page([list(row) for row in rows]) for name, rows in workbook.read_book(path).items()}
        change(pages[sheet_name].rows)
        path.write_bytes(workbook.library(path.suffix, "write").made(pages, {}))


@needs_libraries
class Same(Books):
    def test_as_the_tables(self):
        for folder, _ in self.each():
            self.assertEqual(plan("check", folder), self.expected)
            self.assertEqual([(folder / name).read_bytes() for name in MADE], self.files)
            self.assertEqual(plan("csv", folder)[0], 0)

    def test_saved_again_by_a_spreadsheet_program(self):
        for suffix in SUFFIXES:
            with self.subTest(suffix):
                Path(f"saved{suffix}").mkdir()
                shutil.copy(SAVED / f"calc{suffix}", f"saved{suffix}/plan{suffix}")
                self.assertEqual(plan("check", f"saved{suffix}"), self.expected)
                self.assertEqual([Path(f"saved{suffix}", name).read_bytes() for name in MADE], self.files)

    def test_into_tables_again(self):
        for _, path in self.each():
            shutil.rmtree("back", ignore_errors=True)
            said = "partitions.csv, drivers.csv, cards.csv, objects.csv, values.csv, visit.csv"
            self.assertEqual(plan("import", path, "back"), (0, f"Made in back: {said}\n", ""))
            for name, rows in german.tables().items():
                cells = sheet.cells(Path("back", name).read_text(encoding="utf-8"), ",")
                self.assertEqual([cell for row in cells for cell in row], [cell for row in rows for cell in row], name)
            self.assertEqual(plan("import", path, "back")[0], 3)

    def test_with_a_bring_up(self):
        for suffix in SUFFIXES:
            folder, _ = self.today(suffix)
            self.assertEqual(plan("check", folder)[1].replace(" book", " today"), plan("check", "today")[1])

    def test_cells_of_every_sort(self):
        """A formula's sign, blanks side by side, two lines, a number with a point."""
        for folder, path in self.each():
            def change(rows):
                rows[1][4:] = ["=1+1", "a  b\nc", "007"]
                rows[0][4:] = ["own", "two", "three"]

            self.rewrite(path, "visit", change)
            self.assertEqual(workbook.read_book(path)["visit"][1][4:], ["=1+1", "a  b\nc", "007"])
            self.assertEqual(plan("check", folder)[0], 1)
        self.assertEqual([workbook.text_of(value) for value in (None, 2, 2.0, 2.5, "x")], ["", "2", "2", "2.5", "x"])


    def test_cells_and_rows_that_are_told_once(self):
        """Spreadsheet programs say of equal neighbours how many there are; rows keep their numbers."""
        ods = workbook.library(".ods", "write")
        from odf.opendocument import OpenDocumentSpreadsheet
        from odf.table import Table, TableCell, TableRow
        book, table = OpenDocumentSpreadsheet(), Table(name="Visit ")
        blank = TableRow(numberrowsrepeated=2)
        blank.addElement(TableCell(numbercolumnsrepeated=1024))
        last = TableRow()
        last.addElement(TableCell(numbercolumnsrepeated=3))
        last.addElement(ods.table_row([("x", None, None, False)]).firstChild)
        last.addElement(TableCell(numbercolumnsrepeated=1020))
        for row in (ods.table_row([("a", None, None, False)]), blank, last, TableRow(numberrowsrepeated=1048572)):
            table.addElement(row)
        book.spreadsheet.addElement(table)
        book.save("told.ods")
        self.assertEqual(workbook.read_book("told.ods"), {"visit": [["a"], [], [], ["", "", "", "x"]]})


@needs_libraries
class Written(Books):
    def test_answers_in_words_and_colour(self):
        for folder, path in self.each():
            rows = workbook.read_book(path)["visit"]
            self.assertEqual(rows[0][5:], ["answer", "failed on"])
            self.assertEqual([row[5] for row in rows[1:]], ["accepted"] * 10 + ["refused 16"] + ["accepted"] * 24)
            self.assertIn("is already active in Halle Süd", rows[11][6])
            self.assertEqual(self.colours(path), ["good"] * 10 + ["bad"] + ["good"] * 24)

    def colours(self, path):
        """The colours of the answers, as the file has them."""
        if path.suffix == ".xlsx":
            import openpyxl
            cells = [row[5] for row in openpyxl.load_workbook(path)["visit"].iter_rows(min_row=2)]
            return [{"FFC6EFCE": "good", "FFFFC7CE": "bad"}[cell.fill.fgColor.rgb] for cell in cells]
        from odf.opendocument import load
        from odf.table import Table, TableCell, TableRow
        table = next(one for one in load(str(path)).getElementsByType(Table) if one.getAttribute("name") == "visit")
        rows = [row.getElementsByType(TableCell) for row in table.getElementsByType(TableRow)][1:]
        return [cells[5].getAttribute("stylename") for cells in rows if cells[0].getAttribute("valuetype")]

    def test_lists_to_choose_from(self):
        for folder, path in self.each():
            words = workbook.read_book(path)["names"]
            self.assertEqual(words[0], ["kinds", "modes", "operations", "owners", "drivers and cards", "values",
                                        "objects", "partitions"])
            column = {name: [row[at] for row in words[1:] if at < len(row) and row[at]]
                      for at, name in enumerate(words[0])}
            self.assertEqual(column["owners"], german.DRIVERS + german.CARDS + ["external"])
            self.assertEqual(column["operations"], ["write", "read", "create", "create green", "destroy", "activate",
                                                    "deactivate", "lock", "unlock"])
            self.assertEqual(column["partitions"], ["Halle Süd", "Prüfplatz"])
            self.assertEqual(self.choices(path), {
                "visit": {"A": "C2:C10", "B": "E2:E8", "C": "H2:H3"}, "cards": {"B": "F2:F12"},
                "objects": {"B": "A2:A5", "C": "D2:D9"}, "values": {"B": "G2:G40", "C": "B2:B4", "D": "F2:F12"}})

    def choices(self, path):
        """Where there is a list, and which cells of the sheet of names it is, by sheet and column."""
        found = {}
        if path.suffix == ".xlsx":
            import openpyxl
            for page in openpyxl.load_workbook(path).worksheets:
                for rule in page.data_validations.dataValidation:
                    area = rule.formula1.removeprefix("=names!").replace("$", "")
                    found.setdefault(page.title, {})[str(rule.sqref)[0]] = area
                    self.assertFalse(rule.showErrorMessage)
            return found
        from odf.opendocument import load
        from odf.table import ContentValidation, Table, TableCell, TableRow
        book = load(str(path))
        rules = {rule.getAttribute("name"): rule.getAttribute("condition").split("names.")[1].strip("])")
                 .replace("$", "").replace(".", "") for rule in book.getElementsByType(ContentValidation)}
        for table in book.getElementsByType(Table):
            for row in table.getElementsByType(TableRow)[1:]:
                for at, cell in enumerate(row.getElementsByType(TableCell)):
                    if cell.getAttribute("contentvalidationname"):
                        area = rules[cell.getAttribute("contentvalidationname")]
                        found.setdefault(table.getAttribute("name"), {})["ABCD"[at]] = area
        return found

    def test_one_that_is_there_is_replaced_only_if_said(self):
        for folder, path in self.each():
            before = path.read_bytes()
            self.assertEqual(plan("workbook", folder, path), (
                2, "", f"plan: {path} is already there; nothing was changed (--replace does it)\n"))
            self.assertEqual(path.read_bytes(), before)
            kept = path.with_name(f"plan.before{path.suffix}")
            self.assertEqual(plan("workbook", folder, path, "--replace"), (
                0, f"Written: {path}\nAs it was: {kept}\n", ""))
            self.assertEqual(kept.read_bytes(), before)
            self.assertEqual(workbook.read_book(path)["visit"][0][4:], ["Bemerkung (wer, wann, warum)", "answer",
                                                                       "failed on"])

    def test_one_that_is_open_elsewhere(self):
        for folder, path in self.each():
            for lock in (f".~lock.{path.name}#", f"~${path.name}"):
                (folder / lock).write_text("", encoding="utf-8")
                self.assertEqual(plan("workbook", folder, path, "--replace"), (
                    2, "", f"plan: {path.name} is open in a spreadsheet program ({lock}): close it there first\n"))
                (folder / lock).unlink()

    def test_repairs_and_bring_ups_go_into_it(self):
        for suffix in SUFFIXES:
            folder, path = self.today(suffix)
            before = path.read_bytes()
            self.assertEqual(plan("repair", folder, 4, "--write", 1), (
                0, f"Written: {path}: row 7 first, above row 4\nAs it was: book/plan.before{suffix}\n", ""))
            self.assertEqual(Path(f"book/plan.before{suffix}").read_bytes(), before)
            self.assertEqual(workbook.read_book(path)["visit"][0], ["operation", "who", "where", "what", "note"])
            self.assertEqual(plan("check", folder)[0], 0)
            said = f"plan: {path}, sheet bringup: is already there; nothing was changed (--replace does it)\n"
            self.assertEqual(plan("start", folder, "today/state.bin"), (3, "", said))
            self.rewrite(path, "bringup", lambda rows: rows.pop())
            said = f"Made: {path}, sheet bringup, 7 moves: 7 accepted, 0 refused.\n"
            self.assertTrue(plan("start", folder, "today/state.bin", "--replace")[1].startswith(said))
            self.assertEqual(plan("check", folder)[0], 0)
            self.assertEqual([one.name for one in folder.glob("*.csv")], [])

    def test_a_refused_line_is_written_without_answers(self):
        self.edit("objects.csv", "Diverter wiring,hard-wired", "Diverter wiring,data")
        status, text, _ = plan("workbook", self.visit, "book.xlsx")
        self.assertEqual(status, 1)
        self.assertIn("The line is refused by question 5", text)
        self.assertNotIn("answer", workbook.read_book(Path("book.xlsx"))["visit"][0])


@needs_libraries
class Faults(Books):
    def test_places_have_the_sheet(self):
        for folder, path in self.each():
            self.rewrite(path, "visit", lambda rows: rows[3].__setitem__(1, "Bandsteuerung"))
            status, text, said = plan("check", folder)
            self.assertEqual((status, text), (3, ""))
            self.assertIn(f"plan: plan{path.suffix}, sheet visit, row 4, column who: there is no driver or card called "
                          "'Bandsteuerung'", said)
            self.assertEqual([one.name for one in folder.iterdir()], [path.name])

    def test_a_sheet_that_is_not_there(self):
        for folder, path in self.each():
            self.rewrite(path, "visit", lambda rows: rows[0].__setitem__(0, "x"))
            said = plan("check", folder)[2]
            self.assertIn(f"plan{path.suffix}, sheet visit, row 1, column operation: is missing", said)
            pages = {"cards": workbook.Page([["card"]])}
            path.write_bytes(workbook.library(path.suffix, "write").made(pages, {}))
            self.assertIn(f"plan: plan{path.suffix}, sheet drivers: is not there\n", plan("check", folder)[2])
            self.assertEqual(plan("import", path, "back")[2], f"plan: plan{path.suffix}, sheet drivers: is not there\n")

    def test_two_plans_in_one_folder(self):
        for folder, path in self.each():
            shutil.copy("plan/visit.csv", folder)
            said = f"plan: {folder} has both plan{path.suffix} and visit.csv: keep the one that is the plan\n"
            self.assertEqual(plan("check", folder), (2, "", said))
            self.assertEqual(plan("new", folder)[0], 3)
        shutil.copy("book.ods/plan.ods", "book.xlsx")
        Path("book.xlsx/visit.csv").unlink()
        self.assertIn("has both plan.xlsx and plan.ods", plan("check", "book.xlsx")[2])

    def test_what_is_no_workbook(self):
        for folder, path in self.each():
            for data in (b"", b"nothing", path.read_bytes()[:3000]):
                path.write_bytes(data)
                status, text, said = plan("check", folder)
                self.assertEqual((status, text), (2, ""))
                self.assertIn(f"plan: plan{path.suffix} cannot be read as a workbook", said)
        self.assertEqual(plan("workbook", "plan", "plan.xls"), (
            2, "", "plan: plan.xls: a workbook is called .xlsx or .ods\n"))

    def test_a_save_is_seen(self):
        for folder, path in self.each():
            before = stamps(folder)
            os.utime(path, ns=(1, 1))
            self.assertEqual(changed(before, stamps(folder)), [path.name])


class NoLibrary(Books):
    def test_how_to_get_it_is_said(self):
        """And tables work as before."""
        Path("book").mkdir()
        for suffix, (needed, package, pip) in workbook.LIBRARIES.items():
            shutil.copy(SAVED / f"calc{suffix}", f"book/plan{suffix}")

            def absent(name, *rest):
                raise ImportError(name)

            workbook.read_once.cache_clear()
            with mock.patch("planner.workbook.importlib.import_module", absent):
                for words, doing in ((("check", "book"), "read"), (("workbook", "plan", f"new{suffix}"), "write"),
                                     (("import", f"book/plan{suffix}", "back"), "read")):
                    self.assertEqual(plan(*words), (2, "", (
                        f"plan: to {doing} {suffix} files Python's library {pip} is needed, and is not installed: "
                        f"'sudo apt-get install {package}' or 'pip install {pip}' gets it; tables saved as CSV need "
                        "nothing\n")), needed)
                self.assertEqual(plan("check", "plan"), self.expected)
            Path(f"book/plan{suffix}").unlink()


if __name__ == "__main__":
    unittest.main()
