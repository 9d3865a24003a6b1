"""Tables as spreadsheets of several countries save them are one plan: same files, same answers; and what is none."""
import codecs
import csv
import io
import unittest
import xml.dom.minidom
from pathlib import Path

import german
from common import InFolder, plan
from planner import sheet
from planner.report import WIDTH, wrap
from planner.visit import raw_words

MADE = ("line.bin", "session.bin")


class Forms(InFolder):
    def setUp(self):
        super().setUp()
        self.folder = Path("plan")
        german.save(self.folder, "Calc")
        self.status, self.text, _ = plan("check", "plan")
        self.files = [(self.folder / name).read_bytes() for name in MADE]

    def test_the_plan_is_what_it_is_meant_to_be(self):
        self.assertEqual(self.status, 1)
        self.assertIn("Line: 2 drivers, 5 cards, 39 objects, 10 values;", self.text)
        self.assertIn("35 moves: 34 accepted, 1 refused (row 12).", self.text)
        self.assertIn("row 14 (move 13)  accepted    driver Bandsteuerung Übergabe writes Prüfwaage: Meßwert = "
                      "text Größe  Ü ß\n", self.text)
        self.assertIn("Größe  Ü ß".encode().ljust(16, b"\0"), self.files[1])

    def test_every_form_is_the_same_plan(self):
        for name in german.FORMS:
            with self.subTest(name):
                german.save(self.folder, name)
                self.assertEqual(plan("check", "plan"), (1, self.text, ""))
                self.assertEqual([(self.folder / one).read_bytes() for one in MADE], self.files)

    def test_letters_typed_in_two_ways_are_one_name(self):
        for only in (["visit.csv"], ["objects.csv"], ["cards.csv", "values.csv"]):
            with self.subTest(only):
                german.save(self.folder, "Calc")
                german.save(self.folder, "letters taken apart", only)
                self.assertEqual(plan("check", "plan"), (1, self.text, ""))
        german.save(self.folder, "Calc")
        cards = self.folder / "cards.csv"
        cards.write_bytes(cards.read_bytes() + "PRU\u0308FWAAGE,cleared,\n".encode())
        self.assertIn("cards.csv, row 7, column card: 'PRÜFWAAGE' stands twice: here and in cards.csv, row 2 "
                      "('Prüfwaage')", plan("check", "plan")[2])

    def test_answers_have_the_form_of_the_visit(self):
        for name, form in german.FORMS.items():
            with self.subTest(name):
                encoding, mark, separator, end, first, _ = form
                german.save(self.folder, name)
                self.assertEqual(plan("csv", "plan")[0], 0)
                data = (self.folder / "answers.csv").read_bytes()
                text = data.removeprefix(mark).decode(encoding)
                self.assertTrue(data.startswith(mark))
                self.assertFalse(text.startswith("\ufeff"))
                self.assertEqual(text.lower().startswith("sep="), bool(first))
                self.assertEqual(text.count(end), text.count(end[0]))
                body = text[len(first):]
                rows = list(csv.reader(io.StringIO(body, newline=""), delimiter=separator))
                self.assertEqual(len(rows), 36)
                self.beside_the_answer(rows, form)
                if end != "\n":
                    self.assertNotIn("\n", text.replace(end, ""))

    def beside_the_answer(self, rows, form):
        """Each row has the cells of its move as they stand in visit.csv, and its answer behind them."""
        written = german.saved(list(german.moves()), ("utf-8", b"", ";", "\n", "", form[-1])).decode()
        moves = csv.reader(io.StringIO(written), delimiter=";")
        for number, (row, cells) in enumerate(zip(rows[1:], moves, strict=True), 1):
            self.assertEqual(row[:6], [str(number + 1), str(number), *cells[:4]])
            self.assertEqual(row[6:8], ["16", "refused"] if number == 11 else ["0", "accepted"])

    def test_pictures_can_be_drawn(self):
        self.assertEqual(plan("picture", "plan", 14)[0], 0)
        text = (self.folder / "picture-row-14.svg").read_text(encoding="utf-8")
        xml.dom.minidom.parseString(text)
        self.assertEqual(text.count("text Größe\u00a0\u00a0Ü ß</text>"), 2, "in the heading and beside the object")
        self.assertNotIn("Größe  Ü", text)


class NoTables(InFolder):
    def complaint(self, name, data):
        """What is said of a table with these bytes."""
        (self.visit / name).write_bytes(data)
        status, text, complaints = plan("check", "examples/visit")
        self.assertEqual((status, text), (3, ""), complaints)
        return complaints

    def test_no_separator_fits(self):
        said = self.complaint("drivers.csv", b"driver|note\nSorting control|\n")
        self.assertEqual(said, "plan: drivers.csv, row 1, column driver: is missing; the heading must have: driver "
                               "(tried between the columns: comma, semicolon, tab)\n")
        said = self.complaint("cards.csv", b"card;hard-wired;a,b,c,d\nScale;;\n")
        self.assertIn("cards.csv, row 1, column hard-wired value: is missing; the heading must have: card, "
                      "hard-wired value (tried", said)

    def test_a_separator_that_is_named_wrongly(self):
        expected = plan("check", "examples/visit")
        drivers = (self.visit / "drivers.csv").read_bytes()
        for first in (b"sep=;\n", b"sep=|\n", b'"sep=,"\r\n'):
            (self.visit / "drivers.csv").write_bytes(first + drivers)
            self.assertEqual(plan("check", "examples/visit"), expected, first)

    def test_a_heading_of_one_column(self):
        for rows in ("Sorting control\nService laptop\n", "Sorting control,\n\"Service laptop\"\n"):
            (self.visit / "drivers.csv").write_text("driver\n" + rows, encoding="utf-8")
            self.assertEqual(plan("check", "examples/visit")[0], 1)
        said = self.complaint("drivers.csv", b"driver\nSorting control\nService laptop, second\n")
        self.assertEqual(said, "plan: drivers.csv, row 3: has more cells than the heading; give the heading a second "
                               "column\n")

    def test_rows_are_those_that_a_spreadsheet_shows(self):
        """A line that names the separator is no row of it."""
        said = self.complaint("drivers.csv", b"sep=,\r\ndriver,note\r\nSorting control,\r\n#2,\r\n")
        self.assertIn("drivers.csv, row 3, column driver: '#2' begins", said)
        said = self.complaint("drivers.csv", b"sep=,\r\ndriver,note\r\nSorting control,\r\nl\xe4ptop,\r\n")
        self.assertIn("drivers.csv, row 3: has a letter that is not UTF-8", said)
        said = self.complaint("drivers.csv", b'driver,note\nSorting control,\n"Service" laptop,\n')
        self.assertIn("drivers.csv, row 3: cannot be read as a table: ", said)

    def test_sixteen_bits_that_are_no_text(self):
        said = self.complaint("drivers.csv", "driver,note\n".encode("utf-16-le"))
        self.assertIn("drivers.csv: has bytes that no text has", said)
        half = codecs.BOM_UTF16_LE + "driver,note\nA,\n".encode("utf-16-le") + b"\x00\xdc"
        said = self.complaint("drivers.csv", half)
        self.assertIn("drivers.csv, row 3: has a letter that is not UTF-16", said)

    def test_characters_that_cannot_be_seen(self):
        for char, name in (("\x1b", "a control character (U+001B)"), ("\x07", "a control character (U+0007)"),
                           ("\x1c", "a control character (U+001C)"), ("\x85", "a control character (U+0085)"),
                           ("\u200b", "zero width space (U+200B)"), ("\u202e", "right-to-left override (U+202E)"),
                           ("\u2028", "line separator (U+2028)"), ("\ufeff", "zero width no-break space (U+FEFF)")):
            with self.subTest(name):
                text = f"driver,note\nSorting control,{char}\nService{char} laptop,\n"
                said = self.complaint("drivers.csv", text.encode())
                self.assertEqual(said, "plan: drivers.csv, row 3, column driver: has a character in it that cannot be "
                                       f"seen: {name}; type the cell anew\n")

    def test_blanks_of_every_kind_are_blanks_in_names(self):
        expected = plan("check", "examples/visit")
        for blank in ("\u00a0", "\t", "\n", "\r\n", "\u2003"):
            text = f'driver,note\n"Sorting{blank}control",\nService laptop,\n'
            (self.visit / "drivers.csv").write_text(text, encoding="utf-8", newline="")
            self.assertEqual(plan("check", "examples/visit"), expected, repr(blank))


TEXTS = [
    ("text A   B", b"A   B", "text A   B"),
    ("TEXT    A  B  ", b"A  B", "text A  B"),
    ("text Größe", "Größe".encode(), "text Größe"),
    ("text u\u0308", "ü".encode(), "text ü"),
    ("text 日本", "日本".encode(), "text 日本"),
    ("text A=B -> C", b"A=B -> C", "text A=B -> C"),
    ("bytes 20 41", b" A", "bytes 20 41"),
    ("bytes 4120", b"A ", "bytes 41 20"),
    ("bytes 41 3b 42", b"A;B", "bytes 41 3b 42"),
    ("bytes c3", b"\xc3", "bytes c3"),
    ("bytes 75cc88", b"u\xcc\x88", "bytes 75 cc 88"),
    ("bytes 1b 5b", b"\x1b[", "bytes 1b 5b"),
    ("bytes 41 00 42", b"A\0B", "bytes 41 00 42"),
    ("text A\u00a0B", "A\u00a0B".encode(), "bytes 41 c2 a0 42"),
]


class Contents(InFolder):
    def test_what_is_written_and_shown(self):
        before = (self.visit / "visit.csv").read_text(encoding="utf-8")
        for cell, raw, shown in TEXTS:
            with self.subTest(cell):
                changed = before.replace("Lane table = text HEAVY TO 8;", f"Lane table = {cell};", 1)
                (self.visit / "visit.csv").write_text(changed, encoding="utf-8")
                text = plan("check", "examples/visit")[1]
                self.assertIn(f"Lane table = {shown};", " ".join(text.split("\n")))
                self.assertIn(raw.ljust(16, b"\0"), (self.visit / "session.bin").read_bytes())

    def test_every_content_comes_back_from_its_words(self):
        """The words of sixteen bytes, put into a table, give the same bytes."""
        for place, (_, raw, _) in enumerate(TEXTS):
            words = raw_words(raw.ljust(16, b"\0"))
            self.edit("visit.csv", "Lane table = text HEAVY TO 8;" if not place else f"Lane table = {last};",
                      f"Lane table = {words};")
            last = words
            plan("check", "examples/visit")
            self.assertIn(raw.ljust(16, b"\0"), (self.visit / "session.bin").read_bytes(), words)

    def test_a_line_is_not_broken_between_blanks(self):
        for length in range(1, 2 * WIDTH):
            lines = wrap(" ".join("x" * length) + " = text A   B   C", "row 1: ", "    ")
            self.assertEqual(sum("A   B   C" in line for line in lines), 1, lines)
            self.assertLessEqual(max(map(len, lines)), WIDTH)


class Form(unittest.TestCase):
    def test_a_table_in_each_form_is_read_back(self):
        rows = [["a", "b;,\t"], ["ü", 'say "x"'], ["", "two\nlines"]]
        for mark, encoding in ((b"", "utf-8"), *sheet.MARKS.items()):
            for separator in sheet.SEPARATORS:
                for named in (True, False):
                    form = sheet.Form(encoding, mark, separator, "\r\n", named)
                    text, found = sheet.decode(sheet.encode(rows, form))
                    self.assertEqual(sheet.split(text, found, lambda heading: heading != rows[0]), (rows, form))


if __name__ == "__main__":
    unittest.main()
