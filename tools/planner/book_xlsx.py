"""`.xlsx` workbooks by openpyxl."""
import datetime
import io

import openpyxl
from openpyxl.styles import Alignment, Font, PatternFill
from openpyxl.utils import get_column_letter
from openpyxl.worksheet.datavalidation import DataValidation

from .workbook import BAD, GOOD, LISTS, text_of

FILLS = {GOOD: PatternFill("solid", fgColor="FFC6EFCE"), BAD: PatternFill("solid", fgColor="FFFFC7CE")}
INKS = {GOOD: Font(color="FF0B5A1E"), BAD: Font(color="FF9C0006", bold=True)}
AS_TEXT = "@"
NO_TIME = datetime.datetime(1980, 1, 1)
SPARE, WIDEST = 200, 60


def read(path):
    """The sheets: names and rows of texts, values in the place of formulas."""
    book = openpyxl.load_workbook(path, data_only=True)
    try:
        for sheet in book.worksheets:
            yield sheet.title, [[text_of(value) for value in row] for row in sheet.iter_rows(values_only=True)]
    finally:
        book.close()


def made(pages, lists):
    """The bytes of a workbook with these sheets, and a hidden one with the lists to choose from."""
    book = openpyxl.Workbook()
    book.remove(book.active)
    book.properties.created = book.properties.modified = NO_TIME
    book.properties.creator = ""
    for name, page in pages.items():
        put_page(book.create_sheet(name), page, lists)
    hidden = book.create_sheet(LISTS)
    hidden.sheet_state = "hidden"
    for column, (name, words) in enumerate(lists.items(), 1):
        for row, word in enumerate([name, *words], 1):
            put_text(hidden.cell(row, column), word)
    out = io.BytesIO()
    book.save(out)
    return out.getvalue()


def put_text(cell, text):
    """A text that is no formula, whatever it begins with."""
    cell.value, cell.number_format = text, AS_TEXT
    if text:
        cell.data_type = "s"


def put_page(sheet, page, lists):
    for number, row in enumerate(page.rows, 1):
        for column, text in enumerate(row):
            cell = sheet.cell(number, column + 1)
            if number > 1 and column in page.numbers and text.isdigit():
                cell.value = int(text)
            else:
                put_text(cell, text)
            cell.alignment = Alignment(wrap_text=True, vertical="top")
            mark = page.marks.get((number, column))
            if mark:
                cell.fill, cell.font = FILLS[mark], INKS[mark]
            elif number == 1:
                cell.font = Font(bold=True)
    sheet.freeze_panes = "A2"
    for column in range(len(page.rows[0])):
        longest = max(len(row[column]) if column < len(row) else 0 for row in page.rows)
        sheet.column_dimensions[get_column_letter(column + 1)].width = min(max(longest + 3, 12), WIDEST)
    put_choices(sheet, page, lists)


def put_choices(sheet, page, lists):
    """Lists to choose from, also in the rows to come; what is not in a list may be typed all the same."""
    for column, name in page.choices.items():
        place, letter = list(lists).index(name) + 1, get_column_letter(column + 1)
        words = get_column_letter(place)
        rule = DataValidation("list", formula1=f"={LISTS}!${words}$2:${words}${max(len(lists[name]) + 1, 2)}",
                              allow_blank=True, showErrorMessage=False)
        rule.add(f"{letter}2:{letter}{len(page.rows) + SPARE}")
        sheet.add_data_validation(rule)
