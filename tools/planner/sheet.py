"""How spreadsheets save a table: letters, byte order mark, separator, line ends; and a table saved in the same form."""
import codecs
import csv
import io
import re
from dataclasses import dataclass, replace

SEPARATORS = {",": "comma", ";": "semicolon", "\t": "tab"}
MARKS = {codecs.BOM_UTF8: "utf-8", codecs.BOM_UTF16_LE: "utf-16-le", codecs.BOM_UTF16_BE: "utf-16-be"}
NAMED = re.compile(r'"?sep=(.)"?(?:\r\n|\r|\n|$)', re.IGNORECASE)
LINE_ENDS = ("\r\n", "\n", "\r")


class SheetError(Exception):
    """A file that is no table; the row is that of the spreadsheet, or None."""

    def __init__(self, row, message):
        super().__init__(message)
        self.row = row


@dataclass(frozen=True)
class Form:
    """How a table was saved. `named` is whether a first line `sep=` names the separator, as some spreadsheets do."""
    encoding: str = "utf-8"
    mark: bytes = b""
    separator: str = ","
    line_end: str = "\n"
    named: bool = False


def decode(data):
    """The text of a file, without its byte order mark and its line `sep=`, and the form that it is in so far."""
    mark = next((mark for mark in MARKS if data.startswith(mark)), b"")
    encoding, body = MARKS.get(mark, "utf-8"), data[len(mark):]
    if encoding == "utf-8" and b"\0" in body:
        raise SheetError(None, "has bytes that no text has (UTF-16 without its mark?); save the sheet as 'CSV UTF-8'")
    try:
        text = body.decode(encoding)
    except UnicodeDecodeError as fault:
        before = body[:fault.start].decode(encoding, "replace")
        row = before.count("\n") + 1 - bool(NAMED.match(before))
        name = "UTF-8" if encoding == "utf-8" else "UTF-16"
        raise SheetError(row, f"has a letter that is not {name}; save the sheet as 'CSV UTF-8'") from None
    line_end = next((end for end in LINE_ENDS if end in text), "\n")
    named = NAMED.match(text)
    form = Form(encoding, mark, named[1] if named else ",", line_end, bool(named))
    return text[named.end():] if named else text, form


def split(text, form, fits):
    """The rows of cells, and the form with the separator with which the heading fits.

    Each separator is tried. If none fits, the one that comes nearest is taken: `fits` counts what is missing.
    """
    first = text.splitlines()[0] if text else ""
    order = sorted(SEPARATORS, key=lambda one: (fits(heading(text, one)), one != form.separator, -first.count(one)))
    return cells(text, order[0]), replace(form, separator=order[0])


def reader(text, separator):
    return csv.reader(io.StringIO(text, newline=""), delimiter=separator, strict=True)


def heading(text, separator):
    """The first row as it is with a separator; nothing if it cannot be taken apart so."""
    try:
        return next(reader(text, separator), [])
    except csv.Error:
        return []


def cells(text, separator):
    rows = []
    try:
        for row in reader(text, separator):
            rows.append(row)
    except csv.Error as fault:
        raise SheetError(len(rows) + 1, f"cannot be read as a table: {fault}") from None
    return rows


def encode(rows, form):
    """The bytes of a table in a form; what a spreadsheet shows of it is what it shows of one that it saved itself."""
    out = io.StringIO(newline="")
    if form.named:
        out.write(f"sep={form.separator}{form.line_end}")
    csv.writer(out, delimiter=form.separator, lineterminator=form.line_end).writerows(rows)
    return form.mark + out.getvalue().encode(form.encoding)
