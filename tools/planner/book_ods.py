"""`.ods` workbooks by odfpy."""
import io

from odf import teletype
from odf.namespaces import OFFICENS, TABLENS
from odf.opendocument import OpenDocumentSpreadsheet, load
from odf.style import Style, TableCellProperties, TableColumnProperties, TableProperties, TextProperties
from odf.table import (ContentValidation, ContentValidations, Table, TableCell, TableColumn,
                       TableHeaderRows, TableRow, TableRows)
from odf.text import P

from .workbook import BAD, GOOD, LISTS, text_of

COLOURS = {GOOD: ("#c6efce", "#0b5a1e"), BAD: ("#ffc7ce", "#9c0006")}
SPARE, MOST_REPEATED = 200, 2000
HEAD = "heading"


def read(path):
    """The sheets: names and rows of texts."""
    document = load(str(path))
    return [(table.getAttrNS(TABLENS, "name"), list(rows_of(table)))
            for table in document.spreadsheet.childNodes if table.qname == (TABLENS, "table")]


def rows_of(table):
    """The rows; one that is repeated only to fill the sheet is empty, and is cut off by whoever takes the texts."""
    for node in table.childNodes:
        if node.qname in ((TABLENS, "table-header-rows"), (TABLENS, "table-rows"), (TABLENS, "table-row-group")):
            yield from rows_of(node)
        elif node.qname == (TABLENS, "table-row"):
            cells = list(cells_of(node))
            times = int(node.getAttrNS(TABLENS, "number-rows-repeated") or 1)
            yield from [cells] * min(times, MOST_REPEATED)


def cells_of(row):
    for node in row.childNodes:
        if node.qname in ((TABLENS, "table-cell"), (TABLENS, "covered-table-cell")):
            times = int(node.getAttrNS(TABLENS, "number-columns-repeated") or 1)
            yield from [cell_text(node)] * min(times, MOST_REPEATED)


def cell_text(node):
    """A number as it is and not as it is shown; of texts every paragraph."""
    if node.getAttrNS(OFFICENS, "value-type") == "float":
        return text_of(float(node.getAttrNS(OFFICENS, "value")))
    return "\n".join(teletype.extractText(part) for part in node.getElementsByType(P))


def made(pages, lists):
    """The bytes of a workbook with these sheets, and a hidden one with the lists to choose from."""
    document = OpenDocumentSpreadsheet()
    styles = make_styles(document)
    rules = ContentValidations()
    document.spreadsheet.addElement(rules)
    for place, (name, words) in enumerate(lists.items()):
        column, last = chr(ord("A") + place), max(len(words) + 1, 2)
        rules.addElement(ContentValidation(
            name=rule_name(name), allowemptycell="true", displaylist="unsorted",
            condition=f"of:cell-content-is-in-list([${LISTS}.${column}$2:.${column}${last}])"))
    for name, page in pages.items():
        document.spreadsheet.addElement(page_table(name, page, styles))
    longest = max(map(len, lists.values()), default=0)
    rows = [list(lists)] + [[words[at] if at < len(words) else "" for words in lists.values()] for at in range(longest)]
    hidden = Table(name=LISTS, stylename=styles["hidden"])
    for row in rows:
        hidden.addElement(table_row([(text, None, None, False) for text in row]))
    document.spreadsheet.addElement(hidden)
    out = io.BytesIO()
    document.write(out)
    return out.getvalue()


def rule_name(name):
    return f"list-{name.replace(' ', '-')}"


def make_styles(document):
    """Styles by name: the heading, both colours, wide columns, a hidden sheet."""
    styles = {HEAD: Style(name="heading", family="table-cell")}
    styles[HEAD].addElement(TextProperties(fontweight="bold"))
    for mark, (fill, ink) in COLOURS.items():
        styles[mark] = Style(name=mark, family="table-cell")
        styles[mark].addElement(TableCellProperties(backgroundcolor=fill, wrapoption="wrap"))
        styles[mark].addElement(TextProperties(color=ink, fontweight="bold" if mark == BAD else "normal"))
    for name, width in (("narrow", "4cm"), ("wide", "9cm")):
        styles[name] = Style(name=name, family="table-column")
        styles[name].addElement(TableColumnProperties(columnwidth=width))
    styles["hidden"] = Style(name="hidden", family="table")
    styles["hidden"].addElement(TableProperties(display="false"))
    for style in styles.values():
        document.automaticstyles.addElement(style)
    return styles


def page_table(name, page, styles):
    table = Table(name=name)
    width = max(map(len, page.rows))
    for column in range(width):
        long = any(len(row[column]) > 24 for row in page.rows if column < len(row))
        table.addElement(TableColumn(stylename=styles["wide" if long else "narrow"]))
    head, body = TableHeaderRows(), TableRows()
    for number, row in enumerate(page.rows, 1):
        cells = [(text, styles.get(page.marks.get((number, column), HEAD if number == 1 else None)),
                  page.choices.get(column) if number > 1 else None, number > 1 and column in page.numbers)
                 for column, text in enumerate(row + [""] * (width - len(row)))]
        (head if number == 1 else body).addElement(table_row(cells))
    spare = table_row([("", None, page.choices.get(column), False) for column in range(width)])
    spare.setAttribute("numberrowsrepeated", SPARE)
    body.addElement(spare)
    table.addElement(head)
    table.addElement(body)
    return table


def table_row(cells):
    """A row of cells: text, style, the list to choose from, and whether it is a number."""
    row = TableRow()
    for text, style, choice, number in cells:
        details = {"stylename": style} if style else {}
        if choice:
            details["contentvalidationname"] = rule_name(choice)
        if number and text.isdigit():
            details.update(valuetype="float", value=text)
        elif text:
            details["valuetype"] = "string"
        cell = TableCell(**details)
        for part in text.split("\n") if text else ():
            paragraph = P()
            teletype.addTextToElement(paragraph, part)
            cell.addElement(paragraph)
        row.addElement(cell)
    return row
