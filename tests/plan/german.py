"""A plan with German names in 39 objects and 35 moves, put down as spreadsheets of several countries save tables."""
import codecs
import csv
import io
import unicodedata

CARDS = ["Prüfwaage", "Weichenstellgerät", "Etikettendrucker Süd", "Lesegerät Größe L", "Förderband Zubringer"]
SERIALS = ["70000", "", "2097151", "0", "128"]
DRIVERS = ["Bandsteuerung Übergabe", "Wartungsgerät Müller"]


def objects():
    """Seven objects of each card, two external ones and one of each driver: 39."""
    for card in CARDS:
        yield f"{card}: Verdrahtung", "hard-wired", card, ""
        for part, kind in (("Ring", "transfer"), ("Auftrag", "transfer"), ("Stellung", "function"),
                           ("Zähler", "data"), ("Meßwert", "data"), ("Störung", "data")):
            yield f"{card}: {part}", kind, card, ""
    for driver in DRIVERS:
        yield f"{driver}: Liste", "data", driver, "läuft über Nacht"
    for name in ("Paketzähler", "Barcodeliste Ä–Ö"):
        yield name, "data", "external", ""


def values():
    for card in CARDS:
        yield f"{card} Anlauf", f"{card}: Ring", "read", "", ""
        yield f"{card} Betrieb", f"{card}: Zähler", "both", "", ""
        yield f"{card} Betrieb", f"{card}: Auftrag", "write", f"{card} Anlauf", ""


def moves():
    """The line is brought up, runs, is written to, and is taken down again: 35 moves, one of them refused by 16."""
    hall, bench = "Halle Süd", "Prüfplatz"
    yield from (("create", "", where, "", "") for where in (hall, bench))
    yield from (("activate", who, hall, "", "") for who in DRIVERS[:1] + CARDS)
    yield "activate", DRIVERS[1], bench, "", "Gerät von Müller"
    yield "activate", "", hall, "Paketzähler; Barcodeliste Ä–Ö", ""
    yield "activate", CARDS[0], hall, "", "ist schon da"
    for card in CARDS:
        yield "write", DRIVERS[0], "", f"{card}: Ring = {card} Betrieb", ""
        yield "write", DRIVERS[0], "", f"{card}: Meßwert = text Größe  Ü ß", ""
        yield "write", DRIVERS[0], "", f"{card}: Ring = cleared", ""
    yield from (("deactivate", who, "", "", "") for who in CARDS + DRIVERS)
    yield "deactivate", "", hall, "Paketzähler; Barcodeliste Ä–Ö", ""
    yield "destroy", "", bench, "", ""


def tables():
    """The rows of every table with their heading; a further column has commas in its heading."""
    note = "Bemerkung (wer, wann, warum)"
    return {
        "partitions.csv": [("partition", "number", note), ("Halle Süd", "1", ""), ("Prüfplatz", "2", "")],
        "drivers.csv": [("driver", note)] + [(driver, "") for driver in DRIVERS],
        "cards.csv": [("card", "hard-wired value", note)] + [(card, f"{card} Anlauf", "") for card in CARDS],
        "objects.csv": [("object", "kind", "owner", note), *objects()],
        "values.csv": [("value", "object", "mode", "put", note), *values()],
        "visit.csv": [("operation", "who", "where", "what", note), *moves()],
    }


# How it is saved: encoding, byte order mark, separator, line end, first line, and the form of the letters.
FORMS = {
    "Excel, Germany": ("utf-8", codecs.BOM_UTF8, ";", "\r\n", "", "NFC"),
    "Excel, United States": ("utf-8", codecs.BOM_UTF8, ",", "\r\n", "", "NFC"),
    "Excel, Unicode text": ("utf-16-le", codecs.BOM_UTF16_LE, "\t", "\r\n", "", "NFC"),
    "UTF-16, large bytes first": ("utf-16-be", codecs.BOM_UTF16_BE, ";", "\n", "", "NFC"),
    "with its separator named": ("utf-8", b"", ";", "\r\n", "sep=;\r\n", "NFC"),
    "named in UTF-16": ("utf-16-le", codecs.BOM_UTF16_LE, ",", "\r\n", "SEP=,\r\n", "NFC"),
    "Calc": ("utf-8", b"", ",", "\n", "", "NFC"),
    "letters taken apart": ("utf-8", b"", ";", "\n", "", "NFD"),
    "old line ends": ("utf-8", b"", ";", "\r", "", "NFC"),
}


def saved(rows, form):
    """The bytes of a table in a form."""
    encoding, mark, separator, end, first, letters = form
    out = io.StringIO(newline="")
    csv.writer(out, delimiter=separator, lineterminator=end).writerows(rows)
    return mark + unicodedata.normalize(letters, first + out.getvalue()).encode(encoding)


def save(folder, form, only=None):
    """All tables, or the named ones, in a form."""
    folder.mkdir(exist_ok=True)
    for name, rows in tables().items():
        if only is None or name in only:
            (folder / name).write_bytes(saved(rows, FORMS[form]))


def save_serials(folder, form):
    """The table of the cards again, with their serials in a column behind the notes."""
    rows = zip(tables()["cards.csv"], ["Serial", *SERIALS], strict=True)
    (folder / "cards.csv").write_bytes(saved([(*row, serial) for row, serial in rows], FORMS[form]))
