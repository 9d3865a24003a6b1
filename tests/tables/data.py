"""The tables as they stand in tables/*.ini, with numbers filled into the texts, and the examples of the questions."""
import configparser
import importlib.util
import pathlib

ROOT = pathlib.Path(__file__).resolve().parents[2]
GROUPS = ("line", "areas", "record", "operation")
QUESTION_KEYS = {"group", "constant", "asked", "asks", "means", "definition", "header", "rust", "plan", "machine",
                 "remedy"}
CODE_KEYS = {"does", "who", "fields", "manual", "plan"}
# What a code may have besides.
CODE_SORT = "sort"
# The planner's wording of a question for what is in a green zone.
GREEN = "green"
NUMBER_KEYS = {"is", "rattle", "model", "reference", "sum", "header", "rust", "says", "python", "plan"}
KIND_KEYS = {"is", "model", "case", "number", "area"}


class Fault(Exception):
    """Something differs; the text says what, and where."""


def read(name):
    """The sections of a table, each with its keys; a value that goes on in further lines is one line."""
    parser = configparser.ConfigParser(interpolation=None, delimiters=("=",), comment_prefixes=("#",),
                                       empty_lines_in_values=False)
    parser.read_string((ROOT / "tables" / name).read_text(encoding="utf-8"), source=f"tables/{name}")
    return {title: dict(parser[title]) for title in parser.sections()}


def numbers():
    """The numbers that texts name: tables/numbers.ini, and how many codes there are."""
    found = {title: int(row["is"]) for title, row in read("numbers.ini").items()}
    return {**found, "codes": len(read("codes.ini"))}


def places(name, keys, optional=()):
    """A table whose sections are the numbers from 1 on, in any order; its rows have all keys."""
    rows = {int(title): row for title, row in read(name).items()}
    if sorted(rows) != list(range(1, len(rows) + 1)):
        raise Fault(f"tables/{name}: the sections are not the numbers 1 to {len(rows)}")
    for number, row in rows.items():
        plain = {key for key in row if key not in optional}
        if plain != keys or not all(row.values()):
            raise Fault(f"tables/{name}, {number}: a key is missing, empty or unknown: {sorted(plain ^ keys)}")
    return rows


def codes():
    return places("codes.ini", CODE_KEYS, (CODE_SORT,))


def kinds():
    """The kinds of an answer by their names, in order; only a kind of 0 may have no constant of the writer."""
    rows = dict(sorted(read("kinds.ini").items(), key=lambda row: int(row[1]["is"])))
    if [int(row["is"]) for row in rows.values()] != list(range(len(rows))):
        raise Fault(f"tables/kinds.ini: the kinds are not the numbers 0 to {len(rows) - 1}")
    for name, row in rows.items():
        wanted = KIND_KEYS | ({"writer"} if int(row["is"]) else set())
        if row.keys() != wanted or not all(row.values()):
            raise Fault(f"tables/kinds.ini, {name}: a key is missing, empty or unknown: {sorted(row.keys() ^ wanted)}")
    return rows


def wording_of(key):
    """Which of the planner's wordings a key has: None for `plan`, GREEN for `plan green`, a code for `plan 5`."""
    special = key.removeprefix("plan").strip()
    return int(special) if special.isdigit() else special or None


def questions():
    """Each question with its texts; `plan` is a table of the planner's wordings by code, None for the usual one, and
    GREEN for what is in a green zone."""
    known, filled = numbers(), {}
    other = {f"plan {code}" for code in [*codes(), GREEN]}
    for number, row in places("questions.ini", QUESTION_KEYS, other).items():
        filled[number] = {key: " ".join(text.split()).format_map(known) for key, text in row.items()}
        filled[number]["plan"] = {wording_of(key): text for key, text in filled[number].items()
                                  if key.startswith("plan")}
        if row["group"] not in GROUPS:
            raise Fault(f"tables/questions.ini, {number}: there is no group {row['group']}")
    for key in ("constant", "asks", "header", "rust", "machine"):
        texts = [row[key] for row in filled.values()]
        if len(set(texts)) != len(texts):
            raise Fault(f"tables/questions.ini: two questions have the same {key}")
    return filled


def example_module():
    """examples/questions/make.py, which is named like other files."""
    path = ROOT / "examples" / "questions" / "make.py"
    spec = importlib.util.spec_from_file_location("examples_of_questions", path)
    module = importlib.util.module_from_spec(spec)
    spec.loader.exec_module(module)
    return module


def examples():
    """For each question what its example shows, and the last row that is printed for it."""
    made = example_module()
    shown = {number: (text, f"line {number}") for number, (_, text) in made.LINES.items()}
    shown |= {number: (text, f"{number}") for number, (_, _, text) in made.CALLS.items()}
    shown |= {number: (text, f"{len(records)} {number}") for number, (records, text) in made.SESSIONS.items()}
    return shown
