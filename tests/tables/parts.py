"""The parts of files that are made from the tables. Each is the lines between a line that says

    begin NAME: made by tests/tables from FILE

and one that says `end NAME`, in the comment form of its file.
"""
import re
import textwrap

from data import GREEN, GROUPS, ROOT, Fault, codes, example_module, examples, kinds, numbers, questions, read
from release import version_of_header

COLUMNS, PAGE = 120, 118
ACTORS = {"driver": "DRIVER", "card": "DEVICE", "nobody": "NOBODY"}
# What a record's field is called in docs/CONTROLLER.md.
FIELDS = {"where": "partition", "items": "count, items", "pairs": "count, pairs: source, destination or 0",
          "objects": "count, objects"}
# The questions that tools/planner calls by name: those that a chain, an entry or a padlock explains.
PLAN_CONSTANTS = ("OUTSIDE", "IN_REACH", "ENTERS_OUTSIDE", "GREEN_RULE", "LOCKED")
# The papers' numbers of kinds, owners' classes and modes, for the line of the examples.
KINDS = {1: "transfer descriptor", 2: "function descriptor", 3: "data", 4: "hard-wired descriptor"}
OWNERS = {0: "external", 1: "driver", 2: "card"}
MODES = {1: "reads", 2: "writes", 3: "reads and writes"}


def wrap(text, first="", rest=""):
    return textwrap.wrap(text, PAGE, initial_indent=first, subsequent_indent=rest, break_on_hyphens=False,
                         break_long_words=False)


def quoted(text):
    """A string literal of C, Rust and Python alike."""
    if '"' in text or "\\" in text:
        raise Fault(f"tables: a text has a quote or a backslash: {text}")
    return f'"{text}"'


def enum_of_header():
    """The enumerators with their comments in one column, as clang-format has them."""
    rows, names = sorted(questions().items()), ["SORTER_GATE_ACCEPTED = 0,"]
    names += [f"SORTER_GATE_{row['constant']} = {number}," for number, row in rows]
    names[-1] = names[-1][:-1]
    width = max(len(name) for name in names[1:])
    return ["enum sorter_gate_answer {", f"    {names[0]}"] + [
        f"    {name:<{width}} /* {row['header']} */" for name, (_, row) in zip(names[1:], rows)] + ["};"]


def sizes(key, row_of):
    """The numbers that header or binding has, each behind what it is."""
    made, known = [], numbers()
    for row in read("numbers.ini").values():
        if key in row:
            made += row_of(row[key], row["is"], row["says"].format_map(known))
    return made


def sizes_of_header():
    return sizes("header", lambda name, number, says: [f"/* {says} */", f"#define {name} {number}"])


def sizes_of_rust():
    made = sizes("rust", lambda name, number, says: [f"/// {says}", f"pub const {name}: usize = {number};", ""])
    return made[:-1]


def does_of(row):
    """What a code does, with the sort of what it makes: two words where another code does the same."""
    return f"{row['does']} {row['sort']}" if "sort" in row else row["does"]


def code_name(row):
    """A code's name, of what it does and to whom, which are held to crates/operation."""
    does = does_of(row).upper().replace(" ", "_")
    if row["does"] in ("write", "read"):
        return f"{row['who'].upper()}_{does}"
    moved = row["who"] if row["who"] != "nobody" else "objects" if "objects" in row["fields"] else "partition"
    return f"{does}_{moved.upper()}"


def named_codes():
    """The codes in order, each with its name, what it does and what follows it in a record."""
    rows = [(number, code_name(row), row["manual"], then_of(row)) for number, row in sorted(codes().items())]
    if len({name for _, name, _, _ in rows}) != len(rows):
        raise Fault("tables/codes.ini: two codes would have the same name")
    return rows


def codes_of_header():
    rows = named_codes()
    names = [f"SORTER_GATE_CODE_{name} = {number}," for number, name, _, _ in rows]
    names[-1] = names[-1][:-1]
    width = max(map(len, names))
    return ["enum sorter_gate_code {"] + [f"    {name:<{width}} /* then {then} */"
                                          for name, (_, _, _, then) in zip(names, rows)] + ["};"]


def codes_of_rust():
    made = []
    for number, name, manual, then in named_codes():
        made += [f"/// {manual[0].upper()}{manual[1:]}. Then {then}.", f"pub const {name}: u8 = {number};", ""]
    return made[:-1]


def kinds_of_header():
    """The kinds, and the macros that take an answer apart."""
    rows, unit = kinds(), numbers()["kind_unit"]
    names = [f"SORTER_GATE_{name.upper()} = {row['is']}," for name, row in rows.items()]
    names[-1] = names[-1][:-1]
    width = max(map(len, names))
    return ["enum sorter_gate_kind {"] + [f"    {name:<{width}} /* the number is {row['number']} */"
                                          for name, row in zip(names, rows.values())] + [
        "};", f"#define SORTER_GATE_KIND(answer) ((answer) / UINT64_C({unit}))",
        f"#define SORTER_GATE_NUMBER(answer) ((answer) % UINT64_C({unit}))"]


def kinds_of_rust():
    made = [f"const KIND_UNIT: u64 = {numbers()['kind_unit']};"]
    return made + [f"const {name.upper()}: u64 = {row['is']};" for name, row in kinds().items()]


def kinds_of_controller():
    made = ["", "| Kind | `SORTER_GATE_` | The number | What `gate_rewrite` leaves in `out` |", "|---|---|---|---|"]
    made += [f"| {row['is']} | `{name.upper()}` | {row['number']} | {row['area']} |" for name, row in kinds().items()]
    return made + [""]


def texts_of_rust():
    rows = sorted(questions().items())
    return [f"const TEXTS: [&str; {len(rows)}] = ["] + [f"    {quoted(row['rust'])}," for _, row in rows] + ["];"]


def limits_of_plan():
    rows = {row["plan"]: row["is"] for row in read("numbers.ini").values() if "plan" in row}
    return ["LIMITS = {"] + [f"    {quoted(name)}: {number}," for name, number in rows.items()] + ["}"]


def codes_of_plan():
    made = ["CODES = {code.number: code for code in ("]
    for number, row in sorted(codes().items()):
        fields = tuple(row["fields"].split(", "))
        shown = ", ".join(quoted(field) for field in fields) + ("," if len(fields) == 1 else "")
        told = f"{number}, {quoted(does_of(row))}, {ACTORS[row['who']]}, ({shown}), {quoted(row['plan'])}"
        made.append(f"    Code({told}),")
    return made + [")}"]


def questions_of_plan():
    rows = sorted(questions().items())
    made = ["QUESTIONS = {"] + [f"    {number}: {quoted(row['plan'][None])}," for number, row in rows] + ["}"]
    made += ["# Where a question is put in other words for some codes.", "QUESTIONS_BY_CODE = {"]
    for number, row in rows:
        made += [f"    ({number}, {code}): {quoted(text)}," for code, text in row["plan"].items()
                 if isinstance(code, int)]
    made += ["}", "# Where it is put in other words for what is in a green zone.", "QUESTIONS_IN_GREEN = {"]
    made += [f"    {number}: {quoted(row['plan'][GREEN])}," for number, row in rows if GREEN in row["plan"]]
    return made + ["}"] + [f"{row['constant']} = {number}" for number, row in rows
                           if row["constant"] in PLAN_CONSTANTS]


def then_of(row):
    """What follows the code in a record."""
    return ", ".join(FIELDS.get(field, row["who"]) for field in row["fields"].split(", "))


def records_of_controller():
    made = ["", "| Code | `SORTER_GATE_CODE_` | Operation | Then |", "|---|---|---|---|"]
    made += [f"| {number} | `{name}` | {manual} | {then} |" for number, name, manual, then in named_codes()]
    return made + [""]


def answers_of_controller():
    made = ["", "| Number | On the machine | What to do |", "|---|---|---|",
            "| 0 | Accepted: the state area is the state that follows. | Act on the machine; store the area. |"]
    made += [f"| {number} | {row['machine']} | {row['remedy']} |" for number, row in sorted(questions().items())]
    return made + [""]


def page_of_questions(group):
    """The questions of a group in the order in which they are put, each with its example."""
    made, shown = [""], examples()
    for number, row in questions().items():
        if row["group"] != group:
            continue
        if number not in shown:
            raise Fault(f"examples/questions/make.py has no example of question {number}")
        text, printed = shown[number]
        made += [f"### {number}. {row['asks']}", "", *wrap(row["means"]), ""]
        made += wrap(f"Definition: {row['definition']}", "- ", "  ")
        made += wrap(f"Example: `examples/questions/{number:02}`, {text}.", "- ", "  ")
        made += [f"- It prints `{printed}`", ""]
    return made


def line_of_examples():
    """The line that the examples are over: its objects as a table, its values as sentences."""
    made, line = ["", "| Object | Kind | Owner |", "|---|---|---|"], example_module()
    for number, (kind, owner_class, owner) in enumerate(line.OBJECTS, 1):
        held = f", value {line.HARDWIRED[owner - 1]}" if kind == 4 else ""
        whose = " ".join([OWNERS[owner_class]] + [str(owner)] * (owner_class != 0))
        made.append(f"| {number} | {kind}, {KINDS[kind]}{held} | {whose} |")
    told = []
    for value, (_, target, mode, put) in enumerate(line.VALUES, 1):
        verb = f"puts value {put} into" if put else MODES[mode]
        told.append(f"Value {value} {verb} object {target}.")
    return made + ["", *wrap(" ".join(told)), ""]


PARTS = {
    "include/sorter_gate.h": {"version": version_of_header, "sizes": sizes_of_header, "codes": codes_of_header,
                              "answers": enum_of_header, "kinds": kinds_of_header},
    "bindings/rust/src/lib.rs": {"sizes": sizes_of_rust},
    "bindings/rust/src/code.rs": {"codes": codes_of_rust},
    "bindings/rust/src/refusal.rs": {"texts": texts_of_rust},
    "bindings/rust/src/rewriting.rs": {"kinds": kinds_of_rust},
    "tools/planner/wording.py": {"limits": limits_of_plan, "codes": codes_of_plan, "questions": questions_of_plan},
    "docs/CONTROLLER.md": {"records": records_of_controller, "answers": answers_of_controller,
                           "kinds": kinds_of_controller},
    "docs/QUESTIONS.md": {"example": line_of_examples,
                          **{group: lambda group=group: page_of_questions(group) for group in GROUPS}},
}


def span(name):
    """The pattern of a part; its lines are the group `made`."""
    return re.compile(rf"^[^\n]*\bbegin {name}: made by tests/tables from [^\n]*\n(?P<made>.*?)"
                      rf"^[^\n]*\bend {name}\b[^\n]*$", re.DOTALL | re.MULTILINE)


def made_text(file, text):
    """The file's text with each of its parts as the tables make it."""
    for name, make in PARTS[file].items():
        found = list(span(name).finditer(text))
        if len(found) != 1:
            raise Fault(f"{file}: has not exactly one part '{name}' that is made from the tables")
        lines = make()
        for line in lines:
            if len(line) > COLUMNS and not line.startswith("|"):
                raise Fault(f"{file}: a line of part '{name}' would have over {COLUMNS} columns: {line}")
        start, end = found[0].span("made")
        text = text[:start] + "".join(f"{line}\n" for line in lines) + text[end:]
    return text


def stored(file):
    return (ROOT / file).read_text(encoding="utf-8")
