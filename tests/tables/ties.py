"""The tables held to what the library is made of: its constants, the model's definitions, the codes that it knows; and
the figures in texts that are written by hand."""
import re

from constants import of_header, of_model, of_python, of_source, text_of, worked_out
from data import NUMBER_KEYS, ROOT, Fault, codes, kinds, numbers, questions, read
from parts import PARTS, span

SPECS = "crates/model/specs"
# Where the model puts the questions of an operation.
JUDGE = f"{SPECS}/Questions.antt"
CODES = "crates/operation/src/codes.rt"
# The code that creates a green zone, by the model.
GREEN_CODE = f"{SPECS}/Operation.antt", "green_code"
KINDS_MODEL = f"{SPECS}/Rewriting.antt"
KINDS_CODE = "crates/writer/src/lib.rt"
# How the model puts kind and number together, which header and binding take apart again.
CODED = "coded w = kind_of_answer w * kind_unit + number_of_answer w"
# What crates/operation calls what the planner's tables call otherwise.
FAMILIES = {"Write": "write", "Copy": "read", "Create": "create", "Destroy": "destroy", "Activate": "activate",
            "Deactivate": "deactivate", "Lock": "lock", "Unlock": "unlock"}
ACTORS = {"Driver": "driver", "Device": "card", "External": "nobody"}
READERS = {"Item": "who, items", "Pair": "who, pairs", "read_partition": "where", "read_activation": "who, where",
           "Object": "where, objects", "read_deactivation": "who"}
# The model's file in which the writer puts its questions, how, and how the table says of a question that it does.
WRITER, WRITTEN, WRITER_PUTS = f"{SPECS}/ConfigWrite.antt", re.compile(r"\bask_first (\d+) \("), "The writer puts it "
# A figure of a manual: three digits or more, or with a comma.
FIGURE = re.compile(r"(?<![\w.])\d{1,3}(?:,\d{3})+(?!\w)|(?<![\w.,])\d{3,}(?!\w)")
CONSOLE = re.compile(r"^```console[^\n]*\n.*?^```$", re.DOTALL | re.MULTILINE)


def plain(text):
    """With every run of blanks as one."""
    return " ".join(text.split())


def check_numbers():
    """Each number of tables/numbers.ini is the same where it stands too."""
    known = numbers()
    for name, row in read("numbers.ini").items():
        seen = {}
        if "rattle" in row:
            crate, constant = row["rattle"].split()
            seen[f"crates/{crate}/src/lib.rt"] = of_source(f"crates/{crate}/src/lib.rt", constant)
        if "model" in row:
            file, constant = row["model"].split()
            seen[f"{SPECS}/{file}.antt"] = of_model(f"{SPECS}/{file}.antt", constant)
        if "reference" in row:
            seen["reference/src/limits.rs"] = of_source("reference/src/limits.rs", row["reference"])
        if "sum" in row:
            seen["its sum"] = worked_out(row["sum"], known.__getitem__)
        if "header" in row:
            seen["include/sorter_gate.h"] = of_header("include/sorter_gate.h", row["header"])
        if "rust" in row:
            seen["bindings/rust/src/lib.rs"] = of_source("bindings/rust/src/lib.rs", row["rust"])
        if "python" in row:
            path, constant = row["python"].split()
            seen[path] = of_python(path, constant)
        for place, number in seen.items():
            if number != known[name]:
                raise Fault(f"tables/numbers.ini has {known[name]} as {name}, {place} has {number}")
        if not seen or not row.keys() <= NUMBER_KEYS:
            raise Fault(f"tables/numbers.ini: {name} is tied to nothing, or has an unknown key")


def check_questions():
    """Each question is put by the model under its number, and its definitions are there; the model puts no other."""
    rows = questions()
    for number, row in rows.items():
        file, text = row["asked"].split(": ", 1)
        if not re.search(rf"\b{number}\b", text) or text not in plain(text_of(f"{SPECS}/{file}")):
            raise Fault(f"question {number}: {SPECS}/{file} does not say '{text}'")
        named = re.findall(r"`([^`]+)`", row["definition"])
        files = [name for name in named if "/" in name]
        for name in set(named) - set(files):
            if not any(re.search(rf"\bpub {name} :", text_of(file)) for file in files):
                raise Fault(f"question {number}: {', '.join(files)} has no definition {name}")
    for path in sorted((ROOT / SPECS).glob("*.antt")):
        for number in re.findall(r"\bask (\d+) \(", path.read_text(encoding="utf-8")):
            if int(number) not in rows:
                raise Fault(f"{SPECS}/{path.name} puts question {number}, which tables/questions.ini does not have")
    check_order(rows)
    check_writer(rows)


def check_order(rows):
    """The questions of an operation stand in the table in the order in which the model puts them."""
    put = [int(number) for number in re.findall(r"\bask (\d+) \(q", text_of(JUDGE))]
    told = [number for number in rows if number in put]
    if not put or told != put:
        raise Fault(f"tables/questions.ini has the order {told}; {JUDGE} puts {put}")


def check_writer(rows):
    """What the table says of the writer: it puts just those questions that it puts in the model."""
    real = {int(number) for number in WRITTEN.findall(text_of(WRITER))}
    told = {number for number, row in rows.items() if WRITER_PUTS in row["means"]}
    if not real or real != told:
        raise Fault(f"tables/questions.ini: the writer puts {sorted(told)}; by {WRITER} it puts {sorted(real)}")


def arms(function):
    """The arms of a function of crates/operation that is one match over the code: its ranges, and what follows, or the
    kind of elements where it is told one."""
    body = re.search(rf"^(?:pub(?:\(crate\))? )?fn {function}\(.*?match code {{(.*?)^    }}", text_of(CODES),
                     re.DOTALL | re.MULTILINE)
    if not body:
        raise Fault(f"{CODES} has no match over the code in {function}")
    return [(ranges, element or word) for ranges, word, element in re.findall(
        r"^\s+([\d_][\d_ |.=]*?) => ([\w:]+)(?:\(\w, (Element::\w+))?", body[1], re.MULTILINE)]


def chosen(function, code):
    """The word with which the arm of a code ends or begins: a variant, the function that is called, or its elements."""
    for pattern, result in arms(function):
        for part in pattern.split("|"):
            low, _, high = part.strip().partition("..=")
            if low == "_" or int(low) <= code <= int(high or low):
                return result.split("::")[-1]
    raise Fault(f"{CODES}: no arm of {function} fits {code}")


def check_codes():
    """Each code does, to whom and with which fields, what the library makes of it; the next one is unknown to both."""
    rows = codes()
    for code, row in rows.items():
        real = (FAMILIES[chosen("family_of", code)], ACTORS[chosen("actor_of", code)],
                READERS.get(chosen("arguments", code)))
        if real != (row["does"], row["who"], row["fields"]):
            raise Fault(f"tables/codes.ini, {code}: {CODES} has {real}")
    if chosen("arguments", len(rows) + 1) in READERS:
        raise Fault(f"{CODES} reads code {len(rows) + 1}, which tables/codes.ini does not have")
    check_sorts(rows)


def check_sorts(rows):
    """The only sort that there is, green, is that of the model's code and of no other."""
    told = {code: row["sort"] for code, row in rows.items() if "sort" in row}
    if told != {of_model(*GREEN_CODE): "green"}:
        raise Fault(f"tables/codes.ini: {told} are the codes with a sort; {GREEN_CODE[0]} has {GREEN_CODE[1]} alone")


def check_kinds():
    """Each kind is the model's and the writer's, of the case that the table names; the model has no other, and puts an
    answer together as it is taken apart."""
    text, rows = text_of(KINDS_MODEL), kinds()
    cases = dict(re.findall(r"^kind_of_answer \((\w+) \w+\) = (\w+)$", text, re.MULTILINE))
    if cases != {row["case"]: row["model"] for row in rows.values()}:
        raise Fault(f"tables/kinds.ini has other cases than {KINDS_MODEL}: {cases}")
    if CODED not in text.splitlines():
        raise Fault(f"{KINDS_MODEL} does not say '{CODED}'")
    for name, row in rows.items():
        seen = {KINDS_MODEL: of_model(KINDS_MODEL, row["model"])}
        if "writer" in row:
            seen[KINDS_CODE] = of_source(KINDS_CODE, row["writer"])
        for place, number in seen.items():
            if number != int(row["is"]):
                raise Fault(f"tables/kinds.ini has {row['is']} as {name}, {place} has {number}")


def check_figures():
    """What tables/figures.ini tells of a text stands there with its numbers, and no other figure does."""
    known = numbers()
    for file, row in read("figures.ini").items():
        text = text_of(file)
        for name in PARTS.get(file, ()):
            text = span(name).sub("", text)
        text = plain(CONSOLE.sub("", text))
        for line in row["says"].strip().splitlines():
            phrase = plain(line.format_map(known))
            if phrase not in text:
                raise Fault(f"{file}: does not say '{phrase}'")
            text = text.replace(phrase, "")
        left = FIGURE.findall(text)
        if left:
            raise Fault(f"{file}: tables/figures.ini does not tell what {', '.join(left)} is")
