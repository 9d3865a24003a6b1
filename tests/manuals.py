#!/usr/bin/env python3
"""README.md, docs/CONTROLLER.md and docs/QUESTIONS.md are true: their commands are typed as written, in a passing copy
of the repository, and print what is shown; what else they say about the library is looked up.

    python3 tests/manuals.py            fail if something differs
    python3 tests/manuals.py --write    put what is printed into the manuals

A block `sh` is commands whose output is not shown. A block `console` is commands behind `$ `, each with its output, in
which `..` stands for rows that are left out; `console status=1` says how its last command ends. The commands of one
manual are typed in one shell. Blocks of other kinds and indented lines are not typed.
"""
import ast
import difflib
import os
import pathlib
import re
import shutil
import subprocess
import sys
import tempfile

ROOT = pathlib.Path(__file__).resolve().parent.parent
MANUALS = ("README.md", "docs/CONTROLLER.md", "docs/QUESTIONS.md")
BLOCK = re.compile(r"^```(?P<kind>sh|console)(?: status=(?P<status>\d+))?\n(?P<body>.*?)^```$",
                   re.DOTALL | re.MULTILINE)
STACK = "python3 bench/stack.py"
LEFT_OUT = ".."
MARK = "@@ status"
KIB = 1024


class Fault(Exception):
    """A manual is wrong; the text says where."""


def text_of(manual):
    return (ROOT / manual).read_text(encoding="utf-8")


def blocks(manual, kind):
    """The blocks of a kind."""
    return re.findall(rf"^```{kind}\n(.*?)^```$", text_of(manual), re.DOTALL | re.MULTILINE)


def fenced(manual, kind):
    """The one block of a kind."""
    found = blocks(manual, kind)
    if len(found) != 1:
        raise Fault(f"{manual}: has {len(found)} blocks of {kind}, and not one")
    return found[0]


def run(words, folder, **more):
    """What a command prints, complaints too, and its status."""
    done = subprocess.run(words, cwd=folder, stdout=subprocess.PIPE, stderr=subprocess.STDOUT, text=True, timeout=600,
                          **more)
    return done.stdout, done.returncode


def copy_repository(folder):
    """A copy under the name that docs/CONTROLLER.md gives it, with library and office program, built if need be."""
    for words in (["make", "-s", "lib"], ["./judge", "--program"]):
        text, status = run(words, ROOT)
        if status:
            raise Fault(f"'{' '.join(words)}' failed:\n{text}")
    copy = pathlib.Path(folder) / "kolluwar"
    shutil.copytree(ROOT, copy, symlinks=True, ignore=shutil.ignore_patterns(".git", "target", "__pycache__", "out"))
    (copy / "target").symlink_to(ROOT / "target")
    return copy


def surroundings(home):
    """The reader's: another home, and nothing of an outer make."""
    strange = ("MAKEFLAGS", "MFLAGS", "MAKELEVEL", "DESTDIR", "PREFIX", "LIBDIR", "INCLUDEDIR", "PKG_CONFIG_PATH",
               "GATE_LIB_DIR")
    return {**{name: value for name, value in os.environ.items() if name not in strange}, "HOME": str(home)}


def commands(text):
    """The commands of a manual: their block, their line, what is shown of the output (None if nothing is), status."""
    for block in BLOCK.finditer(text):
        if block["kind"] == "sh":
            yield from ((block, line, None, 0) for line in block["body"].splitlines())
            continue
        parts = re.split(r"^\$ (.*)\n", block["body"], flags=re.MULTILINE)
        if parts[0] or len(parts) < 3:
            raise Fault(f"a block does not begin with a command: {block['body']}")
        last = len(parts) // 2
        for place, (line, shown) in enumerate(zip(parts[1::2], parts[2::2]), 1):
            yield block, line, shown, int(block["status"] or 0) if place == last else 0


def typed(lines, copy):
    """What each of the lines prints and how it ends, typed one after the other in one shell."""
    script = copy.parent / "typed.sh"
    script.write_text("".join(f"{line}\nprintf '\\n%s %s\\n' '{MARK}' $?\n" for line in lines), encoding="utf-8")
    text, _ = run(["bash", str(script)], copy, env=surroundings(copy.parent / "home"), stdin=subprocess.DEVNULL)
    ends = re.findall(rf"(.*?)\n{MARK} (\d+)\n", text, re.DOTALL)
    if len(ends) != len(lines):
        raise Fault(f"the shell stopped early:\n{text}")
    return [(printed, int(status)) for printed, status in ends]


def as_shown(printed, shown):
    """The output as the manual would show it: with rows left out where it leaves some out."""
    rows, wanted = printed.splitlines(), shown.splitlines()
    if LEFT_OUT not in wanted:
        return "".join(f"{row}\n" for row in rows)
    first = wanted.index(LEFT_OUT)
    last = len(wanted) - first - 1
    if len(rows) < first + last:
        return "".join(f"{row}\n" for row in rows)
    return "".join(f"{row}\n" for row in rows[:first] + [LEFT_OUT] + rows[len(rows) - last:])


def shown_truly(manual, copy, write):
    """Types a manual's commands; the outputs by command."""
    text = text_of(manual)
    wanted = list(commands(text))
    if not wanted:
        raise Fault(f"{manual}: has no commands")
    real, outputs = text, {}
    for (block, line, shown, status), (printed, ended) in zip(wanted, typed([row[1] for row in wanted], copy)):
        if ended != status:
            raise Fault(f"{manual}: '{line}' ends with {ended}, and not with {status}:\n{printed}")
        outputs[line] = printed
        if shown is not None:
            real = real.replace(f"$ {line}\n{shown}", f"$ {line}\n{as_shown(printed, shown)}")
    if real != text and not write:
        rows = difflib.unified_diff(text.splitlines(), real.splitlines(), manual, "as it is printed", "", "", 0)
        raise Fault("\n".join([*rows, "manuals: mend it, or run python3 tests/manuals.py --write"]))
    if real != text:
        (ROOT / manual).write_text(real, encoding="utf-8")
        print(f"manuals: {manual} written")
    return outputs


def check_readme(rows, copy):
    """The statuses that README tells, and the refused move that it shows a picture of."""
    text = " ".join(text_of("README.md").split())
    told = dict(re.findall(r"(\d) ([a-z][a-z ]+)", re.search(r"Exit status: (.*?)\(", text)[1]))
    real = {}
    for folder, status in (("accepted", "every move is accepted"), ("examples/visit", "something is refused"),
                           ("absent", "nothing could be judged")):
        real[str(run(["./judge", folder], copy)[1])] = status
    if {status: meaning.strip() for status, meaning in told.items()} != real:
        raise Fault(f"README.md tells the exit statuses {told}, and they are {real}")
    move = re.search(r"Move (\d+) of the visit \(row (\d+) of its table\) is refused by question (\d+):", text)
    if not move or f"{move[1]} {move[3]}" not in rows.splitlines():
        raise Fault(f"README.md: the move that it shows is not refused so: {move and move[0]}")
    drawn, _ = run(["tools/plan", "explain", "examples/visit", move[2]], copy)
    if f"Refused by question {move[3]}" not in drawn or f"picture-row-{move[2]}.svg" not in text:
        raise Fault(f"README.md: row {move[2]} is not what it says: {drawn}")


def make_accepted(copy):
    """A folder whose every move is accepted: the example of question 14 without its last move."""
    example = copy / "examples" / "questions" / "14"
    (copy / "accepted").mkdir()
    shutil.copy(example / "line.bin", copy / "accepted")
    (copy / "accepted" / "session.bin").write_bytes((example / "session.bin").read_bytes()[:6])


def check_library():
    """What docs/CONTROLLER.md says of the archive: its size, and what it takes from the C library."""
    text = " ".join(text_of("docs/CONTROLLER.md").split())
    most = re.search(r"At most (\d+) KiB of code and constants, no data, no bss", text)
    needs = re.search(r"from the C library (.*?); nothing else is linked", text)
    rows = [row.split()[:3] for row in run(["size", "target/staticlib/libgate.a"], ROOT)[0].splitlines()[1:]]
    code, data, bss = (sum(int(number) for number in column) for column in zip(*rows))
    if not most or not 0 < code <= int(most[1]) * KIB or data or bss:
        raise Fault(f"docs/CONTROLLER.md does not tell the size: {code} bytes of code, {data} of data, {bss} of bss")
    linked = set(re.findall(r"^ +U (\w+)$", run(["nm", "-u", "target/staticlib/libgate.a"], ROOT)[0], re.MULTILINE))
    if not needs or linked != set(re.findall(r"`(\w+)`", needs[1])):
        raise Fault(f"docs/CONTROLLER.md does not tell what is linked: {', '.join(sorted(linked))}")


def check_c(copy):
    """The C lines of docs/CONTROLLER.md compile, each block in a function that has the areas by their names; what is
    done with a written file or a broken record is the host's. A block ends with the answer in `n`."""
    made = ['#include "sorter_gate.h"', "void put_down(const uint8_t *file, size_t length);",
            "void look_at(uint64_t object);"]
    for place, lines in enumerate(blocks("docs/CONTROLLER.md", "c")):
        head = (f"call_{place}(const uint8_t *line, size_t line_len, const uint8_t *area, size_t area_len, "
                "uint8_t *out, size_t out_len)")
        made += [f"uint64_t {head};", f"uint64_t {head} {{", "(void)area, (void)area_len, (void)out, (void)out_len;",
                 f"{lines}return n;", "}"]
    shown = ("gate_state_bytes", "gate_operate", "gate_first_bad", "gate_rewrite")
    if any(call not in "".join(made) for call in shown):
        raise Fault("docs/CONTROLLER.md: its C lines do not show a call that tells a length, one that judges, one that "
                    "names a record and one that saves")
    (copy / "snippet.c").write_text("\n".join(made) + "\n", encoding="utf-8")
    words = "gcc -std=c11 -O2 -Wall -Wextra -Werror -Iinclude -c -o snippet.o snippet.c"
    text, status = run(words.split(), copy)
    if status:
        raise Fault(f"docs/CONTROLLER.md: its C lines do not compile:\n{text}")


def check_rust(copy):
    """The Rust program of docs/CONTROLLER.md runs, with the dependency that it gives."""
    host = copy.parent / "host"
    (host / "src").mkdir(parents=True)
    (host / "src" / "main.rs").write_text(fenced("docs/CONTROLLER.md", "rust"), encoding="utf-8")
    (host / "Cargo.toml").write_text('[package]\nname = "host"\nversion = "0.1.0"\nedition = "2024"\n\n'
                                     + fenced("docs/CONTROLLER.md", "toml"), encoding="utf-8")
    more = {"CARGO_TARGET_DIR": str(host / "target")}
    outer = {name: value for name, value in os.environ.items() if name != "GATE_LIB_DIR"}
    text, status = run(["cargo", "run", "--offline", "--quiet"], host, env={**outer, **more})
    if status or text:
        raise Fault(f"docs/CONTROLLER.md: its Rust program does not run:\n{text}")


def fnv(data):
    """FNV-1a of 64 bits, lowest byte first."""
    total = 0xCBF29CE484222325
    for byte in data:
        total = (total ^ byte) * 0x100000001B3 % 2 ** 64
    return total.to_bytes(8, "little")


def check_stored_file(copy):
    """A stored area is put together as docs/CONTROLLER.md says; what the example's line file is, its source tells."""
    text = " ".join(text_of("docs/CONTROLLER.md").split())
    told = re.search(r"The example's file is eight bytes `(\w{8})`, the digest of the line file, the area, and the "
                     r"digest of all that comes before, a digest being FNV-1a of 64 bits, lowest byte first", text)
    area = re.search(r"The state area is ([\d,]+) plain bytes", text)
    line = re.search(r"LINE\[\] = {([\d, ]+)}", text_of("examples/controller/restore.c"))
    if not told or not area or not line:
        raise Fault("docs/CONTROLLER.md: does not say what a stored area's file is")
    printed, status = run(["./restore", "kept.bin"], copy)
    stored = (copy / "kept.bin").read_bytes() if status == 0 else b""
    head = told[1].encode() + fnv(bytes(int(number) for number in line[1].split(", ")))
    length = len(head) + int(area[1].replace(",", "")) + 8
    if not stored.startswith(head) or stored[-8:] != fnv(stored[:-8]) or len(stored) != length:
        raise Fault(f"docs/CONTROLLER.md: a stored area's file is not what it says:\n{printed}{stored.hex()}")


def check_way_out(copy, number):
    """The record that docs/CONTROLLER.md gives for a question, put before the last of its example, has it accepted."""
    found = re.search(rf"In `(examples/questions/{number})` the record `([\d ]+)` before the last does it",
                      " ".join(text_of("docs/CONTROLLER.md").split()))
    if not found:
        raise Fault(f"docs/CONTROLLER.md: gives no record for {number}")
    record = bytes(int(number) for number in found[2].split())
    way = f"way-out-{number}"
    shutil.copytree(copy / found[1], copy / way)
    session = (copy / found[1] / "session.bin").read_bytes()
    last = 0
    while last + session[last] + 1 < len(session):
        last += session[last] + 1
    (copy / way / "session.bin").write_bytes(session[:last] + bytes([len(record)]) + record + session[last:])
    rows, status = run(["./judge", way], copy)
    if status:
        raise Fault(f"docs/CONTROLLER.md: with the record that it gives for {number} the answers are\n{rows}")


def literals(path):
    """Patterns of the strings of a Python file; what is filled into one may be anything."""
    for node in ast.walk(ast.parse(path.read_text(encoding="utf-8"))):
        if isinstance(node, ast.Constant) and isinstance(node.value, str):
            yield re.escape(node.value)
        elif isinstance(node, ast.JoinedStr):
            parts = [part.value if isinstance(part, ast.Constant) else None for part in node.values]
            if len("".join(part or "" for part in parts)) > 8:
                yield "".join(re.escape(part) if part is not None else ".+" for part in parts)


def check_performance(stack):
    """docs/PERFORMANCE.md: its stack table is what is printed; the rows of the others are ones that bench/ prints."""
    known = {pattern for path in sorted((ROOT / "bench").glob("*.py")) for pattern in literals(path)}
    blocks = re.findall(r"^```\n(.*?)^```$", text_of("docs/PERFORMANCE.md"), re.DOTALL | re.MULTILINE)
    for block in blocks:
        if block.startswith(stack.split("  ")[0]):
            if block.strip() != stack.strip():
                raise Fault(f"docs/PERFORMANCE.md shows\n{block}and '{STACK}' prints\n{stack}")
            continue
        for row in block.splitlines():
            label = re.sub("^(full|quarter|wide): ", "", re.split(r" {2,}", row)[0])
            if not any(re.fullmatch(pattern, label) for pattern in known):
                raise Fault(f"docs/PERFORMANCE.md: no table of bench/ has a row '{label}'")


def main():
    if sys.argv[1:] not in ([], ["--write"]):
        sys.exit("python3 tests/manuals.py [--write]")
    with tempfile.TemporaryDirectory() as folder:
        copy, outputs = copy_repository(folder), {}
        (copy.parent / "home").mkdir()
        for manual in MANUALS:
            outputs[manual] = shown_truly(manual, copy, bool(sys.argv[1:]))
        make_accepted(copy)
        check_readme(outputs["README.md"]["./judge"], copy)
        check_library()
        check_c(copy)
        check_rust(copy)
        check_stored_file(copy)
        for number in (20, 21, 23):
            check_way_out(copy, number)
        check_performance(outputs["docs/CONTROLLER.md"][STACK])
    print(f"manuals: {sum(map(len, outputs.values()))} commands of {len(MANUALS)} manuals do as they say")


if __name__ == "__main__":
    try:
        main()
    except Fault as fault:
        sys.exit(f"manuals: {fault}")
