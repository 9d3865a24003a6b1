"""Makes the parts of header, binding, planner's tool and manuals that come from tables/*.ini, and holds the tables to
the library's sources.

    python3 tests/tables --write     make the parts anew
    python3 tests/tables --check     fail if a part differs, or a number, name or prototype is not the library's
    python3 tests/tables --numbers   print the questions' numbers
"""
import difflib
import pathlib
import sys

sys.dont_write_bytecode = True
sys.path.insert(0, str(pathlib.Path(__file__).resolve().parent))
from data import ROOT, Fault, questions  # noqa: E402
from parts import PARTS, made_text, stored  # noqa: E402
from prototypes import check_prototypes  # noqa: E402
from release import check_release  # noqa: E402
from ties import check_codes, check_figures, check_kinds, check_numbers, check_questions  # noqa: E402
from words import check_words  # noqa: E402


def check():
    for file in PARTS:
        real, made = stored(file), made_text(file, stored(file))
        if real != made:
            rows = difflib.unified_diff(real.splitlines(), made.splitlines(), file, "as the tables make it", "", "", 0)
            raise Fault("\n".join([*rows, "tables: run python3 tests/tables --write, or mend the table"]))
    check_numbers()
    check_questions()
    check_words()
    check_codes()
    check_kinds()
    check_prototypes()
    check_release()
    check_figures()
    print(f"tables: {sum(map(len, PARTS.values()))} parts of {len(PARTS)} files are as the tables make them, and the "
          "tables as the library is")


def write():
    for file in PARTS:
        text = made_text(file, stored(file))
        if text != stored(file):
            (ROOT / file).write_text(text, encoding="utf-8")
            print(f"tables: {file} written")


def main():
    if sys.argv[1:] == ["--check"]:
        check()
    elif sys.argv[1:] == ["--write"]:
        write()
    elif sys.argv[1:] == ["--numbers"]:
        print(*sorted(questions()))
    else:
        sys.exit("python3 tests/tables --write | --check | --numbers")


if __name__ == "__main__":
    try:
        main()
    except Fault as fault:
        sys.exit(f"tables: {fault}")
