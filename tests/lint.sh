#!/usr/bin/env bash
# Layout and warnings of all that is not Rattle: C by clang-format and gcc, the examples for C++ hosts by g++ too, Rust
# by rustfmt and clippy, Python by its compiler, shell scripts by bash; the sizes of all files, of Rattle too (whose
# layout rt ci looks at); and where Rattle names its limits. A fault ends the script, and so does a tool that is not
# installed, which is named; with --lenient such a tool is named and left out. Needs no network and no built library.
set -euo pipefail
cd "$(dirname "$0")/.."
out=$(mktemp -d)
trap 'rm -rf "$out"' EXIT
case $# in
0) lenient= ;;
*) [ "$*" = --lenient ] && lenient=yes || { echo "bash tests/lint.sh [--lenient]" >&2; exit 2; } ;;
esac

# The files whose names fit the pattern, all if none is given, but nothing that is built.
files() {
    find . \( -name target -o -name .git -o -name __pycache__ -o -path './crates/*/out' \) -prune -o \
        -type f -name "${1:-*}" -print |
        sed 's|^\./||' | sort
}

# The files that begin with the line of an interpreter, or have its ending.
scripts() {
    files | while read -r file; do
        case ${file##*/} in
        *."$2") echo "$file" ;;
        *.*) ;;
        *) if head -n 1 "$file" | grep -aq "^#!.*$1"; then echo "$file"; fi ;;
        esac
    done
}

# A check of no files is none.
some() {
    [ "$1" -gt 0 ] && return
    echo "lint: no $2 are found" >&2
    exit 1
}

# Whether a tool is there, told by a command of it that does nothing else.
at_hand() {
    "$@" > /dev/null 2>&1 && return
    if [ -n "$lenient" ]; then
        echo "lint: '$*' fails, so that this tool is left out"
        return 1
    fi
    echo "lint: '$*' fails: the tool is not installed (--lenient leaves it out)" >&2
    exit 1
}

lint_c() {
    mapfile -t sources < <(files '*.c')
    mapfile -t headers < <(files '*.h')
    some "${#sources[@]}" "C files"
    some "${#headers[@]}" headers
    if at_hand clang-format --version; then
        clang-format --dry-run -Werror "${sources[@]}" "${headers[@]}"
        echo "lint: the layout of ${#sources[@]} C files and ${#headers[@]} headers"
    fi
    # Compiled and not only parsed: some warnings come from the optimiser.
    for file in "${sources[@]}"; do
        gcc -std=c11 -O2 -Wall -Wextra -Werror -Iinclude -Ibench -c -o "$out/object" "$file"
    done
    # The public header stands alone.
    gcc -std=c11 -Wall -Wextra -Werror -fsyntax-only -x c include/sorter_gate.h
    echo "lint: gcc on ${#sources[@]} C files"
}

# A host may be in C++: the header alone, and the controllers that it may begin with.
lint_cpp() {
    at_hand g++ --version || return 0
    g++ -Wall -Wextra -Werror -fsyntax-only -x c++ include/sorter_gate.h
    hosts=(examples/controller/*.c)
    for file in "${hosts[@]}"; do
        g++ -O2 -Wall -Wextra -Werror -Iinclude -c -o "$out/object" -x c++ "$file"
    done
    echo "lint: g++ on the header and ${#hosts[@]} controllers"
}

lint_rust() {
    mapfile -t packages < <(files '*Cargo.toml')
    some "${#packages[@]}" "Rust packages"
    if at_hand cargo fmt --version; then
        for package in "${packages[@]}"; do
            cargo fmt --check --manifest-path "$package"
        done
        echo "lint: the layout of ${#packages[@]} Rust packages"
    fi
    if at_hand cargo clippy --version; then
        # Clippy links nothing: an empty archive in the library's place is enough.
        mkdir -p target/lint
        [ -f target/lint/libgate.a ] || ar rc target/lint/libgate.a
        for package in "${packages[@]}"; do
            GATE_LIB_DIR=$PWD/target/lint CARGO_TARGET_DIR=$PWD/target/lint/cargo cargo clippy --offline --locked \
                --quiet --all-targets --manifest-path "$package" -- -D warnings
        done
        echo "lint: clippy on ${#packages[@]} Rust packages"
    fi
}

lint_scripts() {
    mapfile -t python < <(scripts python py)
    mapfile -t shell < <(scripts bash sh)
    some "${#python[@]}" "Python files"
    some "${#shell[@]}" "shell scripts"
    # Compiled in memory, so that no compiled files are left beside the sources.
    python3 -W error -c '
import sys
for name in sys.argv[1:]:
    with open(name, "rb") as file:
        compile(file.read(), name, "exec")
' "${python[@]}"
    for file in "${shell[@]}"; do
        bash -n "$file"
    done
    echo "lint: ${#python[@]} Python files and ${#shell[@]} shell scripts"
}

# No line of over 120 characters, no file of over 400 lines.
lint_sizes() {
    mapfile -t written < <(files | grep -E '\.(antt|rt|rs|c|h|py|sh)$')
    python3 -W error -c '
import sys
wide, most, faults = 120, 400, 0
for name in sys.argv[1:]:
    with open(name, encoding="utf-8") as file:
        rows = file.read().splitlines()
    for place, row in enumerate(rows, 1):
        if len(row) > wide:
            print(f"lint: {name}, line {place}, has {len(row)} characters", file=sys.stderr)
            faults += 1
    if len(rows) > most:
        print(f"lint: {name} has {len(rows)} lines", file=sys.stderr)
        faults += 1
sys.exit(faults > 0 or not sys.argv[1:])
' "${written[@]}"
    echo "lint: the sizes of ${#written[@]} files"
}

# The largest number of objects, the small room and the largest number stand once in the model and once in its code.
# Whatever else named one of them, the number after it or a length that follows from it would stay behind when they
# change. (Examples are free.)
lint_limits() {
    local stated found numbers='96|97|192|193|1[_,]?7(28|44)|3[_,]?3(60|76)|2[_,]?097[_,]?15[12]|0x(60|61|[cC]0|[cC]1)'
    stated="crates/model/specs/Config.antt:most_objects = 192
crates/model/specs/Config.antt:small_room = 96
crates/model/specs/Number.antt:most_number = 2097151
crates/model/src/lib.rt:pub const MOST_OBJECTS: u8 = 192;
crates/model/src/lib.rt:pub const MOST_SERIAL: u32 = 2097151;
crates/model/src/lib.rt:pub const SMALL_ROOM: u8 = 96;"
    found=$(grep -rE "(^|[^0-9A-Za-z_])($numbers)(_?[ui](8|16|32|64|size))?([^0-9A-Za-z_]|\$)" crates/*/src \
        crates/*/specs crates/*/proofs | grep -vE '^crates/model/specs/(Lock|Serial)?Examples\.antt:' | sort) || true
    diff <(echo "$stated") <(echo "$found") ||
        { echo "lint: a limit is named elsewhere than where it is defined, or is not defined" >&2; exit 1; }
    echo "lint: each limit of requests N2 and N7 is named once in the model and once in its code"
}

lint_c
lint_cpp
lint_rust
lint_scripts
lint_sizes
lint_limits
