#!/usr/bin/env bash
# The examples of docs/QUESTIONS.md through the proved code: the office program for those with a session, a C host over
# the library for those with areas (7 to 9). Each must be refused by its own question, with every row before it
# accepted, and the page must show what is printed. (tests/tables makes the page, and looks up the definitions there.)
set -euo pipefail
cd "$(dirname "$0")/.."
out=$(mktemp -d)
trap 'rm -rf "$out"' EXIT

stop() {
    echo "questions: $1" >&2
    exit 1
}

python3 examples/questions/make.py --check
office=$(./judge --program)
make -s lib
gcc -std=c11 -O2 -Wall -Wextra -Werror -Iinclude -Ibench -o "$out/one_call" tests/one_call.c target/staticlib/libgate.a

# What is printed last for a folder; the rows before are accepted.
last_row() {
    if [ -f "$1/state.bin" ]; then
        "$out/one_call" "$1"
        return
    fi
    (cd "$1" && "$office") > "$out/rows"
    if head -n -1 "$out/rows" | grep -qv '^[0-9]* 0$'; then stop "$1: a row before the last is refused"; fi
    tail -n 1 "$out/rows"
}

# The part of the page about a question, as one line.
section() {
    awk -v from="### $1. " 'index($0, "#") == 1 { on = index($0, from) == 1 } on' docs/QUESTIONS.md | tr -s ' \n' ' '
}

count=0
for number in $(python3 tests/tables --numbers); do
    folder=examples/questions/$(printf %02d "$number")
    [ -d "$folder" ] || stop "there is no $folder"
    row=$(last_row "$folder")
    # `line 3`, `7` or `4 13`: the last word is the number, and nothing but a place or `line` stands before it.
    [[ $row =~ ^((line|[1-9][0-9]*)" ")?"$number"$ ]] || stop "$folder prints '$row'"
    part=$(section "$number")
    shows=$(sed "s/^Question $number: //" "$folder/README")
    for text in "Example: \`$folder\`, $shows" "It prints \`$row\`"; do
        grep -qF "$text" <<< "$part" || stop "docs/QUESTIONS.md, question $number: does not say '$text'"
    done
    count=$((count + 1))
done
[ "$count" -gt 0 ] || stop "there are no questions"
echo "questions: $count examples, each refused by its own"
