#!/usr/bin/env bash
# The library from the host's side: the C controllers; a million random and mutated inputs, each with its areas against
# forbidden pages, once at their ends and once at their beginnings; areas of every length, and line files cut anywhere;
# calls on areas that were stored before request N6; and the same tests over libraries with a fault, each of which they
# must tell. (`make check` has the Rust binding.)
#   host.sh [TIMES [SEED]]
set -euo pipefail
cd "$(dirname "$0")/.."
bash examples/controller/run.sh
out=$(mktemp -d)
trap 'rm -rf "$out"' EXIT

# The sanitizers watch the test's own code alone: the library is not built for them.
flags=(-std=c11 -O2 -Wall -Wextra -Werror -Iinclude -g -fsanitize=address,undefined)
parts=()
for name in garbage areas calls effect first_bad green inputs known line locks refusals rewriting rooms serials \
    state_bytes; do
    gcc "${flags[@]}" -c -o "$out/$name.o" "tests/$name.c"
    parts+=("$out/$name.o")
done
gcc "${flags[@]}" -o "$out/garbage" "${parts[@]}" target/staticlib/libgate.a
"$out/garbage" "${1:-1000000}" "${2:-1}"

wrapped=()
for name in load_check state_bytes fresh operate first_bad rewrite; do
    wrapped+=("-Wl,--wrap=gate_$name")
done
faulty=(tests/faulty{,_kinds,_locks,_serials}.c target/staticlib/libgate.a "${wrapped[@]}")
gcc "${flags[@]}" -o "$out/faulty" "${parts[@]}" "${faulty[@]}"
few=100000
seen=0

# Areas of before request N6, with zeros where the lock bytes are now, get the answers of before, call by call.
stored=tests/stored/older.txt
gcc "${flags[@]}" -o "$out/older" tests/older.c target/staticlib/libgate.a
gcc "${flags[@]}" -o "$out/older-faulty" tests/{older,line}.c "${faulty[@]}"
"$out/older" < $stored > "$out/rows"
cmp "$out/rows" $stored
echo "host: $(grep -c ' = ' $stored) calls on areas of before, each answered and done as before"

# A fault that must show there.
must_differ() {
    local status=0
    GATE_FAULT=$1 "$out/older-faulty" < $stored > "$out/rows" 2> "$out/told" || status=$?
    if [ $status -gt 1 ] || { [ $status = 0 ] && cmp -s "$out/rows" $stored; }; then
        echo "host: with the fault '$1' calls on areas of before end with $status, and give what they gave" >&2
        exit 1
    fi
    seen=$((seen + 1))
}

# A fault, and the message that the test must end with.
must_tell() {
    local status=0
    GATE_FAULT=$1 "$out/faulty" $few 1 > "$out/rows" 2> "$out/told" || status=$?
    if [ $status != 1 ] || ! grep -qE "^garbage: $2 \(pass: .*, seed 1, input [0-9]+\)$" "$out/told"; then
        echo "host: with the fault '$1' the test ends with $status, and not with '$2':" >&2
        tail -n 5 "$out/told" >&2
        exit 1
    fi
    seen=$((seen + 1))
}

# What is read beside an area, or of an empty one.
stray_reads() {
    must_tell "read-behind $1 $2" "gate_$2 read at place ([0-9]+) of the $1, which has \1 bytes"
    must_tell "read-before $1 $2" "gate_$2 read at place -1 of the $1, which has [0-9]+ bytes"
    must_tell "read-empty $1 $2" "gate_$2 read at place 0 of the $1, which has 0 bytes"
}

# What is written into an area that is only to be read.
stray_stores() {
    must_tell "write-into $1 $2" "gate_$2 wrote at place 0 of the $1, which has [0-9]+ bytes"
}

# What is written beside an area that may be written, into it though the call is refused, or beyond what an accepted
# call does.
stray_changes() {
    local refused="refused by [0-9]+, and changed the $1 at place"
    local accepted="accepted \(0\), and did not leave the $1 as document 01 says at place"
    must_tell "write-behind $1 $2" "gate_$2 wrote at place ([0-9]+) of the $1, which has \1 bytes"
    must_tell "write-before $1 $2" "gate_$2 ($refused|$accepted) -1"
    must_tell "change-refused $1 $2" "gate_$2 $refused [0-9]+"
    must_tell "change-accepted $1 $2" "gate_$2 $accepted [0-9]+"
}

# What gate_rewrite may not do to its area, by the kind of its answer.
stray_rewriting() {
    local wrote="wrote ([0-9]+) bytes, and"
    local unwritten="refused by [0-9]+, and changed the out|found the out too short, and changed it"
    must_tell "write-behind out rewrite" "gate_rewrite wrote at place ([0-9]+) of the out, which has \1 bytes"
    must_tell "write-before out rewrite" "gate_rewrite ($unwritten|$wrote changed the out) at place -1"
    must_tell "change-refused out rewrite" "gate_rewrite refused by [0-9]+, and changed the out at place [0-9]+"
    must_tell "change-short out rewrite" "gate_rewrite found the out too short, and changed it at place [0-9]+"
    must_tell "change-accepted out rewrite" "gate_rewrite $wrote (changed the out|not the line's) at place [0-9]+"
    must_tell "past" "gate_rewrite $wrote changed the out at place \1"
    must_tell "last" "gate_rewrite $wrote not the line's at place [0-9]+"
}

# What gate_rewrite may not answer.
wrong_rewriting() {
    must_tell "exact" "gate_rewrite found ([0-9]+) bytes too few for a line of \1"
    must_tell "less" "gate_rewrite told that it needs [0-9]+ bytes for a line of [0-9]+"
    must_tell "more" "gate_rewrite told that it wrote [0-9]+ bytes of a line of [0-9]+"
    must_tell "question" "gate_rewrite refused by [2-7] a line to which a load check answers [1-6]"
    must_tell "let-by" "gate_rewrite did not refuse a line that a load check refuses by [1-6]"
    # A constant: done with 0 bytes, refused by 3 and by none, 45 bytes needed, and a kind that there is not.
    must_tell "always 0" "gate_rewrite (wrote a line of [0-9]+ bytes into|told that it wrote 0 bytes of .*) [0-9]+"
    must_tell "always $((1 << 32 | 3))" "gate_rewrite refused by 3 a line to which a load check answers [^3]"
    must_tell "always $((1 << 32))" "gate_rewrite refused by 0 a line to which a load check answers [0-9]"
    must_tell "always $((2 << 32 | 45))" \
        "gate_rewrite (found [0-9]+ bytes too few for|told that it needs 45 bytes for|did not refuse) a line .*"
    must_tell "always $((3 << 32))" "gate_rewrite answered the kind 3, which there is not"
}

# The two lengths of a state area, as the header has them.
length_of() {
    sed -n "s/^#define $1 //p" include/sorter_gate.h
}
small=$(length_of SORTER_GATE_STATE_BYTES)
wide=$(length_of SORTER_GATE_STATE_BYTES_WIDE)

# What gate_state_bytes may not answer.
wrong_state_bytes() {
    must_tell "one-off" "gate_state_bytes told $small bytes for a line of 97 objects, which needs $wide"
    must_tell "told-question" "gate_state_bytes refused by [2-7] a line to which a load check answers [1-6]"
    must_tell "told-let-by" "gate_state_bytes did not refuse a line that a load check refuses by [1-6]"
    # A constant: each of the two lengths, another one, refused by 3 and by none, and kinds that it has not.
    local objects="bytes for a line of [0-9]+ objects, which needs"
    must_tell "told $small" "gate_state_bytes (told $small $objects $wide|did not .*)"
    must_tell "told $wide" "gate_state_bytes (told $wide $objects $small|did not .*)"
    for other in $((small - 1)) $((small - $(length_of SORTER_GATE_LOCK_BYTES))); do
        must_tell "told $other" "gate_state_bytes (told $other $objects [0-9]+|did not .*)"
    done
    must_tell "told $((1 << 32 | 3))" "gate_state_bytes refused by 3 a line to which a load check answers [^3]"
    must_tell "told $((1 << 32))" "gate_state_bytes refused by 0 a line to which a load check answers [0-9]"
    must_tell "told $((2 << 32 | small))" "gate_state_bytes answered the kind 2, which is none of its kinds"
}

# What gate_first_bad may not answer.
wrong_first_bad() {
    local named="gate_first_bad named record" first="and the first that breaks a rule is"
    must_tell "named-more" "$named ([0-9]+), $first [0-9]+"
    must_tell "named-less" "$named [0-9]+, $first [0-9]+"
    must_tell "named-later" "$named [0-9]+, $first [0-9]+"
    must_tell "named-question" "gate_first_bad refused by [2-8] what an operation answers by [1-7]"
    for number in 1 6 7; do
        must_tell "named-let-by $number" "gate_first_bad did not refuse what an operation refuses by $number"
    done
    # A constant: no record, the first one, one that no area has, refused by 3, by none and by 7, and another kind.
    must_tell "named 0" "($named 0, $first [1-9][0-9]*|gate_first_bad did not .*)"
    must_tell "named 1" "($named 1, $first ([02-9]|[1-9][0-9]+)|gate_first_bad did not .*)"
    must_tell "named 193" "($named 193, $first [0-9]+|gate_first_bad did not .*)"
    must_tell "named $((1 << 32 | 3))" "gate_first_bad refused by 3 what an operation answers by ([^3]|[0-9]+)"
    must_tell "named $((1 << 32))" "gate_first_bad refused by 0 what an operation answers by [0-9]+"
    must_tell "named $((1 << 32 | 7))" "gate_first_bad refused by 7 what an operation answers by ([^7]|[0-9]+)"
    must_tell "named $((2 << 32))" "gate_first_bad answered the kind 2, which is none of its kinds"
}

# What concerns the length of a state area, and the objects whose numbers have two bytes.
wrong_rooms() {
    must_tell "small-only" "gate_fresh refused a fresh state of a sound line by 7"
    must_tell "either" "gate_(fresh|operate) accepted \(0\) a length that it must refuse"
    must_tell "last-record" \
        "gate_first_bad named record 192 of a state that an operation, answered by 10, found well formed"
    must_tell "last-record data" "gate_operate answered 10, and not 9, for a byte of an absent object at place [0-9]+"
    local left=", and did not leave the state as document 01 says at place [0-9]+"
    must_tell "modulo" "gate_operate accepted \(0\)($left| a record that it must refuse)"
}

# What concerns green zones.
wrong_green() {
    must_tell "plain-zone" \
        "gate_operate accepted \(0\), and did not leave the state as document 01 says at place [0-9]+"
    must_tell "instead 22 0" "gate_operate answered 0, and the green rule is broken"
    must_tell "instead 22 19" "gate_operate answered 19, and the green rule is broken"
    must_tell "instead 22 21" "gate_operate answered 21, and the green rule is broken"
    must_tell "instead 19 22" "gate_operate answered 22, and the green rule is kept"
    must_tell "as-plain 1" "gate_operate answered (0|19), and the (green rule is broken|driver is in a green zone)"
    must_tell "as-plain 8" "gate_operate answered (0|21), and the green rule is broken"
    for code in 10 11 12; do
        must_tell "as-plain $code" "gate_operate answered 0, and what stays in the green zone names what leaves it"
    done
}

# What concerns locks.
wrong_locks() {
    local left="accepted \(0\), and did not leave the state as document 01 says at place [0-9]+"
    local other="and (a card's partition or lock asks for another answer|nothing is in the way of the card's lock)"
    local broken="(gate_operate answered [0-9]+, and a lock byte breaks a rule"
    broken+="|gate_first_bad was asked for a state whose locks break a rule, and an operation answered [0-9]+)"
    must_tell "as-unlocked 8" "gate_operate answered (0|21|22), $other"
    must_tell "as-unlocked 14" "gate_operate answered 0, $other"
    must_tell "as-unlocked 15" "gate_operate answered 23, $other"
    must_tell "lock-unset" "gate_operate $left"
    must_tell "unlock-unset" "gate_operate $left"
    must_tell "fixed-locks" "gate_operate $left"
    must_tell "leave-unlocks" "gate_operate $left"
    must_tell "fresh-keeps" "gate_fresh $left"
    must_tell "active-lock" "$broken"
    must_tell "absent-lock" "$broken"
    must_tell "any-lock" "$broken"
    must_tell "early-23" "gate_operate answered 23, $other"
    must_tell "named-locks" "gate_first_bad named record [0-9]+, and the first that breaks a rule is 0"
    must_tell "instead 23 0" "gate_operate answered 0, $other"
    must_tell "instead 23 16" "gate_operate answered 16, $other"
    must_tell "instead 16 23" "gate_operate answered 23, (and its code does not ask for a lock|$other)"
    must_tell "never 23" "the library never answered 23 on small lines"
    must_tell "refuse 14" "the library never accepted code 14 on small lines"
    must_tell "refuse 15" "the library never accepted code 15 on small lines"
}

# What concerns editions, serials, and numbers that were too large once.
wrong_serials() {
    local wrote="wrote ([0-9]+) bytes, and" told="told that it (wrote|needs) [0-9]+ bytes (of|for) a line of [0-9]+"
    local lacks="found [0-9]+ bytes too few for a line of [0-9]+"
    must_tell "drop-serials" "gate_rewrite ($told|wrote a line of [0-9]+ bytes into [0-9]+)"
    must_tell "cut-serials" "gate_rewrite ($wrote not the line's at place [0-9]+|$told|$lacks|wrote a line .*)"
    must_tell "serial-first" "gate_rewrite $wrote not the line's at place [0-9]+"
    must_tell "as-second" "gate_rewrite $wrote not the line's at place 0"
    must_tell "no-second" "gate_fresh refused a fresh state of a sound line by 3"
    must_tell "third" "gate_(load_check|fresh|operate) accepted \(0\) a line that it must refuse"
    must_tell "last-serial" "gate_fresh refused a fresh state of a sound line by [1-6]"
    must_tell "old-limit" "gate_fresh refused a fresh state of a sound line by 2"
    must_tell "old-records" "gate_operate answered 10, and not 11, for a record with the number 65536"
    must_tell "word-records" "gate_operate accepted \(0\) a record that it must refuse"
    must_tell "judged-serials" "gate_operate answered 14, and 0 for the same line in edition 1"
}

# Without a fault the few inputs are enough to pass.
GATE_FAULT=none "$out/faulty" $few 1 > "$out/rows"
for area in line state record answer; do
    stray_reads $area operate
done
stray_reads line load_check
stray_reads line fresh
stray_reads state fresh
stray_reads line state_bytes
stray_reads line first_bad
stray_reads state first_bad
stray_reads line rewrite
stray_reads out rewrite
for call in load_check state_bytes fresh operate first_bad rewrite; do
    stray_stores line $call
done
stray_stores state first_bad
stray_stores record operate
stray_changes state fresh
stray_changes state operate
stray_changes answer operate
stray_rewriting
wrong_rewriting
wrong_state_bytes
wrong_first_bad
wrong_rooms
wrong_green
wrong_locks
wrong_serials
must_tell "constant 0" "gate_fresh accepted \(0\), and did not leave the state as document 01 says at place [0-9]+"
must_tell "constant 7" "gate_fresh refused a fresh state of a sound line by 7"
must_tell "constant 10" "gate_fresh answered 10, which is none of its numbers"
must_tell "constant 24" "gate_fresh answered 24, which is none of its numbers"
for number in 1 2 3 4; do
    must_tell "instead $number 0" "gate_(load_check|fresh|operate) accepted \(0\) a line that it must refuse"
done
must_tell "instead 7 0" "gate_(fresh|operate) accepted \(0\) a length that it must refuse"
must_tell "instead 8 0" "gate_operate accepted \(0\) a length that it must refuse"
must_tell "instead 10 0" "gate_operate accepted \(0\) a record that it must refuse"
must_tell "instead 11 0" "gate_operate accepted \(0\) a record that it must refuse"
for number in 19 21; do
    must_tell "instead $number 0" \
        "gate_operate accepted \(0\), and did not leave the state as document 01 says at place [0-9]+"
done
must_tell "never 1" "the library never answered 1 on small lines"
must_tell "never 21" "the library never answered 21 on small lines"
must_tell "never 22" "the library never answered 22 on small lines"
must_tell "refuse 1" "the library never accepted code 1 on small lines"
must_tell "refuse 13" "the library never accepted code 13 on small lines"
must_tell "place" "gate_operate answered 10, and in the pass before [0-9]+"
for fault in "change-accepted state operate" "change-accepted answer operate" "change-refused state operate" \
    "change-accepted state fresh" "instead 16 0" "instead 9 0" "never 21" "never 22" "refuse 13" "small-only" "modulo" \
    "plain-zone" "as-plain 8" "named-less" "named-let-by 7" "one-off" "told-question"; do
    must_differ "$fault"
done
echo "host: $seen faults put into the library, each told by the test"
