#!/usr/bin/env bash
# The example of a host that does what it owes, examples/controller/host.c: in which order it acts and stores for a
# record of every code (tests/owing.rows), and many made up runs, in which every report is accepted and no card leaves
# its partition (tests/owing.c). Then the same over copies of the example with a fault each, every one of which must be
# told.
set -euo pipefail
cd "$(dirname "$0")/.."
out=$(mktemp -d)
trap 'rm -rf "$out"' EXIT
make -s lib
example=examples/controller/host.c
cp examples/controller/*.h "$out"

# build NAME EXAMPLE FLAG..: the test over the example or over a copy of it
build() {
    gcc -std=c11 -Iinclude -Iexamples/controller "${@:3}" "-DEXAMPLE=\"$2\"" -o "$out/$1" tests/owing.c \
        target/staticlib/libgate.a
}

# rows NAME: what it does for a record of every code is what is stored
rows() {
    "$out/$1" "$out" rows | sed "s|$out/||" | diff tests/owing.rows -
}

build plain "$PWD/$example" -O2 -Wall -Wextra -Werror -g -fsanitize=address,undefined
rows plain
"$out/plain" "$out" runs 3000
gcc -std=c11 -O2 -Wall -Wextra -Werror -Iinclude -o "$out/host" $example target/staticlib/libgate.a

# must_start STATUS WORD..: the example ends so
must_start() {
    local status=0
    "$out/host" "${@:2}" > "$out/told" || status=$?
    if [ $status != "$1" ]; then
        echo "owing: 'host ${*:2}' ends with $status, and not with $1:" >&2
        cat "$out/told" >&2
        exit 1
    fi
}
must_start 1 "$out/state.bin"
must_start 1 --first "$out/absent/state.bin"
must_start 0 --first "$out/state.bin"
must_start 1 --first "$out/state.bin"
must_start 0 "$out/state.bin"
# Without the reports the card leaves its partition, in the example's own list of records.
must_start 1 --first --silent "$out/silent.bin"
grep -q '^    card 1 writes object 4, which is in no partition$' "$out/told"

told=0
# must_tell FAULT PART SED..: with the fault the part fails
must_tell() {
    sed "${@:3}" $example > "$out/faulty.c"
    if cmp -s $example "$out/faulty.c"; then
        echo "owing: the example has no place for the fault '$1'" >&2
        exit 1
    fi
    build faulty "$out/faulty.c" -w -O0
    rm -f "$out/owing.bin"
    if case $2 in rows) rows faulty ;; runs) "$out/faulty" "$out" runs 1000 ;; esac > /dev/null 2>&1; then
        echo "owing: the fault '$1' is not told by the $2" >&2
        exit 1
    fi
    told=$((told + 1))
}
must_tell "nothing is reported" runs 's/machine.puts && !silent/0/'
must_tell "only the last is reported" runs \
    's/(size_t i = 0; i < machine.puts/(size_t i = machine.puts - 1; i < machine.puts/'
must_tell "reported in another order" runs 's/machine.untold\[i\]/machine.untold[machine.puts - 1 - i]/'
must_tell "reported after the call" runs \
    's/!tell() || !called(record, length, n)/!called(record, length, n) || !tell()/'
must_tell "nothing is cleared" rows 's/^.*put_contents("clear".*$//'
must_tell "nothing is cleared" runs 's/^.*put_contents("clear".*$//'
must_tell "cleared where it goes out" rows \
    's/came_in(object_at(i)) && made.kind\[i\] != HARD_WIRED) {/went_out(object_at(i))) {/'
must_tell "a hard-wired descriptor is cleared" rows 's/ && made.kind\[i\] != HARD_WIRED//'
later=(-e 's/^        take_away();$//' -e 's/^        give(record);$/        take_away();\n&/')
must_tell "taken away after the area is stored" rows "${later[@]}"
sooner=(-e 's/^        give(record);$//' -e 's/^        take_away();$/&\n        give(record);/')
must_tell "given before the area is stored" rows "${sooner[@]}"
must_tell "not stored" rows -e 's/!store(file_name, line, line_len, state, state_len)) {/0) {/' \
    -e 's/^        did("store", 0);$//'
must_tell "done though it is refused" rows 's/if (\*n == SORTER_GATE_ACCEPTED) {/if (1) {/'
must_tell "a write is not done" runs 's/put_contents("write", object, contents_of(object));/;/'
must_tell "a copy is not done" runs 's/put_contents("copy to", destinations\[i\], held\[i\]);/;/'
must_tell "copied one by one" runs \
    's/^        destinations\[i\] = next_number(&at);$/&\n        put_contents("copy to", destinations[i], held[i]);/'
must_tell "the machine left as it is at a restart" rows 's/^    put_in_line();$//'
must_tell "a fresh state at each start" rows -e 's/if (first != (found == ABSENT)) {/if (0) {/' \
    -e 's/if (first) {/if (1) {/'
echo "owing: $told faults put into the example, each told by the test"
