#!/usr/bin/env bash
# The example that stores a state area, with lines of both kinds: ended after each of its system calls, with calls that
# fail, and with files that are damaged, cut or another line's (tests/storing.c) or stored before areas had lock bytes
# (tests/storing_before.c); and what it tells of a damaged area (tests/damaged.py). Then the same over copies of the
# example with a fault each, every one of which must be told.
set -euo pipefail
cd "$(dirname "$0")/.."
out=$(mktemp -d)
trap 'rm -rf "$out"' EXIT
make -s lib
example=examples/controller/restore.c
wrapped=-Wl,--wrap=open,--wrap=write,--wrap=fsync,--wrap=close,--wrap=rename

# build NAME EXAMPLE FLAG..: the test over the example or over a copy of it
build() {
    gcc -std=c11 -O1 -Iinclude "${@:3}" "-DEXAMPLE=\"$2\"" -o "$out/$1" tests/storing.c tests/cut_calls.c \
        target/staticlib/libgate.a $wrapped
    mkdir -p "$out/folder"
}

# build_before EXAMPLE FLAG..: the test with areas of before, over the example or over a copy of it
build_before() {
    gcc -std=c11 -O1 -Iinclude "${@:2}" "-DEXAMPLE=\"$1\"" -o "$out/before" tests/storing_before.c \
        target/staticlib/libgate.a
    mkdir -p "$out/folder"
}

# build_example EXAMPLE: the example itself
build_example() {
    gcc -std=c11 -O1 -w -Iinclude -o "$out/restore" "$1" target/staticlib/libgate.a
}

checked=(-O2 -Wall -Wextra -Werror -g -fsanitize=address,undefined)
build plain "$PWD/$example" "${checked[@]}"
"$out/plain" "$out/folder"
build_before "$PWD/$example" "${checked[@]}"
"$out/before" "$out/folder"
build_example "$example"
python3 tests/damaged.py "$out/restore"

told=0
# put_fault FAULT SED..: the fault by its name, the edit that puts it into a copy of the example
put_fault() {
    sed "${@:2}" "$example" > "$out/faulty.c"
    if cmp -s "$example" "$out/faulty.c"; then
        echo "storing: the example has no place for the fault '$1'" >&2
        exit 1
    fi
}

# must_end FAULT MESSAGE COMMAND..: the command, over the copy, ends with the message
must_end() {
    local status=0
    "${@:3}" > /dev/null 2> "$out/told" || status=$?
    if [ $status != 1 ] || ! grep -qE "^$2" "$out/told"; then
        echo "storing: with the fault '$1' it ends with $status, and not with '$2':" >&2
        cat "$out/told" >&2
        exit 1
    fi
    told=$((told + 1))
}

# must_tell FAULT PART MESSAGE SED..: the part that must end with the message
must_tell() {
    put_fault "$1" "${@:4}"
    build faulty "$out/faulty.c" -w
    must_end "$1" "storing: $3" "$out/faulty" "$out/folder" "$2"
}

# must_carry FAULT MESSAGE SED..: the message with which the test with areas of before must end
must_carry() {
    put_fault "$1" "${@:3}"
    build_before "$out/faulty.c" -w
    must_end "$1" "storing: $2" "$out/before" "$out/folder"
}

# must_name FAULT MESSAGE SED..: the message with which the trial of damaged areas must end
must_name() {
    put_fault "$1" "${@:3}"
    build_example "$out/faulty.c"
    must_end "$1" "damaged: $2" python3 tests/damaged.py "$out/restore"
}

neither='after .* the area is neither the old nor the new one'
untrue='after .* the area is not the new one, though it was said to be stored'
order='the order of calls is'
late='static int late(const char *name) { int f = open(name, O_WRONLY); return fsync(f) == 0 \&\& close(f) == 0; }'
renamed_first=(-e 's/ && fsync(file) == 0;/;/;t' -e 's/rename(fresh, name) == 0/& \&\& late(name)/'
    -e "s/^static int store(/$late\n&/")
must_tell "file not flushed" order "$order owcrOFC" 's/ && fsync(file) == 0;/;/'
must_tell "file not flushed" cuts "$neither" 's/ && fsync(file) == 0;/;/'
must_tell "renamed before it is flushed" order "$order owcrofcOFC" "${renamed_first[@]}"
must_tell "renamed before it is flushed" cuts "$neither" "${renamed_first[@]}"
must_tell "folder not flushed" order "$order owfcr," 's/ && flush_folder(name)//'
must_tell "folder not flushed" cuts "$untrue" 's/ && flush_folder(name)//'
must_tell "folder flushed too early" cuts "$untrue" \
    's/rename(fresh, name) == 0 && \(flush_folder(name)\)/\1 \&\& rename(fresh, name) == 0/'
must_tell "another folder flushed" order "$order" 's/O_RDONLY | O_DIRECTORY/O_RDONLY/'
must_tell "written in place" cuts "$neither" 's/"%s.new", name/"%s", name/'
must_tell "a part taken for all" cuts "$neither" 's/done += n > 0 .*/done = count;/'
must_tell "an older file not cut" cuts "$neither" 's/ | O_TRUNC//'
must_tell "a write that failed" errors "$neither" \
    's/write_all(file, bytes, count) &&/(write_all(file, bytes, count), 1) \&\&/'
must_tell "a flush that failed" errors 'call [0-9]+ failed' 's/fsync(file) == 0/(fsync(file), 1)/'
must_tell "a close that failed" errors 'call [0-9]+ failed' 's/close(file) == 0 &&/(close(file), 1) \&\&/'
must_tell "a rename that failed" errors "$untrue" 's/rename(fresh, name) == 0/(rename(fresh, name), 1)/'
must_tell "an interrupted write" errors 'call [0-9]+ failed by Interrupted' 's/ && errno != EINTR//'
must_tell "checksum not checked" damage 'a changed byte at place' 's/!holds(file + sum_at, digest(file, sum_at))/0/'
must_tell "checksum of the area alone" damage 'a changed byte at place 8:' \
    's/digest(file, sum_at)/digest(file + STATE_AT, state_len)/'
must_tell "mark not checked" damage 'a changed byte at place 0:' 's/memcmp(file, MARK, LINE_AT) != 0/0/'
must_tell "area taken though refused" damage '.*yet the state area was changed' \
    's/if (may_be_used(found))/if (found != ABSENT)/'
must_tell "a longer file taken" lengths 'a file of length' 's/count != sum_at + SUM_BYTES/count < sum_at + SUM_BYTES/'
must_tell "a longer file not seen" lengths 'a file of length' 's/file\[MOST_BYTES + 1\]/file[MOST_BYTES]/'
must_tell "a shorter file taken" lengths 'a file of length' 's/count != sum_at + SUM_BYTES/count > sum_at + SUM_BYTES/'
# The two lengths of a state area, as the header has them.
length_of() {
    sed -n "s/^#define $1 //p" include/sorter_gate.h
}
small=$(length_of SORTER_GATE_STATE_BYTES)
wide=$(length_of SORTER_GATE_STATE_BYTES_WIDE)
must_tell "the small length for all" form "the line's area is taken to have $small bytes, and not $wide" \
    's/state_len = SORTER_GATE_NUMBER(needed);/state_len = SORTER_GATE_STATE_BYTES;/'
must_tell "the wide length for all" form "the line's area is taken to have $wide bytes, and not $small" \
    's/state_len = SORTER_GATE_NUMBER(needed);/state_len = SORTER_GATE_STATE_BYTES_WIDE;/'
must_carry "the wide length for all" 'tests/stored/state.bin is not an older file of the small line' \
    's/state_len = SORTER_GATE_NUMBER(needed);/state_len = SORTER_GATE_STATE_BYTES_WIDE;/'
must_tell "only a part of the area stored" form 'the stored file is not made of' \
    's/memcpy(file + STATE_AT, state, state_len)/memcpy(file + STATE_AT, state, SORTER_GATE_STATE_BYTES)/'
must_tell "only a part of the area restored" lines 'the area is not restored' \
    's/memmove(to, from, area_len)/memmove(to, from, area_len - 16)/'
must_tell "another mark" form 'the stored file is not made of' 's/"SGSTATE2"/"SGSTATE3"/'
not='an area of before is not restored: it is said to be'
must_carry "the older mark not known" "$not 'refused: it has another length'" 's/"SGSTATE1"/"SGSTATE0"/'
must_carry "an older area not carried over" "$not 'refused: it has another length'" \
    's/return older ? .*/return state_len;/'
must_carry "the older mark refused" "$not 'refused: it does not begin as" 's/ = area_len == state_len ? .*/ = WHOLE;/'
must_carry "an older area taken for one of today" "$not 'whole, and of this line'$" \
    's/? whole : OTHER_LINE/? WHOLE : OTHER_LINE/'
must_carry "an older area not put into the state" 'an area of before is restored as another one' \
    's/return found == WHOLE || found == OLDER;/return found == WHOLE;/'
must_carry "no zeros for the locks" 'an area of before is restored as another one' 's/memset(to + area_len, 0, .*/;/'
must_carry "other bytes for the locks" 'an area of before is restored as another one' \
    's/memset(to + area_len, 0,/memset(to + area_len, 1,/'
must_carry "zeros before the area" 'an area of before is restored as another one' \
    's/memmove(to, from, area_len);/memmove(to + state_len - area_len, from, area_len);/'
must_carry "zeros at each start" 'an area of before that was stored again is restored as another one' \
    's/memset(to + area_len, 0, .*/memset(to + state_len - SORTER_GATE_LOCK_BYTES, 0, SORTER_GATE_LOCK_BYTES);/'
must_carry "stored with the older mark" 'an area of before that was stored again is not restored' \
    's/memcpy(file, MARK, LINE_AT)/memcpy(file, OLDER_MARK, LINE_AT)/'
must_carry "checksum of an older file not checked" 'a changed byte of an older file at place' \
    's/!holds(file + sum_at, digest(file, sum_at))/whole != OLDER \&\& &/'
must_carry "an older area of another line taken" 'an older area of another line is not refused' \
    's/return holds(file + LINE_AT.*/return whole;/'
must_carry "an older area not used" 'a start with an area of before' 's/&& !may_be_used(found)/\&\& found != WHOLE/'
must_tell "a line file that is not there" starts 'a line file that is refused' \
    's/if (name && \(read_file(.*)\) != WHOLE)/if (name \&\& \1, 0)/'
must_tell "a fresh state at each start" starts 'two starts do not leave' 's/if (found == ABSENT)/if (1)/'
must_tell "line not checked" lines "another line's area" 's/return holds(file + LINE_AT.*/return WHOLE;/'
must_tell "another digest" digest 'the digest of' 's/0x100000001b3u/0x100000001b5u/'
must_tell "a name below a file" unreadable 'a name below' 's/errno == ENOENT ? ABSENT : UNREADABLE/ABSENT/'
must_tell "a read that failed" unreadable 'a folder' 's/failed ? UNREADABLE : //'
must_tell "nothing stored" unreadable 'that nothing is stored' 's/errno == ENOENT ? ABSENT : UNREADABLE/UNREADABLE/'
named='.*it prints .*the first broken record is that of object'
must_name "records counted from 0" "$named 0" 's/that of object %u\\n", number/&- 1/'
must_name "the place not told" '.*, checksum made to fit: it prints' 's/n == SORTER_GATE_STATE_FORM/0/'
must_name "the place told of a good look alone" '.*, checksum made to fit: it prints' \
    's/n == SORTER_GATE_STATE_FORM/n == SORTER_GATE_RECORD/'
must_name "the place not told of a damaged file" '.*, checksum left: it prints' 's/tell_damage(name);/;/'
must_name "another part of the file looked at" "$named" 's/tell_place(file + STATE_AT,/tell_place(file,/'
must_name "an older file's place not told" '.*, older, .*, checksum left: it prints' \
    's/count == STATE_AT + area_len + SUM_BYTES/count == STATE_AT + state_len + SUM_BYTES/'
must_name "the small length for all" '97 objects, .*no record can be named: refused by question 7' \
    's/line_len, damaged, state_len/line_len, damaged, SORTER_GATE_STATE_BYTES/'
must_name "a damaged file of another line looked at" '.*, checksum left: it prints .* and not \[.[^,]*\] and 1' \
    's/holds(file + LINE_AT, digest(line, line_len))) {/1) {/'
must_name "a damaged file used" '.*, checksum left: it prints' 's/found != ABSENT && !may_be_used(found)/0/'
must_name "an area used that 9 refuses" '.*, checksum made to fit: it prints' \
    's/return n == SORTER_GATE_RECORD;/return 1;/'
echo "storing: $told faults put into the example, each told by the test"
