#!/usr/bin/env bash
# The archive that a controller links: it exports the six functions and nothing else, needs memcpy and memset at most,
# and has no byte that can be written. The same is asked of small archives that are wrong in one point each, and that
# must be told.
#   archive.sh [ARCHIVE]
set -euo pipefail
cd "$(dirname "$0")/.."
export LC_ALL=C
out=$(mktemp -d)
trap 'rm -rf "$out"' EXIT
all="gate_first_bad gate_fresh gate_load_check gate_operate gate_rewrite gate_state_bytes"

# The names of an archive's global symbols, in one row; a further word chooses which.
names() {
    nm --extern-only --format=posix "$2" "$1" | awk 'NF > 1 { print $1 }' | sort | xargs
}

# What is wrong with an archive, a row for each point; nothing if it is in order.
faults() {
    local exported needed written
    exported=$(names "$1" --defined-only)
    needed=$(names "$1" --undefined-only)
    # The columns are text, data and bss: every section that can be written counts as data or as bss.
    written=$(size "$1" | awk 'NR > 1 { data += $2; bss += $3 } END { print data + 0 " and " bss + 0 }')
    [ "$exported" = "$all" ] || echo "exports $exported"
    # What one member lacks another may have.
    for name in $needed; do
        [[ " memcpy memset $exported " == *" $name "* ]] || echo "needs $name"
    done
    [ "$written" = "0 and 0" ] || echo "has bytes of data and of bss: $written"
}

# An archive of six such functions, with a declaration before them and what the last one does.
small_archive() {
    cat > "$out/small.c" << END
#include <stdlib.h>
#include <string.h>
$1
int gate_load_check(char *to, const char *from, size_t n) { memcpy(to, from, n); return 0; }
int gate_fresh(char *to, size_t n) { memset(to, 0, n); return 0; }
int gate_rewrite(char *to, const char *from, size_t n) { memcpy(to, from, n); return 0; }
int gate_state_bytes(const char *from, size_t n) { return n > 0 && from[0] == 1; }
int gate_first_bad(const char *from, size_t n) { return n > 0 && from[0] == 2; }
int gate_operate(char *to, const char *from, size_t n) { $2; }
END
    gcc -std=c11 -O1 -Wall -Werror "${@:3}" -c -o "$out/small.o" "$out/small.c"
    rm -f "$out/small.a"
    ar rc "$out/small.a" "$out/small.o"
}

# What must be told of an archive, the declaration and the statement that make it wrong, and further words for gcc.
must_tell() {
    small_archive "${@:2}"
    faults "$out/small.a" > "$out/told"
    if ! grep -qxF "$1" "$out/told"; then
        echo "archive: '$1' is not told of one with: $2 $3" >&2
        cat "$out/told" >&2
        exit 1
    fi
    tried=$((tried + 1))
}

tried=0
more="exports extra $all"
bytes="has bytes of data and of bss:"
must_tell "$more" 'int extra(void) { return 0; }' 'return 0'
must_tell "$more" '__attribute__((weak)) int extra(void) { return 0; }' 'return 0'
must_tell "$more" '__attribute__((visibility("hidden"))) int extra(void) { return 0; }' 'return 0'
must_tell "$more" 'const int extra = 3;' 'return 0'
must_tell "$more" 'int extra;' 'return 0' -fcommon
must_tell "exports ${all/gate_operate /} other" '#define gate_operate other' 'return 0'
must_tell "exports ${all/gate_rewrite /}" 'static int gate_rewrite(char *, const char *, size_t);' \
    'return gate_rewrite(to, from, n)'
must_tell "exports ${all/ gate_state_bytes/}" 'static int gate_state_bytes(const char *, size_t);' \
    'return gate_state_bytes(to, n) + (from == to)'
must_tell "exports ${all/gate_first_bad /}" 'static int gate_first_bad(const char *, size_t);' \
    'return gate_first_bad(to, n) + (from == to)'
must_tell "needs malloc" '' 'return malloc(n) != NULL'
must_tell "needs memmove" '' 'memmove(to, from, n); return 0'
must_tell "$bytes 0 and 4" 'int extra;' 'return 0' -fno-common
must_tell "$bytes 4 and 0" 'int extra = 3;' 'return 0'
must_tell "$bytes 0 and 4" 'static int extra;' 'return ++extra'
must_tell "$bytes 4 and 0" 'static int extra = 3;' 'return ++extra'
must_tell "$bytes 0 and 4" 'static _Thread_local int extra;' 'return ++extra'
must_tell "$bytes 4 and 0" 'static __attribute__((section("own"))) int extra = 3;' 'return ++extra'

archive=${1:-target/staticlib/libgate.a}
small_archive '' 'return 0'
for file in "$out/small.a" "$archive"; do
    faults "$file" > "$out/told"
    if [ -s "$out/told" ]; then
        sed "s|^|archive: ${file##*/} |" "$out/told" >&2
        exit 1
    fi
done
echo "archive: ${archive##*/} exports $all, needs $(names "$archive" --undefined-only), has no data and no bss;" \
    "$tried wrong ones are told"
