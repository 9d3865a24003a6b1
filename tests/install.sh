#!/usr/bin/env bash
# Installs the library into a temporary prefix and builds the controller against the installed copy, with pkg-config;
# then the same below a DESTDIR, whose files must be the same and name the prefix alone; then both with blanks in their
# names. Names that would not be taken as they are must be refused, and nothing written.
set -euo pipefail
cd "$(dirname "$0")/.."
out=$(mktemp -d)
trap 'rm -rf "$out"' EXIT
# What the caller's environment or an outer make would say about the places.
unset MAKEFLAGS MFLAGS DESTDIR PREFIX LIBDIR INCLUDEDIR

# File L; a line of 97 objects, all external data, whose state area is longer; and the length of what is stored of it.
line=crates/office/data/line.bin
wide_line() {
    printf '\1\0\0\141\0'
    for _ in {1..97}; do printf '\3\0\0'; done
}
wide_line > "$out/wide.bin"
wide_area=$(sed -n 's/^#define SORTER_GATE_STATE_BYTES_WIDE //p' include/sorter_gate.h)
wide_bytes=$((wide_area + 24))

# As docs/CONTROLLER.md tells the reader; the repository's own header is not on the path. Each program ends with 1 if a
# step does not go as it should. pkg-config writes a blank as the shell reads it, hence the eval.
controllers() {
    words=$(PKG_CONFIG_PATH=$1/lib/pkgconfig pkg-config --cflags --libs sorter_gate)
    rows=0
    for compiler in "gcc -std=c11" "g++ -x c++"; do
        for name in main restore save; do
            cp "examples/controller/$name.c" "$out"
            (cd "$out" && eval "$compiler -O2 -Wall -Wextra -Werror $name.c -x none $words -o $name")
        done
        rm -f "$out/state.bin" "$out/wide-state.bin" "$out/line.out"
        # A line saved, and two starts of the controller that stores its area, with each of two lines.
        if ! ("$out/main" && "$out/save" "$line" "$out/line.out" && "$out/restore" "$out/state.bin" &&
            "$out/restore" "$out/state.bin" && "$out/restore" "$out/wide-state.bin" "$out/wide.bin" &&
            "$out/restore" "$out/wide-state.bin" "$out/wide.bin") > "$out/rows" || ! cmp "$line" "$out/line.out" ||
            [ "$(grep -c '^14  create partition 1$' "$out/rows")" != 2 ] ||
            [ "$(wc -c < "$out/wide-state.bin")" != "$wide_bytes" ]; then
            echo "install: a step of the controllers does not go as it should:" >&2
            cat "$out/rows" >&2
            exit 1
        fi
        rows=$((rows + $(wc -l < "$out/rows")))
    done
    echo "install: the controllers, in C and in C++, print $rows rows as they should"
}

# The installed header and the installed pkg-config file name one version, and a host can compare it when it compiles.
versions() {
    told=$(PKG_CONFIG_PATH=$1/lib/pkgconfig pkg-config --modversion sorter_gate)
    cat > "$out/version.c" << 'END'
#include <stdio.h>
#include <sorter_gate.h>
#if SORTER_GATE_VERSION_NUMBER != \
    SORTER_GATE_VERSION_MAJOR * 1000000 + SORTER_GATE_VERSION_MINOR * 1000 + SORTER_GATE_VERSION_PATCH
#error "the version's number is not put together from its parts"
#endif
int main(void) {
    printf("%s %d.%d.%d\n", SORTER_GATE_VERSION, SORTER_GATE_VERSION_MAJOR, SORTER_GATE_VERSION_MINOR,
           SORTER_GATE_VERSION_PATCH);
}
END
    gcc -std=c11 -Wall -Wextra -Werror -I"$1/include" -o "$out/version" "$out/version.c"
    if [ "$("$out/version")" != "$told $told" ]; then
        echo "install: the header is of version $("$out/version"), the pkg-config file says $told" >&2
        exit 1
    fi
}

# The installed header takes an answer with a kind apart, in C and in C++, whatever stands around it; and the name of
# the macro is still that of a question where no argument follows.
kinds() {
    cat > "$out/kinds.c" << 'END'
#include <sorter_gate.h>
#define HOLDS(name, what) typedef char name[(what) ? 1 : -1]
#define NEEDED UINT64_C(2) << 32 | 45
HOLDS(kind, SORTER_GATE_KIND(NEEDED) == SORTER_GATE_SHORT);
HOLDS(number, SORTER_GATE_NUMBER(NEEDED) == 45);
HOLDS(inside, 90 / SORTER_GATE_NUMBER(NEEDED) == 2 && 4 / SORTER_GATE_KIND(NEEDED) == 2);
HOLDS(refused, SORTER_GATE_KIND(UINT64_C(1) << 32 | 6) == SORTER_GATE_REFUSED);
HOLDS(done, SORTER_GATE_KIND(45) == SORTER_GATE_DONE && sizeof SORTER_GATE_NUMBER(45) == sizeof(uint64_t));
HOLDS(largest, SORTER_GATE_KIND(UINT64_MAX) == UINT32_MAX && SORTER_GATE_NUMBER(UINT64_MAX) == UINT32_MAX);
HOLDS(question, SORTER_GATE_KIND == 13);
END
    for compiler in "gcc -std=c11" "g++ -x c++"; do
        $compiler -Wall -Wextra -Werror -fsyntax-only -I"$1/include" "$out/kinds.c"
    done
}

# install_twice PREFIX STAGE: into the prefix, and below a DESTDIR
install_twice() {
    make -s install PREFIX="$1"
    controllers "$1"
    versions "$1"
    kinds "$1"
    make -s install DESTDIR="$2" PREFIX="$1"
    diff -r "$1" "$2$1"
    grep -qx "prefix=$1" "$2$1/lib/pkgconfig/sorter_gate.pc"
    grep -qx "libdir=\${prefix}/lib" "$2$1/lib/pkgconfig/sorter_gate.pc"
}

install_twice "$out/prefix" "$out/stage"
echo "install: $(cd "$out/prefix" && find . -type f | sort | tr '\n' ' ')"
install_twice "$out/a prefix  with blanks" "$out/a stage"
# The same files, but for the prefix that one of them names.
sed -i "s|^prefix=.*|prefix=$out/prefix|" "$out/a prefix  with blanks/lib/pkgconfig/sorter_gate.pc"
diff -r "$out/prefix" "$out/a prefix  with blanks"

# refused NAME: as each of the places
mkdir "$out/odd"
refused() {
    for place in PREFIX LIBDIR INCLUDEDIR DESTDIR; do
        if make -s install PREFIX="$out/odd/prefix" "$place=$out/odd/$1" > "$out/log" 2>&1 ||
            ! grep -q 'a place may have blanks, but no' "$out/log"; then
            echo "install: $place with '$1' is not refused" >&2
            exit 1
        fi
    done
}
for name in "it's" 'a"b' 'a`b' 'a\b' 'a|b' 'a&b' 'a%b' 'a$$b' 'a#b' $'a\tb' $'a\nb'; do
    refused "$name"
done
if [ -n "$(ls "$out/odd")" ]; then
    echo "install: refused, and yet written: $(ls "$out/odd")" >&2
    exit 1
fi
echo "install: blanks in names are taken, and what cannot be is refused"
