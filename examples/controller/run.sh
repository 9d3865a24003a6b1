#!/usr/bin/env bash
# Builds the library and the controllers, and runs them: once as they are, once under AddressSanitizer. The line that is
# saved must be the one that was loaded, in either edition, and a refused one must not be saved. Of damaged areas the
# broken record must be told (tests/damaged.py); tests/storing.sh tries that again, with all else about storing and
# restoring.
set -euo pipefail
cd "$(dirname "$0")/../.."
out=$(mktemp -d)
trap 'rm -rf "$out"' EXIT
make -s lib
flags="-std=c11 -O2 -Wall -Wextra -Werror -Iinclude"
for name in main save restore; do
    gcc $flags -o "$out/$name" "examples/controller/$name.c" target/staticlib/libgate.a
    gcc $flags -g -fsanitize=address,undefined -o "$out/$name-checked" "examples/controller/$name.c" \
        target/staticlib/libgate.a
done
"$out/main"
"$out/main-checked" > "$out/second"
"$out/main" | cmp - "$out/second"
line=crates/office/data/line.bin
# The same line with serials, in edition 2.
PYTHONPATH=tests python3 -B -c '
import sys
from layout import row, with_serials
with open(sys.argv[1], "rb") as file:
    sys.stdout.buffer.write(row(with_serials(list(file.read()), (70000, 0))))
' "$line" > "$out/serials"
for name in save save-checked; do
    : > "$out/rows"
    for file in "$line" "$out/serials"; do
        "$out/$name" "$file" "$out/saved" >> "$out/rows"
        cmp "$file" "$out/saved"
        rm "$out/saved"
    done
    if "$out/$name" examples/questions/06/line.bin "$out/saved" >> "$out/rows" || [ -e "$out/saved" ]; then
        echo "controller: a line that is refused is saved" >&2
        exit 1
    fi
done
sed "s|$out/||" "$out/rows"
python3 tests/damaged.py "$out/restore-checked"
