#!/usr/bin/env bash
# The second implementation beside the proved one: its own tests; the stored sessions are the ones it makes, and show
# what they must, every fault of its faulty judges among it; the proved library gives its answers and leaves its bytes,
# call by call; the proved writer does so on generated configurations in memory; the office program prints its text, and
# the rewriting program prints its text and makes its file, on generated folders and on bad input. A number as the
# argument is how many calls are compared (30,000 if none is given).
set -euo pipefail
cd "$(dirname "$0")/.."
. tests/rust.sh
export CARGO_TARGET_DIR=$PWD/target/reference
out=$(mktemp -d)
trap 'rm -rf "$out"' EXIT

rust_tests reference reference
cargo build --offline --locked --quiet --release --manifest-path reference/Cargo.toml
release=$CARGO_TARGET_DIR/release
reference=$release/reference

"$reference" sessions --seed 1 "$out/stdin" "$out/stdout" 2> "$out/histogram"
cmp "$out/stdin" crates/sessions/stdin
cmp "$out/stdout" crates/sessions/stdout
echo "reference: the stored sessions are the ones that it makes"
"$reference" coverage crates/sessions/stdin

# The archive of today's sources, and no older one that happens to be there.
make -s lib
export GATE_LIB_DIR=$PWD/target/staticlib
cargo build --offline --locked --quiet --release --manifest-path reference/matching/Cargo.toml
"$release/matching" --calls "${1:-30000}"

python3 tests/memories.py "$(./judge --program vectors)" "$release/memories" "$release/vectors"
python3 tests/office.py "$(./judge --program)" "$reference"
python3 tests/rewrite.py "$(./judge --program rewrite)" "$reference"
