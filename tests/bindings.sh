#!/usr/bin/env bash
# The Rust binding over the proved library: its tests, its page's example, its message where there is no library.
set -euo pipefail
cd "$(dirname "$0")/.."
. tests/rust.sh
out=$(mktemp -d)
trap 'rm -rf "$out"' EXIT
make -s lib
export CARGO_TARGET_DIR=$PWD/target/bindings
# Another library than the one of the repository is not what is tested here.
unset GATE_LIB_DIR
rust_tests bindings bindings/rust
# A directory without the library is told by name.
build=(cargo build --offline --locked --quiet --manifest-path bindings/rust/Cargo.toml)
if GATE_LIB_DIR=$out "${build[@]}" > "$out/log" 2>&1; then
    echo "bindings: built without a library" >&2
    exit 1
fi
grep -q "there is no libgate.a in $out" "$out/log" || { cat "$out/log" >&2; exit 1; }
