# Sourced by bindings.sh and reference.sh, which say where things are built ($CARGO_TARGET_DIR) and have a folder $out
# for what passes: runs the tests of a Rust package, and holds that they are as many as the package has.

# How many tests a package's files have: the functions marked so, and the examples in its pages.
written_tests() {
    find "$1/src" "$1/tests" -name '*.rs' -exec cat {} + | awk '
        /^[ \t]*#\[test\]/ { tests++ }
        /^[ \t]*\/\/[\/!] *```/ { inside = !inside; tests += inside }
        END { print tests + 0 }'
}

# rust_tests NAME PACKAGE
rust_tests() {
    cargo test --offline --locked --quiet --manifest-path "$2/Cargo.toml" > "$out/log" 2>&1 ||
        { tail -n 40 "$out/log" >&2; exit 1; }
    passed=$(awk '/^test result: ok/ { passed += $4 } END { print passed + 0 }' "$out/log")
    written=$(written_tests "$2")
    if [ "$passed" -eq 0 ] || [ "$passed" -lt "$written" ]; then
        echo "$1: $passed tests passed, and $2 has $written" >&2
        exit 1
    fi
    echo "$1: $passed tests passed"
}
