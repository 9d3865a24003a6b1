#!/usr/bin/env bash
# The gate's own script, .ci/run, over commands that are made up: whatever fails, it fails, and only where nothing does
# is its last line the verdict's; and nothing goes on running after it.
set -euo pipefail
cd "$(dirname "$0")/.."
out=$(mktemp -d)
trap 'rm -rf "$out"' EXIT
mkdir -p "$out/bin" "$out/repo/.ci" "$out/repo/tests"
cp .ci/run "$out/repo/.ci/run"

# A command that writes a word and fails if it is the one that is to fail.
command_of() {
    printf '#!/usr/bin/env bash\necho "$*" "%s"\n[ "$FAILS" != %s ]\n' "$2" "$2" > "$out/$1"
    chmod +x "$out/$1"
}
for name in host reference plan; do
    command_of "repo/tests/$name.sh" $name
done
# Where the tests from the host's side fail, the lane beside them is running.
sed -i '2i [ "$FAILS" != host ] || until [ -s "$LANE" ]; do sleep 0.1; done' "$out/repo/tests/host.sh"
sed -i '2i [ "$FAILS" != host ] || { echo $$ > "$LANE" && exec sleep 60; }' "$out/repo/tests/plan.sh"
cat > "$out/bin/python3" << 'END'
#!/usr/bin/env bash
[ "$FAILS" != vectors ]
END
cat > "$out/bin/rt" << 'END'
#!/usr/bin/env bash
none='rt: ok; handles allowed: none; must-fail edits: 0 refused'
ok='rt: ok; handles allowed: none; must-fail edits: 55 refused'
all='every proof and must-fail edit was done in this run'
kept='done in this run: 2 of the 9 proofs (of crates and of their tests); the others are kept from earlier runs'
case "$* $FAILS" in
"ci rt") printf 'rt: FAILED: model\n1 passed, 1 failed\n' && exit 1 ;;
"ci bad") printf '%s, 1 bad; %s\n2 passed, 0 failed\n' "$ok" "$all" ;;
"ci bad-limit") printf '%s, 3 of them only by a limit, 12 bad; %s\n2 passed, 0 failed\n' "$ok" "$kept" ;;
"ci bad-alone") printf '%s, 2 bad; %s\n2 passed, 0 failed\n' "$none" "$all" ;;
"ci some") printf 'rt: model and the crates below passed\n2 passed, 0 failed (model: not the gate)\n' ;;
"ci silent") printf 'rt: model proved\n2 passed, 0 failed\n' ;;
"ci kept") printf '%s, 3 of them only by a limit; %s\n2 passed, 0 failed\n' "$ok" "$kept" ;;
"ci "*) printf '%s; %s\n2 passed, 0 failed\n' "$ok" "$all" ;;
*) echo "rt: $*" && exit 1 ;;
esac
END
cat > "$out/bin/make" << 'END'
#!/usr/bin/env bash
echo "$*"
[ "$FAILS" != "${*: -1}" ]
END
chmod +x "$out"/bin/*

# What is to fail, and the status and the last line that the gate must then have.
must_end() {
    local status=0 last
    FAILS=$1 LANE=$out/lane PATH=$out/bin:$PATH bash "$out/repo/.ci/run" > "$out/text" 2>&1 || status=$?
    last=$(tail -n 1 "$out/text")
    if [ "$status" != "$2" ] || ! grep -qE "^$3$" <<< "$last" || head -n -1 "$out/text" | grep -q "0 failed"; then
        echo "gate: where '$1' fails, .ci/run ends with $status and '$last', or has the verdict in its midst" >&2
        exit 1
    fi
}
must_end nothing 0 "2 passed, 0 failed"
must_end kept 0 "2 passed, 0 failed"
must_end rt 1 "1 passed, 1 failed"
for fault in bad bad-limit bad-alone; do
    must_end $fault 1 "gate: must-fail edits are bad: they could not be tried, and show nothing"
done
for fault in some silent; do
    must_end $fault 1 "gate: rt ci ended well, and yet without its line of what passed"
done
must_end plan 1 "tests/plan.sh ended with status 1"
must_end lib 1 "--no-print-directory lib"
must_end vectors 1 "part: make .* lib \([0-9]+ s\)"
must_end host 1 " host"
must_end reference 1 " reference"
must_end check 1 "--no-print-directory check"
# The lane's command is gone, or only waits for somebody to ask how it ended.
lane=$(cat "$out/lane")
for _ in {1..50}; do
    state=$(sed -n 's/^State:[[:space:]]*\(.\).*/\1/p' "/proc/$lane/status" 2> /dev/null || true)
    [[ $state == [!Z] ]] || break
    sleep 0.1
done
if [[ $state == [!Z] ]]; then
    echo "gate: where 'host' fails, the lane beside it goes on" >&2
    exit 1
fi
echo "gate: .ci/run fails where one of its parts does, and ends all that it began"
