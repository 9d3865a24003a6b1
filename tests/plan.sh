#!/usr/bin/env bash
# The planner's tool: compiled with warnings as errors, then tested with the answers of the office program, and its page
# in a browser (tests/browser.sh). With names, as in `bash tests/plan.sh test_chains`, only these tests.
# `bash tests/plan.sh --write` stores what is made as what is expected; that is no test, and nothing else does it.
set -euo pipefail
cd "$(dirname "$0")/.."
out=$(mktemp -d)
trap 'rm -rf "$out"' EXIT
# The program that is tried is the repository's own.
unset KOLLUWAR_OFFICE
export PYTHONPYCACHEPREFIX="$out" PYTHONPATH="$PWD/tools:$PWD/tests:$PWD/tests/plan"
# Workbooks need two libraries. In the gate they are installed if need be and allowed; else their tests are skipped.
if [ "${CI:-}" = true ] && ! python3 tests/plan/libraries.py > /dev/null 2>&1 && [ "$(id -u)" = 0 ]; then
    get=(apt-get install --yes --no-install-recommends python3-openpyxl python3-odf)
    "${get[@]}" > "$out/apt.log" 2>&1 || { apt-get update && "${get[@]}"; } >> "$out/apt.log" 2>&1 ||
        tail -n 5 "$out/apt.log" >&2
fi
python3 -W error -m compileall -q tools/planner tests/plan tests/browser
python3 -W error tests/plan/run.py "$@"
[ $# -gt 0 ] || bash tests/browser.sh
