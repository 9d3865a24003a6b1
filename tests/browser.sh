#!/usr/bin/env bash
# The page of a plan in a real browser, Chromium, and printed by it. Chromium and pdftotext are installed from the
# distribution where they are absent and that may be done. Where they cannot be had, this is said and is no failure;
# with CI=true in the environment it is one.
#   browser.sh [NAME ..]
set -euo pipefail
cd "$(dirname "$0")/.."

browser() {
    command -v chromium || command -v chromium-browser || command -v google-chrome || true
}

complete() {
    [ -n "$(browser)" ] && command -v pdftotext > /dev/null
}

install() {
    [ "$(id -u)" = 0 ] && command -v apt-get > /dev/null || return 0
    echo "browser: chromium and pdftotext are being installed"
    { apt-get update && apt-get install -y --no-install-recommends chromium poppler-utils; } > /dev/null 2>&1 || true
}

complete || install
if ! complete; then
    if [ "${CI:-}" = true ]; then
        echo "browser: no browser, or no pdftotext, and none can be installed" >&2
        exit 1
    fi
    echo "skipped: no browser"
    exit 0
fi
out=$(mktemp -d)
trap 'rm -rf "$out"' EXIT
unset KOLLUWAR_OFFICE
export PYTHONPYCACHEPREFIX="$out" PYTHONPATH="$PWD/tools:$PWD/tests:$PWD/tests/plan:$PWD/tests/browser"
export BROWSER_PROGRAM
BROWSER_PROGRAM=$(browser)
python3 -W error tests/browser/run.py "$@"
