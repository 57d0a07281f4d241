#!/usr/bin/env bash
# The tests: every proof, every must-fail edit, every program (`rt ci`). The last line is `N passed, 0 failed`. What an earlier run on this machine
# passed is taken from it, by the checksums of all that it read; `rt ci --anew` proves everything from nothing. `rt ci` passes where an edit cannot be
# applied or read (`, N bad`), and then nothing shows that its program is refused; so that fails here.
set -o pipefail
cd "$(dirname "$0")" || exit 2
said=$(mktemp) || exit 2
trap 'rm -f "$said"' EXIT
rt ci 2>&1 | tee "$said" || exit
if ! grep -q '^rt: ok' "$said" || grep -Eq '^rt: ok.*, [0-9]+ bad' "$said"; then
    echo "test: no line 'rt: ok', or one with edits that are bad" >&2
    exit 1
fi
