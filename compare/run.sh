#!/usr/bin/env bash
# Compares our crates and programs with the published Rust. README.md says what each word compares.
# usage: compare/run.sh samples | leaves [SEED [CASES]] | calls [SEED [CASES]] | jobs [SEED [CASES]] | edits [SEED [CASES]]
set -euo pipefail
root=$(cd "$(dirname "$0")/.." && pwd)
out=$root/target/compare
what=${1:-}
seed=${2:-1}
kept=$out/differences

case $what in
samples)
    "$root/compare/build.sh"
    "$out/oracle" samples
    ;;
leaves)
    "$root/compare/build.sh" leaves
    "$out/leaves" "$seed" "${3:-2000000}"
    ;;
calls)
    "$root/compare/build.sh" calls
    "$out/calls" "$seed" "${3:-20000}"
    ;;
jobs | edits)
    # One of our programs, as `rt run` builds it, unless the caller names another.
    case $what in
    jobs) ours=${ROUTEPLAN:-$root/crates/routeplan/out/routeplan} ;;
    edits) ours=${EDITS:-$root/crates/edits/out/edits} ;;
    esac
    [ -x "$ours" ] || { echo "compare: no program $ours; make it by rt run < stdin in its crate" >&2; exit 1; }
    "$root/compare/build.sh"
    rm -rf "$kept"
    "$out/oracle" "compare-$what" "$seed" "${3:-20000}" "$ours" "$kept"
    ;;
*)
    sed -n '2,3s/^# //p' "$0" >&2
    exit 2
    ;;
esac
