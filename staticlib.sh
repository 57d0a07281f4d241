#!/usr/bin/env bash
# The calls for C: proves and builds crates/NAME_c, puts the archive into target/staticlib/libNAME.a, and prints that folder.
# usage: staticlib.sh exports|leaf_calls [FLAGS of rt lib], as `--cpu x86-64` for every x86-64 processor: without it the archive is for x86-64-v2
set -euo pipefail
root=$(cd "$(dirname "$0")" && pwd)
name=${1:-}
[ -n "$name" ] && [ -d "$root/crates/${name}_c" ] || { echo "usage: staticlib.sh exports|leaf_calls [FLAGS of rt lib]" >&2; exit 2; }
(cd "$root/crates/${name}_c" && rt lib "${@:2}") >&2
mkdir -p "$root/target/staticlib"
cp "$root/crates/${name}_c/out/lib${name}_c.a" "$root/target/staticlib/lib$name.a"
echo "$root/target/staticlib"
