#!/usr/bin/env bash
# Times our router and the published Rust on the same jobs, in one process. docs/PERFORMANCE.md says how to read the table.
# usage: bench/run.sh [ROUNDS]
# Needs what compare/build.sh needs. PHYSDES_SRC: as there. FERRULESLATE_LIB: the folder of libexports.a, if it is made elsewhere.
set -euo pipefail
root=$(cd "$(dirname "$0")/.." && pwd)
out=$root/target/bench
. "$root/compare/published.sh"

# The Rust as it is published, checked and put beside its root by compare/build.sh; built again without overflow checks, which
# a release build has not.
"$root/compare/build.sh" > /dev/null
lib=${FERRULESLATE_LIB:-$("$root/staticlib.sh" exports)}
mkdir -p "$out"
# Both sides for the processor that rt builds for by default.
compile() { rustc -C opt-level=3 -C codegen-units=1 -C target-cpu=x86-64-v2 --out-dir "$out" -L dependency="$out" "$@"; }
compile_published "$root/target/compare/physdes/lib.rs"
compile --crate-name bench --edition 2021 --extern physdes="$out/libphysdes.rlib" \
    -L native="$lib" -l static=exports "$root/bench/bench.rs"

echo "machine: $(nproc) x $(sed -n 's/^model name[^:]*: //p' /proc/cpuinfo | head -n 1), load $(cut -d' ' -f1-3 /proc/loadavg), $(rustc --version)"
exec "$out/bench" "${1:-200}"
