#!/usr/bin/env bash
# Builds the published Rust files, unchanged, and the driver over them, into target/compare.
# PHYSDES_SRC: the folder of the five files (default: ../shared/docs/src/src beside the repository).
# Release build with overflow checks: a sum that would wrap panics instead.
# The gate needs nothing of this.
set -euo pipefail
root=$(cd "$(dirname "$0")/.." && pwd)
src=${PHYSDES_SRC:-$root/../shared/docs/src/src}
out=$root/target/compare
. "$root/compare/published.sh"

if [ -z "$(num_traits)" ]; then
    apt-get update
    apt-get install -y --no-install-recommends librust-num-traits-dev
fi

command -v rustc > /dev/null || { apt-get update && apt-get install -y --no-install-recommends rustc; }

mkdir -p "$out/physdes"
(cd "$src" && sha256sum --check --quiet "$root/compare/physdes/published.sha256")
for file in generic global_router interval point vector2; do
    cp "$src/$file.rs" "$out/physdes/$file.rs"
done
cp "$root/compare/physdes/lib.rs" "$out/physdes/lib.rs"

compile() { rustc -O -C overflow-checks=on --out-dir "$out" -L dependency="$out" "$@"; }

compile_published "$out/physdes/lib.rs"
compile --crate-name oracle --edition 2021 --extern physdes="$out/libphysdes.rlib" "$root/compare/driver/oracle.rs"

# `build.sh leaves` and `build.sh calls` link a static library of ours too: the leaf crates' calls, or the router's.
linked() {
    lib=$("$root/staticlib.sh" "$2")
    compile --crate-name "$1" --edition 2021 --extern physdes="$out/libphysdes.rlib" \
        -L native="$lib" -l static="$2" "$root/compare/driver/$1.rs"
}
case ${1:-} in
leaves) linked leaves leaf_calls ;;
calls) linked calls exports ;;
esac
