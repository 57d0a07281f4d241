# What compare/build.sh and bench/run.sh share: the published Rust and its one dependency, num-traits, as Debian packages its source. The caller has
# `compile`, which puts what it makes into $out.
num_traits() { ls -d /usr/share/cargo/registry/num-traits-0.2* 2>/dev/null | tail -n 1; }

compile_published() { # ROOT FILE of the published files
    local nt edition
    nt=$(num_traits)
    edition=$(sed -n 's/^edition = "\(.*\)"/\1/p' "$nt/Cargo.toml")
    # Its build script asks which of these the compiler has; every one is older than edition 2021.
    compile --crate-type rlib --crate-name num_traits --edition "${edition:-2015}" --cap-lints allow \
        --cfg 'feature="std"' --cfg has_i128 --cfg has_to_int_unchecked --cfg has_reverse_bits \
        --cfg has_leading_trailing_ones --cfg has_int_assignop_ref --cfg has_div_euclid --cfg has_copysign \
        "$nt/src/lib.rs"
    compile --crate-type rlib --crate-name physdes --edition 2021 --cap-lints allow \
        --extern num_traits="$out/libnum_traits.rlib" "$1"
}
