//! Links libexports.a, which `./staticlib.sh exports` makes. FERRULESLATE_LIB: its folder, if not target/staticlib of the repository.

use std::env;
use std::path::PathBuf;

fn main() {
    let here = PathBuf::from(env::var_os("CARGO_MANIFEST_DIR").unwrap());
    let folder = match env::var_os("FERRULESLATE_LIB") {
        Some(folder) => PathBuf::from(folder),
        None => here.join("../../target/staticlib"),
    };
    let archive = folder.join("libexports.a");
    assert!(archive.exists(), "no {}: make it by `./staticlib.sh exports`", archive.display());
    println!("cargo:rustc-link-search=native={}", folder.display());
    println!("cargo:rustc-link-lib=static=exports");
    println!("cargo:rerun-if-changed={}", archive.display());
    println!("cargo:rerun-if-env-changed=FERRULESLATE_LIB");
}
