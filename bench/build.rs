//! Links the static library that `rt lib` wrote for coinwhistle.

use std::env;
use std::path::PathBuf;

fn main() {
    let package = PathBuf::from(env::var_os("CARGO_MANIFEST_DIR").expect("cargo sets it"));
    let folder = package.join("../crates/coinwhistle/out");
    println!("cargo:rustc-link-search=native={}", folder.display());
    println!("cargo:rustc-link-lib=static=coinwhistle");
    println!("cargo:rerun-if-changed={}", folder.join("libcoinwhistle.a").display());
}
