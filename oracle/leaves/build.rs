//! Links the archive that `rt lib` writes in crates/c_leaves.

use std::env;
use std::path::PathBuf;

fn main() {
    let leaves = PathBuf::from(env::var("CARGO_MANIFEST_DIR").unwrap());
    let folder = leaves.join("../../crates/c_leaves/out");
    let archive = folder.join("libc_leaves.a");
    println!("cargo:rerun-if-changed=build.rs");
    println!("cargo:rerun-if-changed={}", archive.display());
    assert!(archive.is_file(), "no libc_leaves.a: run `rt lib` in crates/c_leaves");
    println!("cargo:rustc-link-search=native={}", folder.display());
    println!("cargo:rustc-link-lib=static=c_leaves");
}
