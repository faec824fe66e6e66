//! Links the archive that `rt lib` writes in crates/c_api.

use std::env;
use std::path::PathBuf;

fn main() {
    let calls = PathBuf::from(env::var("CARGO_MANIFEST_DIR").unwrap());
    let folder = calls.join("../../crates/c_api/out");
    let archive = folder.join("libc_api.a");
    println!("cargo:rerun-if-changed=build.rs");
    println!("cargo:rerun-if-changed={}", archive.display());
    assert!(archive.is_file(), "no libc_api.a: run `rt lib` in crates/c_api");
    println!("cargo:rustc-link-search=native={}", folder.display());
    println!("cargo:rustc-link-lib=static=c_api");
}
