//! Finds and links the archive: in the folder that LINTELPEAR_LIB names, or where `rt lib` writes it in crates/c_api.

use std::env;
use std::path::{Path, PathBuf};

/// As a distribution names it, and as the kit does; without `lib` and `.a`, as the linker wants it.
const NAMES: [&str; 2] = ["lintelpear", "c_api"];

fn main() {
    println!("cargo::rerun-if-changed=build.rs");
    println!("cargo::rerun-if-env-changed=LINTELPEAR_LIB");
    let top = PathBuf::from(env::var("CARGO_MANIFEST_DIR").unwrap()).join("../..");
    let given = env::var_os("LINTELPEAR_LIB").filter(|folder| !folder.is_empty());
    // A relative folder is seen from the repository's top.
    let folder = top.join(given.as_deref().unwrap_or("crates/c_api/out".as_ref()));
    let archive = |name: &&str| folder.join(format!("lib{name}.a"));
    match NAMES.iter().find(|name| archive(name).is_file()) {
        Some(name) => link(&folder, name, &archive(name)),
        None => {
            let advice = match given {
                Some(_) => "that is the folder in LINTELPEAR_LIB",
                None => "run `rt lib` in crates/c_api, or name a folder in LINTELPEAR_LIB",
            };
            let folder = folder.display();
            println!("cargo::error=no liblintelpear.a or libc_api.a in {folder}: {advice}");
        }
    }
}

fn link(folder: &Path, name: &str, archive: &Path) {
    println!("cargo::rerun-if-changed={}", archive.display());
    println!("cargo::rustc-link-search=native={}", folder.display());
    println!("cargo::rustc-link-lib=static={name}");
}
