//! Lays out the module tree that lib.rs compiles; tree.rs says how.

mod tree;

use std::env;
use std::path::PathBuf;

fn main() {
    let oracle = PathBuf::from(env::var("CARGO_MANIFEST_DIR").unwrap());
    tree::lay_out(&oracle, &[oracle.join("standins")]);
}
