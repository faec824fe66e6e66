//! The oracle's module tree, with estimator.rs replaced and nothing else.

#[path = "../../oracle/tree.rs"]
mod tree;

use std::env;
use std::path::PathBuf;

fn main() {
    let bare = PathBuf::from(env::var("CARGO_MANIFEST_DIR").unwrap());
    let oracle = bare.join("../../oracle");
    tree::lay_out(&oracle, &[oracle.join("standins"), bare.join("standins")]);
}
