//! Merging into kind 8, beside the crate's `HllUnion`, which calls `Array8`'s two merges and has the same loops for kinds 4 and 6.

use crate::input::{MANY, Three, same, same_bare};
use crate::race::{Fresh, race, times};
use crate::rust::{Bare, Rust};
use crate::side::Side;
use crate::table::{head, line};
use std::hint::black_box;

const COLUMNS: [&str; 7] =
    ["Kind", "lg_k", "Ours", "Rust", "Rust, no estimator", "Ours / Rust", "Ours / no estimator"];

/// Sources whose lg_k is larger than the target's by `finer`.
pub fn all(sources: &[Three], finer: u8) -> Result<(), String> {
    let which = match finer {
        0 => "equal lg_k".into(),
        _ => format!("target's lg_k less by {finer}"),
    };
    head(
        &format!("Merge into kind 8, {which}: ns a register of the source"),
        "Kind and lg_k are those of the source, a filled sketch. Each time a fresh copy of another target, filled too; the copy is made outside the clock.",
        &COLUMNS,
    );
    sources.iter().try_for_each(|source| merged(source, finer))
}

fn merged(source: &Three, finer: u8) -> Result<(), String> {
    let k = source.registers();
    // Several, for the same reason as in feed.rs.
    let targets: Vec<Three> = (0..(MANY / k).clamp(1, 1024))
        .map(|seed| Three::filled(8, source.lg_k - finer, 100 + seed as u64))
        .collect();
    let ours: Vec<_> = targets.iter().map(|three| three.ours.target()).collect();
    let rust: Vec<_> = targets.iter().map(|three| three.rust.target()).collect();
    let bare: Vec<_> = targets.iter().map(|three| three.bare.target()).collect();
    let mut ours =
        Fresh::new(&ours, times(k), |into, _| Side::merge(into, black_box(&source.ours)));
    let mut rust =
        Fresh::new(&rust, times(k), |into, _| Rust::merge(into, black_box(&source.rust)));
    let mut bare =
        Fresh::new(&bare, times(k), |into, _| Bare::merge(into, black_box(&source.bare)));
    let took = race([&mut ours, &mut rust, &mut bare]);
    let what = format!("merge, kind and lg_k {:?}, target's less by {finer}", source.label());
    let image = ours.made().image();
    same(&what, &image, &Rust::merged(rust.made()).image())?;
    same_bare(&what, &image, &Bare::merged(bare.made()).image())?;
    line(&source.label(), took, k);
    Ok(())
}
