//! Feeding, beside each kind's own `update` in a loop; and our check of the whole sketch alone, which is a feed of nothing.

use crate::input::{MANY, Three, coupons, same, same_bare};
use crate::race::{Fresh, Same, race, times};
use crate::side::Side;
use crate::table::{head, line};
use std::hint::black_box;
use std::slice::from_ref;

const COLUMNS: [&str; 8] = [
    "Kind",
    "lg_k",
    "Sketch",
    "Ours",
    "Rust",
    "Rust, no estimator",
    "Ours / Rust",
    "Ours / no estimator",
];

pub fn batches(filled: &[Three]) -> Result<(), String> {
    head(
        "Feed, a batch of 4,096 coupons: ns a coupon",
        "Each time another batch, into a fresh copy of an empty or a filled sketch; the copy is made outside the clock, and nothing is cleared within it.",
        &COLUMNS,
    );
    for three in filled {
        if three.exceptions.is_empty() {
            fed(&three.emptied(), "empty", 4096)?;
        }
        fed(three, "filled", 4096)?;
    }
    Ok(())
}

pub fn as_long(filled: &[Three]) -> Result<(), String> {
    head(
        "Feed, a batch of as many coupons as registers: ns a coupon",
        "As above, with filled sketches.",
        &COLUMNS,
    );
    filled.iter().try_for_each(|three| fed(three, "filled", three.registers()))
}

fn fed(three: &Three, state: &str, count: usize) -> Result<(), String> {
    let many = coupons(9, MANY.max(count));
    // Never the same batch twice in a row: its branches would be learnt by heart.
    let batch = |time: usize| black_box(&many[time * count % many.len()..][..count]);
    let times = times(count + three.registers());
    let mut ours = Fresh::new(from_ref(&three.ours), times, |s, time| s.feed(batch(time)));
    let mut rust = Fresh::new(from_ref(&three.rust), times, |s, time| s.feed(batch(time)));
    let mut bare = Fresh::new(from_ref(&three.bare), times, |s, time| s.feed(batch(time)));
    let took = race([&mut ours, &mut rust, &mut bare]);
    let [kind, lg_k] = three.label();
    let what = format!("feed, kind {kind}, lg_k {lg_k}, {state}");
    same(&what, &ours.made().image(), &rust.made().image())?;
    same_bare(&what, &ours.made().image(), &bare.made().image())?;
    line(&[kind, lg_k, state.into()], took, count);
    Ok(())
}

pub fn checks(filled: &[Three]) {
    head(
        "Our check alone, a feed of no coupons: ns a register",
        "Filled sketches, which stay as they are. The Rust has no such check.",
        &["Kind", "lg_k", "Ours"],
    );
    for three in filled {
        let into = three.ours.clone();
        let mut ours = Same::new(into, times(three.registers()), |s| s.feed(black_box(&[])));
        line(&three.label(), race([&mut ours]), three.registers());
    }
}
