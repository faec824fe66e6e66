//! Feeding lists and sets, beside `deserialize` and each kind's own `update` in a loop.

use crate::input::{MANY, Three, few, same, same_bare};
use crate::race::{Fresh, race, times};
use crate::side::Side;
use crate::table::{head, line};
use oracle::lists::most;
use std::hint::black_box;
use std::slice::from_ref;

/// Into sketches of hashed items alone, of few sizes: the work is that of the image, and our check of the sketch.
pub fn all(filled: &[Three]) -> Result<(), String> {
    head(
        "Feed an image: µs",
        "Images as the Rust writes them, a list with as many coupons as it has at most and a set with as many, of the sketch's lg_k. Each time another one, into a fresh copy of a filled sketch; the copy is made outside the clock.",
        &[
            "Kind",
            "lg_k",
            "Image",
            "Ours",
            "Rust",
            "Rust, no estimator",
            "Ours / Rust",
            "Ours / no estimator",
        ],
    );
    let chosen = |three: &&Three| three.exceptions.is_empty() && [4, 12, 21].contains(&three.lg_k);
    for three in filled.iter().filter(chosen) {
        fed(three, "list", most(4))?;
        // Below lg_k 8 the Rust goes from a list to registers.
        if three.lg_k >= 8 {
            fed(three, "set", most(three.lg_k))?;
        }
    }
    Ok(())
}

fn fed(three: &Three, layout: &str, count: usize) -> Result<(), String> {
    let images: Vec<Vec<u8>> = (0..(MANY / count).clamp(1, 1024))
        .map(|seed| few(three.lg_k, 200 + seed as u64, count))
        .collect();
    let image = |time: usize| black_box(&images[time % images.len()]);
    let times = times(count + three.registers());
    let mut ours = Fresh::new(from_ref(&three.ours), times, |s, time| s.feed_image(image(time)));
    let mut rust = Fresh::new(from_ref(&three.rust), times, |s, time| s.feed_image(image(time)));
    let mut bare = Fresh::new(from_ref(&three.bare), times, |s, time| s.feed_image(image(time)));
    let took = race([&mut ours, &mut rust, &mut bare]);
    let [kind, lg_k] = three.label();
    let what = format!("feed a {layout} of {count}, kind {kind}, lg_k {lg_k}");
    same(&what, &ours.made().image(), &rust.made().image())?;
    same_bare(&what, &ours.made().image(), &bare.made().image())?;
    line(&[kind, lg_k, format!("{layout} of {count}")], took, 1000);
    Ok(())
}
