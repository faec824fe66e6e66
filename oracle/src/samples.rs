//! The sample stations: eight sketches of different kinds and sizes, each of which has seen some
//! thousand things, part of them seen by others too; a job that merges them, and what must come.

use crate::examples::Random;
use crate::program::{Disk, run};
use crate::{Answer, Recipe};
use std::ops::Range;

/// Kind and lg_k of each.
const STATIONS: [(u8, u8); 8] =
    [(8, 12), (4, 10), (6, 11), (4, 12), (8, 10), (6, 12), (4, 11), (6, 10)];

/// A station has seen so many things in a row, and the next one starts so much further on.
const SEEN: u64 = 9000;
const STEP: u64 = 4000;

/// The coupons of some things: a value of v or more in one out of 2^(v - 1), as hashing gives them.
pub fn seen(things: Range<u64>) -> Vec<u32> {
    let coupon = |thing| {
        let random = &mut Random::new(thing);
        let slot = random.below(1 << 26);
        let value = 1 + (random.below(1 << 31) | 1 << 31).trailing_zeros();
        value << 26 | slot
    };
    things.map(coupon).collect()
}

/// The image that the Rust writes after these coupons.
pub fn image(kind: u8, lg_k: u8, coupons: Vec<u32>) -> Vec<u8> {
    let answer = crate::run(&Recipe::History { kind, lg_k, coupons });
    let Answer::Ok(state) = answer else { panic!("answered {answer}") };
    state.image
}

/// All files of the folder; the merged image, all.img, is there as expected.img.
pub fn samples() -> Disk {
    let mut disk = Disk::default();
    let mut text = String::from("lgk=10\n");
    for (i, (kind, lg_k)) in (0..).zip(STATIONS) {
        let name = format!("station-{}.img", i + 1);
        text += &format!("in={name}\n");
        disk.0.insert(name, image(kind, lg_k, seen(i * STEP..i * STEP + SEEN)));
    }
    text += "out=all.img\n";
    let report = run(&mut disk, text.as_bytes()).to_string();
    let all = disk.0.remove("all.img").expect("the samples can be merged");
    disk.0.insert("merge.job".into(), text.into());
    disk.0.insert("expected.txt".into(), report.into());
    disk.0.insert("expected.img".into(), all);
    disk
}
