//! What the tests share: the same sketch on both sides, ours and the original Rust's, and how the two are compared.

use lintelpear::{Kind, Sketch};
use oracle::Door;
use oracle::examples::{self, Random};
use oracle::hll::{HllSketch, HllType};

pub const KINDS: [Kind; 3] = [Kind::Four, Kind::Six, Kind::Eight];

/// Each kind at each lg_k, with coupons by each of the oracle's four plans.
pub fn cases(seed: u64, mut case: impl FnMut(&mut Random, Kind, u8, Vec<u32>)) {
    let mut random = Random::new(seed);
    for kind in KINDS {
        for lg_k in 4..=13 {
            for plan in 0..4 {
                let coupons = examples::coupons(&mut random, lg_k, plan, 4 << lg_k);
                case(&mut random, kind, lg_k, coupons);
            }
        }
        let coupons = examples::coupons(&mut random, 21, 0, 300_000);
        case(&mut random, kind, 21, coupons);
    }
}

pub fn ours(kind: Kind, lg_k: u8, coupons: &[u32]) -> Sketch {
    let mut sketch = Sketch::new(lg_k, kind).unwrap();
    sketch.extend(coupons.iter().copied());
    sketch
}

/// Registers from the start, as ours has them.
pub fn rusts(kind: Kind, lg_k: u8, coupons: &[u32]) -> HllSketch {
    let mut sketch = Door::start(kind as u8, lg_k);
    Door::feed(&mut sketch, coupons);
    sketch
}

/// The Rust's own way to registers: as a list, then as a set of coupons, which have a value.
pub fn by_new(kind: Kind, lg_k: u8, coupons: &[u32]) -> HllSketch {
    let mut sketch = HllSketch::new(lg_k, hll_type(kind)).unwrap();
    for coupon in coupons.iter().filter(|coupon| **coupon >> 26 != 0) {
        sketch.update_with_coupon(Door::coupon(*coupon));
    }
    sketch
}

pub fn hll_type(kind: Kind) -> HllType {
    match kind {
        Kind::Four => HllType::Hll4,
        Kind::Six => HllType::Hll6,
        Kind::Eight => HllType::Hll8,
    }
}

#[track_caller]
pub fn same(ours: &Sketch, rusts: &HllSketch) {
    assert_eq!(ours.lg_k(), rusts.lg_config_k());
    assert!(hll_type(ours.kind()) == rusts.target_type());
    let registers = Door::registers(rusts).expect("the Rust has no registers");
    assert!(ours.registers() == registers, "{:?}, lg_k {}", ours.kind(), ours.lg_k());
}

/// The images are the same but for byte 5 and those from 8 up to a place: the flags and the HIP sum, which we do not keep; and the two
/// sums, which the Rust does not work out anew after opening.
#[track_caller]
pub fn same_image(ours: &Sketch, rusts: &HllSketch, up_to: usize) {
    let compared = |mut image: Vec<u8>| {
        image[5] = 0;
        image[8..up_to].fill(0);
        image
    };
    let same = compared(ours.to_bytes()) == compared(rusts.serialize());
    assert!(same, "the images differ, {:?}, lg_k {}", ours.kind(), ours.lg_k());
}

/// A few more coupons, for both sides.
pub fn more(random: &mut Random, lg_k: u8) -> Vec<u32> {
    let plan = random.below(4);
    let mut coupons = examples::coupons(random, lg_k, plan, 300);
    coupons.truncate(3000);
    coupons
}
