//! The Rust's sketch, step by step, with all that it holds.

use oracle::hll::{HllSketch, HllType};
use oracle::{Door, State};

pub fn feed(sketch: &mut HllSketch, coupons: &[u32]) {
    coupons.iter().for_each(|coupon| sketch.update_with_coupon(Door::coupon(*coupon)));
}

/// As `oracle::run` has it, of a sketch that goes on.
pub fn state(sketch: &HllSketch) -> State {
    let image = sketch.serialize();
    State {
        kind: match sketch.target_type() {
            HllType::Hll4 => 4,
            HllType::Hll6 => 6,
            HllType::Hll8 => 8,
        },
        lg_k: sketch.lg_config_k(),
        cur_min: image[6],
        num_at_cur_min: u32::from_le_bytes(image[32..36].try_into().unwrap()),
        registers: Door::registers(sketch).unwrap(),
        table: table(sketch),
        image,
    }
}

/// The exception table's words at their places, read off the derived `Debug`; only a table has entries.
fn table(sketch: &HllSketch) -> Vec<u32> {
    if sketch.target_type() != HllType::Hll4 {
        return Vec::new();
    }
    let shown = format!("{sketch:?}");
    let Some((_, rest)) = shown.split_once("entries: [") else { return Vec::new() };
    let (entries, _) = rest.split_once(']').unwrap();
    entries
        .split(", ")
        .map(|entry| entry["Coupon(".len()..entry.len() - 1].parse().unwrap())
        .collect()
}
