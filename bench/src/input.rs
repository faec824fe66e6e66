//! The coupons, and the sketches that all sides have made of the same ones.

use crate::ours::Ours;
use crate::rust::{Bare, Rust};
use crate::side::Side;
use oracle::Door;
use oracle::examples::Random;
use oracle::hll::{HllSketch, HllType};
use std::collections::HashSet;

/// So many coupons, or registers of several sketches, that no processor learns by heart what becomes of each.
pub const MANY: usize = 1 << 18;

/// What hashing so many different items gives: any slot, and a value one above a random number's zeros in front.
pub fn coupons(seed: u64, count: usize) -> Vec<u32> {
    let mut state = seed << 32;
    let mut next = || {
        // SplitMix64: the same numbers everywhere.
        state = state.wrapping_add(0x9e37_79b9_7f4a_7c15);
        let x = (state ^ state >> 30).wrapping_mul(0xbf58_476d_1ce4_e5b9);
        let x = (x ^ x >> 27).wrapping_mul(0x94d0_49bb_1331_11eb);
        x ^ x >> 31
    };
    let coupon = |x: u64| (x.leading_zeros().min(62) + 1) << 26 | x as u32 & ((1 << 26) - 1);
    (0..count).map(|_| coupon(next())).collect()
}

/// The image of so many different coupons that the Rust writes: a list, or a set in its table's order.
pub fn few(lg_k: u8, seed: u64, count: usize) -> Vec<u8> {
    let (mut sketch, mut met) = (HllSketch::new(lg_k, HllType::Hll8).unwrap(), HashSet::new());
    let fresh = coupons(seed, 2 * count).into_iter().filter(|coupon| met.insert(*coupon));
    Door::feed(&mut sketch, &fresh.take(count).collect::<Vec<_>>());
    sketch.serialize()
}

pub const CROWDED: &str = ", crowded";

pub struct Three {
    pub kind: u8,
    pub lg_k: u8,
    /// What is said of kind 4's exceptions; nothing of those that hashed items make.
    pub exceptions: &'static str,
    pub ours: Ours,
    pub rust: Rust,
    pub bare: Bare,
}

impl Three {
    fn empty(kind: u8, lg_k: u8, words: usize) -> Three {
        Three {
            kind,
            lg_k,
            exceptions: "",
            ours: Ours::lent(kind, lg_k, words),
            rust: Rust::start(kind, lg_k),
            bare: Bare::start(kind, lg_k),
        }
    }

    /// Another, empty, with as much memory.
    pub fn emptied(&self) -> Three {
        Three::empty(self.kind, self.lg_k, self.ours.words())
    }

    fn feed(&mut self, coupons: &[u32]) {
        self.ours.feed(coupons);
        self.rust.feed(coupons);
        self.bare.feed(coupons);
    }

    /// Eight coupons a register: nearly all registers hold something. Of hashed items few are exceptions, so the area is short.
    pub fn filled(kind: u8, lg_k: u8, seed: u64) -> Three {
        let words = if kind == 4 { 16.max((1 << lg_k) / 64) } else { 0 };
        let mut three = Three::empty(kind, lg_k, words);
        three.feed(&coupons(seed, 8 << lg_k));
        three
    }

    /// Kind 4, filled, with an exception for nearly every fourth register: no hashed items give that many.
    pub fn crowded(lg_k: u8) -> Three {
        let slots = coupons(3, (1 << lg_k) / 4).into_iter().map(|coupon| coupon % (1 << 26));
        Three::excepting(lg_k, CROWDED, slots)
    }

    /// A few more, at slots chosen so that all walks through the table go by steps of one, over the same places.
    pub fn piled(lg_k: u8) -> Three {
        let half = 1 << lg_k >> 1;
        let run = half / 3;
        Three::excepting(lg_k, ", piled up", (0..run).chain(half..half + run))
    }

    fn excepting(lg_k: u8, exceptions: &'static str, slots: impl Iterator<Item = u32>) -> Three {
        let mut three = Three { exceptions, ..Three::empty(4, lg_k, 1 << lg_k) };
        three.feed(&coupons(1, 8 << lg_k));
        three.feed(&slots.map(|slot| 40 << 26 | slot).collect::<Vec<_>>());
        three
    }

    pub fn registers(&self) -> usize {
        1 << self.lg_k
    }

    /// How a table's line begins.
    pub fn label(&self) -> [String; 2] {
        [format!("{}{}", self.kind, self.exceptions), self.lg_k.to_string()]
    }
}

/// The Rust's image of kind 4 with its words in any order, where it has them in its table's.
pub fn shuffled(mut image: Vec<u8>) -> Vec<u8> {
    let words = image.split_off(40 + (1 << image[3]) / 2);
    let mut words: Vec<&[u8]> = words.chunks(4).collect();
    Random::new(1).shuffle(&mut words);
    image.extend(words.concat());
    image
}

/// The second form of kind 4 with twice as many words as registers: each slot once, by steps of this odd number, with an empty word
/// behind each; but for the last word, which has the first one's slot. The count is 1, so that little memory has to be lent.
pub fn crowd(lg_k: u8, step: u32) -> Vec<u8> {
    let k = 1u32 << lg_k;
    let mut image = vec![10, 1, 7, lg_k, lg_k + 1, 0, 0, 2];
    image.resize(32, 0);
    image.extend([k, 1].map(u32::to_le_bytes).concat());
    image.resize(40 + k as usize / 2, 0);
    for i in 0..k {
        let behind = if i == k - 1 { 20 << 26 } else { 0 };
        let word = 20 << 26 | i.wrapping_mul(step) % k;
        image.extend([word, behind].map(u32::to_le_bytes).concat());
    }
    image
}

/// Images of the same sketch have the same bytes, save byte 5, a flag, and 8 to 15, an estimate that ours does not keep.
pub fn same(what: &str, ours: &[u8], rust: &[u8]) -> Result<(), String> {
    same_but(what, ours, rust, 16)
}

/// Without an estimator the sums, bytes 16 to 31, are not the Rust's either.
pub fn same_bare(what: &str, ours: &[u8], bare: &[u8]) -> Result<(), String> {
    same_but(what, ours, bare, 32)
}

fn same_but(what: &str, ours: &[u8], rust: &[u8], end: usize) -> Result<(), String> {
    let counts = |at: &usize| *at != 5 && !(8..end).contains(at);
    let differs =
        (0..ours.len().max(rust.len())).filter(counts).find(|at| ours.get(*at) != rust.get(*at));
    match differs {
        None => Ok(()),
        Some(at) => Err(format!("{what}: byte {at} of the images")),
    }
}
