//! What document 02 (CR 1, CR 3) says is wrong with the exception words of a kind 4 image: entry by entry
//! in the order listed, then their number, then their slots beside the nibbles of 15. Every word but the
//! zero word is an entry, one with a slot and no value too.

use crate::model::{listed, number, packed, slot, value};
use std::collections::HashSet;

const AUX_EMPTY: u8 = 21;
const AUX_TWICE: u8 = 22;
const AUX_LOW: u8 = 23;
const AUX_COUNT: u8 = 24;
const AUX_MATCH: u8 = 25;

/// The answer and its place, or nothing, for a kind 4 image whose header, lengths and values were
/// found right. The place is a word's position from 0, empty words counted; 0 for AUX_COUNT; for
/// AUX_MATCH the smallest slot that is listed and has no nibble of 15, or the other way round.
pub fn aux_fault(image: &[u8]) -> Option<(u8, u32)> {
    let (k, compact, cur_min) = (1 << image[3], image[5] & 8 != 0, image[6]);
    let mut slots = HashSet::new();
    for (at, word) in (0..).zip(listed(image)) {
        if word == 0 {
            if compact {
                return Some((AUX_EMPTY, at));
            }
            continue;
        }
        if !slots.insert(slot(word) % k) {
            return Some((AUX_TWICE, at));
        }
        if value(word) < cur_min + 15 {
            return Some((AUX_LOW, at));
        }
    }
    if slots.len() != number(image, 36) as usize {
        return Some((AUX_COUNT, 0));
    }
    let high = |at: usize| packed(4, &image[40..], at) == 15;
    let apart = (0..k).find(|at| high(*at) != slots.contains(at))?;
    Some((AUX_MATCH, apart as u32))
}
