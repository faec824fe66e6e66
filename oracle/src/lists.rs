//! Coupon lists and sets by document 02 (CR 2), as a plain model: what is answered to an image that is fed to a sketch, which coupons it
//! has, and how an image of given coupons is laid out. The sketch's own checks come before these answers, NO_ROOM after them.

use crate::model::number;
use std::fmt;

const LGK: u8 = 2;
const FINER: u8 = 5;
const SHORT: u8 = 7;
const HEADER: u8 = 8;
const MODE: u8 = 9;
const FORM: u8 = 26;
const LISTEMPTY: u8 = 27;

const COMPACT: u8 = 8;
/// Written by the crate on a list of nothing; not read here.
const EMPTY: u8 = 4;

#[derive(Clone, Copy, Debug, PartialEq)]
pub enum Layout {
    List,
    Set,
}

impl Layout {
    pub fn of(byte_0: u8) -> Option<Layout> {
        match byte_0 {
            2 => Some(Layout::List),
            3 => Some(Layout::Set),
            _ => None,
        }
    }

    /// Where the words begin.
    pub fn start(self) -> usize {
        match self {
            Layout::List => 8,
            Layout::Set => 12,
        }
    }

    /// The low two bits of byte 7.
    fn mode(self) -> u8 {
        match self {
            Layout::List => 0,
            Layout::Set => 1,
        }
    }

    fn count(self, image: &[u8]) -> usize {
        match self {
            Layout::List => image[6] as usize,
            Layout::Set => number(image, 8) as usize,
        }
    }

    fn words(self, image: &[u8]) -> Vec<u32> {
        (0..self.count(image)).map(|at| number(image, self.start() + 4 * at)).collect()
    }
}

impl fmt::Display for Layout {
    fn fmt(&self, f: &mut fmt::Formatter<'_>) -> fmt::Result {
        f.write_str(match self {
            Layout::List => "list",
            Layout::Set => "set",
        })
    }
}

/// The number and the place of an image that is fed to a sketch of this lg_k; 0 and 0 if nothing is wrong with it.
/// The place is the position of LISTEMPTY's word from 0, else 0.
pub fn said(image: &[u8], lg_k: u8) -> (u8, u32) {
    if image.len() < 8 {
        return (SHORT, 0);
    }
    let Some(layout) = Layout::of(image[0]) else { return (HEADER, 0) };
    if image[1..3] != [1, 7] {
        return (HEADER, 0);
    }
    if image.len() < layout.start() {
        return (SHORT, 0);
    }
    if image[7] % 4 != layout.mode() {
        return (MODE, 0);
    }
    if !(4..=21).contains(&image[3]) {
        return (LGK, 0);
    }
    if image[5] & COMPACT == 0 {
        return (FORM, 0);
    }
    if image.len() < layout.start() + 4 * layout.count(image) {
        return (SHORT, 0);
    }
    if let Some(at) = layout.words(image).iter().position(|word| *word == 0) {
        return (LISTEMPTY, at as u32);
    }
    if lg_k > image[3] {
        return (FINER, 0);
    }
    (0, 0)
}

/// The coupons of an image with which nothing is wrong, in the order listed.
pub fn words(image: &[u8]) -> Vec<u32> {
    Layout::of(image[0]).map_or_else(Vec::new, |layout| layout.words(image))
}

/// The image of these coupons, its other bytes as the crate writes them. The crate itself stops at seven coupons in a list,
/// has sets only from eight coupons and lg_k 8 on, and never the same coupon twice.
pub fn laid_out(layout: Layout, kind: u8, lg_k: u8, words: &[u32]) -> Vec<u8> {
    let mode = (kind - 4) << 1 | layout.mode();
    let mut image = match layout {
        Layout::List => {
            let flags = if words.is_empty() { EMPTY | COMPACT } else { COMPACT };
            let count = words.len().try_into().expect("a list has at most 255 words");
            vec![2, 1, 7, lg_k, 3, flags, count, mode]
        }
        Layout::Set => {
            let lg_arr = (5..).find(|lg_arr| 4 * words.len() <= 3 << lg_arr).unwrap();
            let mut image = vec![3, 1, 7, lg_k, lg_arr, COMPACT, 0, mode];
            image.extend((words.len() as u32).to_le_bytes());
            image
        }
    };
    image.extend(words.iter().flat_map(|word| word.to_le_bytes()));
    image
}

/// The most coupons of which the crate writes a list or a set; with one more it has registers.
pub fn most(lg_k: u8) -> usize {
    if lg_k < 8 { 7 } else { 3 << (lg_k - 3) >> 2 }
}

/// So many coupons for different slots, in an order that jumps about; every third value is high.
pub fn many(count: usize) -> Vec<u32> {
    let coupon = |at: u32| {
        let slot = at.wrapping_mul(0x009e_3779) % (1 << 26);
        let value = if at % 3 == 0 { 15 + at % 49 } else { 1 + at.trailing_zeros() };
        value << 26 | slot
    };
    (1..=count as u32).map(coupon).collect()
}
