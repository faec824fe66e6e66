//! Good images with something changed at random.

use crate::examples::Random;
use crate::lists::Layout;
use crate::model::number;

/// One to three bytes changed, mostly where an image has its meaning; at times the end cut.
pub fn anywhere(random: &mut Random, image: &[u8]) -> Vec<u8> {
    let mut image = image.to_vec();
    for _ in 0..1 + random.below(3) {
        let at = match random.below(4) {
            0 => random.below(8),
            1 => 32 + random.below(8),
            _ => 40 + random.below(image.len() as u32 - 40),
        } as usize;
        image[at] = match random.below(4) {
            0 => random.below(256) as u8,
            1 => 0,
            2 => image[at].wrapping_add(1),
            _ => image[at] ^ 1 << random.below(8),
        };
    }
    if random.below(16) == 0 {
        image.pop();
    }
    image
}

/// One to three changes of what document 02's five answers speak of: kind 4's exception words, its
/// nibbles, the count. Images of other kinds are left as they are.
pub fn exceptions(random: &mut Random, image: &[u8]) -> Vec<u8> {
    let mut image = image.to_vec();
    if image[7] != 2 {
        return image;
    }
    let (k, low) = (1u32 << image[3], image[6] as u32);
    let start = 40 + k as usize / 2;
    let words = (image.len() - start) as u32 / 4;
    for _ in 0..1 + random.below(3) {
        let change = if words == 0 { random.below(2) } else { random.below(8) };
        match change {
            0 => {
                let (at, nibble) = (random.below(k), [0, 14, 15, 15][random.below(4) as usize]);
                let byte = &mut image[40 + at as usize / 2];
                *byte = *byte & 0xf0 >> (at % 2 * 4) | nibble << (at % 2 * 4);
            }
            1 => image[36] = image[36].wrapping_add([1, 2, 254, 255][random.below(4) as usize]),
            _ => {
                let [at, other] = [0; 2].map(|_| start + 4 * random.below(words) as usize);
                let [word, other] = [at, other].map(|at| number(&image, at));
                let (value, slot, other) = (word >> 26, word % (1 << 26), other % (1 << 26));
                let word = match change {
                    // Another word's slot, by its own number or by one that is the same modulo k.
                    2 | 3 => random.coupon(k, other % k, value.max(15)),
                    // Empty, whatever its slot.
                    4 => [0, slot, other][random.below(3) as usize],
                    // A value beside the least that an exception has.
                    5 => (low + 13 + random.below(4)).min(63) << 26 | slot,
                    // Any slot, at times where no word was.
                    _ => (low + 15 + random.below(9)).min(63) << 26 | random.below(1 << 26),
                };
                image[at..at + 4].copy_from_slice(&word.to_le_bytes());
            }
        }
    }
    image
}

/// One or two exception words of kind 4 with a slot and no value, or zero beside that; at times something of `exceptions` before it.
pub fn valueless(random: &mut Random, image: &[u8]) -> Vec<u8> {
    let start = 40 + (1 << image[3] >> 1);
    if image[7] != 2 || image.len() < start + 4 {
        return exceptions(random, image);
    }
    let mut image = if random.below(3) == 0 { exceptions(random, image) } else { image.to_vec() };
    let (k, words) = (1u32 << image[3], (image.len() - start) as u32 / 4);
    for _ in 0..1 + random.below(2) {
        let [at, other] = [0; 2].map(|_| start + 4 * random.below(words) as usize);
        let [own, other] = [at, other].map(|at| number(&image, at) % (1 << 26));
        let word = match random.below(8) {
            0 => 0,
            // Slot 0, by the least number that is not the zero word's.
            1 => k,
            2 | 3 => own,
            // Another word's slot, by its own number or by one that is the same modulo k.
            4 | 5 => random.coupon(k, other % k, 0),
            6 => random.below(k),
            _ => random.below(1 << 26),
        };
        image[at..at + 4].copy_from_slice(&word.to_le_bytes());
    }
    image
}

/// One to three changes of a list or a set: a byte, mostly of its head; a word that is zero, of no value or there already; bytes behind
/// the end. At times the end cut.
pub fn coupons(random: &mut Random, image: &[u8]) -> Vec<u8> {
    let mut image = image.to_vec();
    let start = Layout::of(image[0]).expect("a list or a set").start();
    let words = (image.len() - start) as u32 / 4;
    for _ in 0..1 + random.below(3) {
        match random.below(if words == 0 { 6 } else { 8 }) {
            0..=3 => {
                let at = random.below(start as u32) as usize;
                image[at] = match random.below(4) {
                    0 => random.below(256) as u8,
                    1 => image[at].wrapping_add(1),
                    2 => image[at].wrapping_sub(1),
                    _ => image[at] ^ 1 << random.below(8),
                };
            }
            4 => image.extend((0..1 + random.below(9)).map(|_| random.below(256) as u8)),
            5 => {
                let at = random.below(image.len() as u32) as usize;
                image[at] ^= 1 << random.below(8);
            }
            _ => {
                let [at, other] = [0; 2].map(|_| start + 4 * random.below(words) as usize);
                let slot = random.below(1 << 26);
                let word = [0, slot, number(&image, other)][random.below(3) as usize];
                image[at..at + 4].copy_from_slice(&word.to_le_bytes());
            }
        }
    }
    if random.below(8) == 0 {
        image.truncate(random.below(image.len() as u32) as usize);
    }
    image
}
