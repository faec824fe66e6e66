//! Small histories, images and merges, drawn from a seed: made to raise cur_min several times,
//! to let the exception table grow, shrink and be rebuilt, and to touch the edges of a nibble.

use crate::lists;
use crate::request::Request;
use crate::{Answer, Few, Recipe, run};

/// SplitMix64: the same numbers from the same seed, everywhere.
pub struct Random(u64);

impl Random {
    pub fn new(seed: u64) -> Random {
        Random(seed)
    }

    pub fn below(&mut self, bound: u32) -> u32 {
        self.0 = self.0.wrapping_add(0x9e37_79b9_7f4a_7c15);
        let x = (self.0 ^ self.0 >> 30).wrapping_mul(0xbf58_476d_1ce4_e5b9);
        let x = (x ^ x >> 27).wrapping_mul(0x94d0_49bb_1331_11eb);
        ((x ^ x >> 31) >> 32) as u32 % bound
    }

    pub fn shuffle<T>(&mut self, list: &mut [T]) {
        for i in (1..list.len()).rev() {
            list.swap(i, self.below(i as u32 + 1) as usize);
        }
    }

    pub fn slots(&mut self, k: u32) -> Vec<u32> {
        let mut slots: Vec<u32> = (0..k).collect();
        self.shuffle(&mut slots);
        slots
    }

    /// A coupon for the slot, at times by a number that is that slot only modulo k.
    pub fn coupon(&mut self, k: u32, slot: u32, value: u32) -> u32 {
        let above = if self.below(4) == 0 { k * self.below((1 << 26) / k) } else { 0 };
        value << 26 | above | slot
    }
}

pub fn examples(n: u64, seed: u64) -> impl Iterator<Item = Request> {
    let mut random = Random::new(seed);
    (0..n).map(move |i| match i % 8 {
        0..=3 => Request::Run(history(&mut random, [4, 4, 6, 8][i as usize % 4], 40)),
        4..=5 => merge(&mut random),
        _ => Request::Run(open(&mut random)),
    })
}

fn merge(random: &mut Random) -> Request {
    let Recipe::History { mut coupons, .. } = history(random, 8, 10) else { unreachable!() };
    coupons.truncate(random.below(4) as usize);
    let kinds: Vec<u8> = (0..1 + random.below(2)).map(|_| kind(random)).collect();
    Request::Merge {
        target: Recipe::History { kind: 8, lg_k: 4, coupons },
        sources: kinds.into_iter().map(|kind| history(random, kind, 24)).collect(),
    }
}

fn kind(random: &mut Random) -> u8 {
    [4, 4, 6, 8][random.below(4) as usize]
}

/// A history of about `most` coupons, by one of four plans, at times broken off.
pub fn history(random: &mut Random, kind: u8, most: u32) -> Recipe {
    let lg_k = if random.below(4) == 0 { 5 } else { 4 };
    let plan = random.below(4);
    let mut coupons = coupons(random, lg_k, plan, most);
    if random.below(4) == 0 {
        coupons.truncate(random.below(most) as usize);
    }
    Recipe::History { kind, lg_k, coupons }
}

pub fn coupons(random: &mut Random, lg_k: u8, plan: u32, most: u32) -> Vec<u32> {
    let k = 1 << lg_k;
    let mut coupons = Vec::new();
    match plan {
        // Anything anywhere: zero values and repeated slots among it.
        0 => {
            for _ in 0..most {
                let (slot, value) = (random.below(k), random.below(64));
                let value = if random.below(3) == 0 { value } else { value % 20 };
                coupons.push(random.coupon(k, slot, value));
            }
        }
        // Exceptions first, so that the table grows; then the rest rises under them, the last
        // slot lifting cur_min by several at once.
        1 => {
            let slots = random.slots(k);
            let (high, low) = slots.split_at(1 + random.below(k - 1) as usize);
            for &slot in high {
                let value = 15 + random.below(49);
                coupons.push(random.coupon(k, slot, value));
            }
            let floor = 1 + random.below(6);
            for &slot in low {
                let value = floor + random.below(3);
                coupons.push(random.coupon(k, slot, value));
            }
        }
        // Two rounds over all slots, with values on both sides of cur_min + 15.
        2 => {
            let mut floor = 0;
            for _ in 0..2 {
                let rise = 1 + random.below(4);
                for slot in random.slots(k) {
                    let edge = random.below(3) == 0;
                    let value =
                        if edge { floor + 14 + random.below(3 + rise) } else { floor + rise };
                    coupons.push(random.coupon(k, slot, value));
                }
                floor += rise;
            }
        }
        // The same few slots again and again, from nibble to exception and upward.
        _ => {
            let slots = random.slots(k);
            let few = 1 + random.below(9) as usize;
            for i in 0..most {
                let slot = slots[random.below(few as u32) as usize];
                let value = (i * 64 / most + random.below(12)).min(63);
                coupons.push(random.coupon(k, slot, value));
            }
        }
    }
    coupons.truncate(most.max(k) as usize);
    coupons
}

/// The list or the set that the Rust has of the first of these coupons, as many as it may have at this lg_k or fewer.
pub fn few(random: &mut Random, lg_k: u8, mut coupons: Vec<u32>) -> Few {
    let most = lists::most(lg_k) as u32;
    coupons.retain(|coupon| *coupon != 0);
    coupons.truncate(if random.below(2) == 0 { most } else { random.below(most) } as usize);
    let kind = [4, 6, 8][random.below(3) as usize];
    let answer = run(&Recipe::FromList { kind, lg_k, coupons });
    let Answer::Few(few) = answer else { unreachable!("answered {answer}") };
    few
}

/// An image the Rust wrote, told in another way that means the same, or cut short; then
/// perhaps a few coupons.
fn open(random: &mut Random) -> Recipe {
    let kind = kind(random);
    let Answer::Ok(state) = run(&history(random, kind, 24)) else { unreachable!() };
    let mut image = match random.below(3) {
        0 => state.image,
        1 => listed(random, &state.image),
        _ => spread(random, &state.image),
    };
    let mut coupons = coupons(random, state.lg_k, 0, 6);
    coupons.truncate(random.below(7) as usize);
    match random.below(8) {
        0 => image.truncate(random.below(image.len() as u32) as usize),
        1 => image.extend([random.below(256) as u8, 0]),
        _ => {}
    }
    Recipe::Open { image, coupons }
}

/// Where a kind 4 image's exception words begin; no other kind has any.
fn exceptions(image: &[u8]) -> Option<usize> {
    (image[7] == 2).then(|| 40 + (1 << image[3] >> 1))
}

/// A compact image with its words in another order, some slots by other numbers modulo k.
pub fn listed(random: &mut Random, image: &[u8]) -> Vec<u8> {
    let Some(start) = exceptions(image) else { return image.to_vec() };
    let k = 1u32 << image[3];
    let mut words: Vec<u32> = image[start..]
        .chunks(4)
        .map(|b| u32::from_le_bytes(b.try_into().unwrap()))
        .map(|word| random.coupon(k, word & (k - 1), word >> 26))
        .collect();
    random.shuffle(&mut words);
    let words = words.iter().flat_map(|word| word.to_le_bytes());
    image[..start].iter().copied().chain(words).collect()
}

/// The second form: no compact flag, 2^lg_arr words, zero words between the exceptions.
pub fn spread(random: &mut Random, image: &[u8]) -> Vec<u8> {
    let Some(start) = exceptions(image) else { return image.to_vec() };
    let mut spread = listed(random, image);
    let words = spread.split_off(start);
    let count = words.len() as u32 / 4;
    spread[5] &= !8;
    // With no exceptions no words follow, whatever lg_arr says.
    spread[4] = random.below(256) as u8;
    if count > 0 {
        spread[4] = count.next_power_of_two().trailing_zeros() as u8 + random.below(2) as u8;
        let mut places: Vec<&[u8]> = words.chunks(4).collect();
        places.resize(1 << spread[4], &[0; 4]);
        random.shuffle(&mut places);
        spread.extend(places.concat());
    }
    spread
}
