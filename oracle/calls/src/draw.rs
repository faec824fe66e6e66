//! Histories drawn from a seed: coupons by a plan, cut into batches, and an exception area of some length.

use crate::room::Room;
use oracle::examples::{self, Random};

#[derive(Clone, Debug)]
pub enum Step {
    Coupon(u32),
    /// Here one batch ends and the next begins.
    Cut,
}

#[derive(Clone, Debug)]
pub struct History {
    pub kind: u8,
    pub lg_k: u8,
    /// Words of the exception area, and of the scratch.
    pub area: usize,
    pub scratch: usize,
    pub steps: Vec<Step>,
}

impl History {
    pub fn batches(&self) -> Vec<Vec<u32>> {
        let batch = |steps: &[Step]| steps.iter().filter_map(Step::coupon).collect();
        self.steps.split(|step| matches!(step, Step::Cut)).map(batch).collect()
    }
}

impl Step {
    fn coupon(&self) -> Option<u32> {
        match self {
            Step::Coupon(coupon) => Some(*coupon),
            Step::Cut => None,
        }
    }
}

/// Four plans are the oracle's: anything, exceptions and rises under them, two rounds near cur_min + 15, a few slots again and again.
pub fn coupons(random: &mut Random, lg_k: u8) -> Vec<u32> {
    let k = 1u32 << lg_k;
    let plan = random.below(6);
    let mut coupons = Vec::new();
    match plan {
        // Many rounds: cur_min rises again and again, by one or by several, under exceptions that stay or move back.
        4 => {
            let mut floor = 0;
            for _ in 0..2 + random.below(10) {
                let most = if random.below(3) == 0 { 9 } else { 2 };
                floor += 1 + random.below(most);
                for slot in random.slots(k) {
                    let above = match random.below(8) {
                        0 => 13 + random.below(5),
                        1 => random.below(40),
                        _ => random.below(2),
                    };
                    coupons.push((floor + above).min(63) << 26 | slot);
                }
                if floor > 63 {
                    break;
                }
            }
        }
        // Every slot up to its end.
        5 => {
            let most = [63, 63, 48, 20][random.below(4) as usize];
            for round in 0..2 {
                for slot in random.slots(k) {
                    let value = if round == 0 { random.below(most + 1) } else { most };
                    coupons.push(value << 26 | slot);
                }
            }
        }
        plan => {
            let most = 1 + random.below(4 << lg_k);
            coupons = examples::coupons(random, lg_k, plan, most);
        }
    }
    if random.below(4) == 0 {
        coupons.truncate(random.below(coupons.len() as u32 + 1) as usize);
    }
    coupons
}

/// The words that no coupon of a list needs more of.
pub fn needed(kind: u8, lg_k: u8, coupons: &[u32]) -> usize {
    let mut room = Room::empty(kind, lg_k);
    let mut most = 0;
    for coupon in coupons {
        most = most.max(room.needed(*coupon));
        room.feed(*coupon);
    }
    most
}

fn cut(random: &mut Random, coupons: Vec<u32>) -> Vec<Step> {
    let few = coupons.len() <= 40;
    let between = match random.below(4) {
        0 => u32::MAX,
        1 if few => 1,
        2 if few => 3,
        _ => 1 + coupons.len() as u32 / 2,
    };
    let mut steps = Vec::new();
    for coupon in coupons {
        steps.push(Step::Coupon(coupon));
        if random.below(between) == 0 {
            steps.push(Step::Cut);
        }
    }
    steps
}

/// The i-th history of a kind: the areas go through every length from 0 up, besides those that are just enough or just not.
pub fn history(random: &mut Random, kind: u8, i: u64) -> History {
    let lg_k = 4 + (i % 9) as u8;
    let coupons = coupons(random, lg_k);
    let needed = needed(kind, lg_k, &coupons);
    let area = match i / 9 % 4 {
        0 => needed,
        1 => (i / 36) as usize,
        2 => random.below(needed as u32 + 1) as usize,
        _ => needed + random.below(9) as usize,
    };
    // Only kind 4 needs scratch, as long as its area.
    let scratch = match (kind, random.below(2)) {
        (4, 0) => area,
        (4, _) => area + random.below(5) as usize,
        _ => random.below(3) as usize,
    };
    History { kind, lg_k, area, scratch, steps: cut(random, coupons) }
}
