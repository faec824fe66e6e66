//! Lists of steps and of words, drawn from a seed: slots that collide, tables that grow, rises that free all, some or none.

use oracle::examples::Random;

#[derive(Clone, Debug)]
pub enum Step {
    /// Inserted if the table has no word for the slot, else replaced: so every part of a list is a list.
    Put(u32, u8),
    /// Words below the limit go; the rest is inserted into a new table, in the old one's order.
    Rise(u32),
}

pub const PLANS: u32 = 5;

/// So many slots, by a plan; by most of them they collide.
fn slots(random: &mut Random, plan: u32, lg_k: u8, many: u32) -> Vec<u32> {
    let k = 1u32 << lg_k;
    let (from, lg) = (random.below(k), random.below(lg_k as u32));
    (0..many)
        .map(|i| match plan {
            // Each slot once, as long as there are any.
            0 => from.wrapping_add(i.wrapping_mul(2 * lg + 1)) % k,
            1 => random.below(k),
            // The same home in every table of up to 2^lg words; by twos also the same step.
            2 => (from + (random.below(k) >> lg << lg)) % k,
            // A run of neighbours, and the last slots.
            3 => (from + random.below(many)) % k,
            _ => k - 1 - random.below(many.min(k)),
        })
        .collect()
}

/// Words of distinct slots, at most so many.
pub fn distinct(random: &mut Random, lg_k: u8, many: u32) -> Vec<u32> {
    let plan = random.below(PLANS);
    let mut words = slots(random, plan, lg_k, many);
    words.sort();
    words.dedup();
    random.shuffle(&mut words);
    words.iter_mut().for_each(|word| *word |= (15 + random.below(49)) << 26);
    words
}

/// Puts of so many slots, with rises between them.
pub fn steps(random: &mut Random, plan: u32, lg_k: u8, many: u32) -> Vec<Step> {
    // One rise for so many puts.
    let rises = [0, 40, 12, 4][random.below(4) as usize];
    let low = random.below(3);
    let mut steps = Vec::new();
    for slot in slots(random, plan, lg_k, many) {
        let above = random.below(49);
        let above = if random.below(3) < low { above.min(random.below(6)) } else { above };
        steps.push(Step::Put(slot, 15 + above as u8));
        if rises == 0 || random.below(rises) > 0 {
            continue;
        }
        match random.below(8) {
            0 => steps.push(Step::Rise(64)),
            1 => steps.push(Step::Rise(15)),
            2 => steps.push(Step::Rise(16 + random.below(48))),
            // As cur_min rises by more than one: a new table for each.
            3 => steps.extend((16..18 + random.below(8)).map(Step::Rise)),
            _ => steps.push(Step::Rise(16 + random.below(4))),
        }
    }
    steps
}
