//! The check of a table that was handed in: on the Rust's tables and on damaged ones, against our own statement of good
//! order. The Rust has no such check.

use crate::draw::distinct;
use crate::leaf;
use crate::map::{mapped, shown};
use crate::order::{self, slot};
use oracle::examples::Random;

#[derive(Default)]
struct Tally {
    good: usize,
    refused: usize,
}

impl Tally {
    fn compare(&mut self, area: &[u32], base: usize, count: usize) -> Result<(), String> {
        let (wanted, ours) = (order::good(area, base, count), leaf::check(area, base, count));
        if wanted != ours {
            return Err(format!(
                "check: base {base}, count {count}, area {area:08x?}: answers {ours}, good order is {wanted}"
            ));
        }
        match ours {
            true => self.good += 1,
            false => self.refused += 1,
        }
        Ok(())
    }

    /// The area with words put at places, for the count and its neighbours.
    fn with(
        &mut self,
        area: &[u32],
        base: usize,
        count: usize,
        puts: &[(usize, u32)],
    ) -> Result<(), String> {
        let mut area = area.to_vec();
        puts.iter().for_each(|(at, word)| area[*at] = *word);
        [count, count + 1, count.saturating_sub(1)]
            .into_iter()
            .try_for_each(|count| self.compare(&area, base, count))
    }
}

/// A good table's area, damaged in each way.
fn damages(
    random: &mut Random,
    tally: &mut Tally,
    area: &[u32],
    base: usize,
    count: usize,
) -> Result<(), String> {
    let size = order::size(base, count);
    let (words, holes): (Vec<usize>, Vec<usize>) = (0..area.len()).partition(|at| area[*at] != 0);
    let pick = |random: &mut Random, places: &[usize]| match places.len() {
        0 => None,
        n => Some(places[random.below(n as u32) as usize]),
    };
    let anything = |random: &mut Random| random.below(u32::MAX) + 1;

    let counts = [0, 1, 2 * count, size, 3 * size / 4, 3 * size / 4 + 1, area.len()];
    let huge = [(1 << 26) - 1, 1 << 26, u32::MAX as usize, 1 << 32, i64::MAX as usize, usize::MAX];
    for count in counts.into_iter().chain(huge) {
        tally.compare(area, base, count)?;
    }
    for other in [base / 2, base * 2, 4, 1 << 18] {
        if (4..=1 << 18).contains(&other) {
            tally.compare(area, other, count)?;
        }
    }
    for less in [0, size / 2, size.saturating_sub(1), size] {
        tally.with(&area[..less], base, count, &[])?;
    }
    // Full, or all but one place: a search for a word that is not there would not end, or late.
    for spared in [None, pick(random, &holes)] {
        let filled = holes.iter().filter(|at| Some(**at) != spared);
        let puts: Vec<(usize, u32)> = filled.map(|at| (*at, anything(random))).collect();
        for count in [count, area.len(), size] {
            tally.with(area, base, count, &puts)?;
        }
    }
    // Stale words behind.
    for at in size..area.len() {
        let stale = [anything(random), pick(random, &words).map_or(1, |at| area[at])];
        tally.with(area, base, count, &[(at, stale[random.below(2) as usize])])?;
    }
    for &at in &words {
        let word = area[at];
        tally.with(area, base, count, &[(at, 0)])?;
        for _ in 0..3 {
            if let Some(hole) = pick(random, &holes) {
                tally.with(area, base, count, &[(hole, word)])?;
                tally.with(area, base, count, &[(at, 0), (hole, word)])?;
            }
        }
        let other = pick(random, &words).unwrap();
        tally.with(area, base, count, &[(at, area[other]), (other, word)])?;
        let changed = [
            word ^ 1,
            word ^ 1 << random.below(32),
            // The same home, another step; the same slot, another value; another word's slot.
            word ^ (size as u32) << random.below(4),
            word ^ 1 << (26 + random.below(6)),
            word & 0xfc00_0000 | slot(area[other]),
            slot(word),
            anything(random),
            u32::MAX,
        ];
        for changed in changed {
            tally.with(area, base, count, &[(at, changed)])?;
        }
    }
    // Two at once.
    for _ in 0..16 {
        let puts = [0; 2].map(|_| {
            let word = [0, anything(random), pick(random, &words).map_or(1, |at| area[at])];
            (random.below(area.len().max(1) as u32) as usize, word[random.below(3) as usize])
        });
        if !area.is_empty() {
            tally.with(area, base, count, &puts)?;
        }
    }
    Ok(())
}

/// Tables of 0, 1, 2 .. words, so that the first difference is a small one.
pub fn compare_all(n: u64, seed: u64) -> Result<String, String> {
    let random = &mut Random::new(seed);
    let mut tally = Tally::default();
    let mut tables = 0;
    for i in 0..n / 2 {
        let lg_k = 4 + (i % 9) as u8;
        let words = distinct(random, lg_k, (i / 10) as u32);
        let (mut area, count) = shown(&mapped(lg_k, &words));
        let behind = [0, 1, 7][i as usize % 3];
        area.resize(area.len() + behind, 0);
        let base = leaf::base_for(lg_k);
        if !leaf::check(&area, base, count) {
            return Err(format!(
                "check refuses the Rust's table: base {base}, count {count}, {area:08x?}"
            ));
        }
        damages(random, &mut tally, &area, base, count)?;
        tables += 1;
    }
    Ok(format!(
        "check: {tables} tables of the Rust's and their damages: {} in good order and taken, {} not and refused",
        tally.good, tally.refused
    ))
}
