//! Every kind 4 image of lg_k 4 with few exception words, out of those that matter, and every set of nibbles of 15 among three slots and
//! every count beside them, in both forms: nothing is left to chance. Number and place are the model's; what we open the Rust opens, alike.

use crate::opened::{lend, opened};
use oracle::aux_cases::{image, word};
use oracle::valueless::Valueless;
use oracle::{Answer, Recipe, hex, run};
use std::collections::BTreeMap;

#[derive(Default)]
struct Tally {
    opened: usize,
    refused: usize,
    /// Opened by the Rust alone, for each of our numbers.
    stricter: BTreeMap<u8, usize>,
    valueless: Valueless,
}

/// Every list of so many of these.
fn lists(of: &[u32], many: usize) -> Vec<Vec<u32>> {
    let mut all = vec![vec![]];
    for _ in 0..many {
        let longer = all
            .iter()
            .flat_map(|list: &Vec<u32>| of.iter().map(move |word| [&list[..], &[*word]].concat()));
        all = longer.collect();
    }
    all
}

/// These words with each set of nibbles of 15, where the least register is 0 and where it is 1.
fn compare(count: Option<u32>, words: &[u32], tally: &mut Tally) -> Result<(), String> {
    for set in 0..8 {
        let nibbles: Vec<u32> = (0..3).filter(|slot| set >> slot & 1 == 1).collect();
        for cur_min in 0..2 {
            let mut image = image(4, count, &nibbles, words);
            image[6] = cur_min;
            let fault = |fault| format!("image {}: {fault}", hex(&image));
            let answer = opened(&image, &mut lend(&image, 0)).map_err(fault)?;
            tally.valueless.add(&image, answer).map_err(fault)?;
            match (answer.0, run(&Recipe::Open { image, coupons: Vec::new() })) {
                (0, _) => tally.opened += 1,
                (number, Answer::Ok(_)) => *tally.stricter.entry(number).or_default() += 1,
                _ => tally.refused += 1,
            }
        }
    }
    Ok(())
}

pub fn compare_all() -> Result<String, String> {
    // Zero; no value, with slots 0 to 2 modulo k; values beside 15 and the largest.
    let few = [0, 1, 16, word(0, 15), word(1, 15), word(2, 14)];
    let more = [2, (1 << 26) - 15, word(0, 14), word(16, 15), word(17, 63), word(2, 16)];
    let all = [few, more].concat();
    let mut tally = Tally::default();
    for words in (0..4).flat_map(|many| lists(&all, many)) {
        compare(None, &words, &mut tally)?;
    }
    for words in [lists(&all, 1), lists(&all, 2), lists(&few, 4)].concat() {
        for count in 0..5 {
            compare(Some(count), &words, &mut tally)?;
        }
    }
    let Tally { opened, refused, stricter, valueless } = tally;
    let alone = stricter.values().sum::<usize>();
    Ok(format!(
        "every image of few exception words: {}: all that we open the Rust opens, alike: {opened}; {refused} refused by both, {alone} by us alone {stricter:?}; \
         of these {valueless}",
        opened + refused + alone
    ))
}
