//! Images whose exception words are wrong, at every lg_k and in both forms: number and place are those of document 02, which
//! `aux_fault.rs` says plainly.

use crate::draw;
use crate::opened::{lend, opened};
use crate::rust;
use oracle::examples::{Random, listed, spread};
use oracle::valueless::Valueless;
use oracle::{Door, aux_cases, damage, hex};

/// How often each number was answered, and the largest place.
#[derive(Default)]
struct Tally {
    answers: [usize; 26],
    farthest: u32,
    valueless: Valueless,
}

/// Opens the image in memory as it asks for, or with a word more; what is answered has been compared with the model.
fn compare(image: &[u8], more: usize, tally: &mut Tally) -> Result<(u8, u32), String> {
    let answer = opened(image, &mut lend(image, more)).map_err(|fault| {
        let shown = if image.len() < 10_000 { hex(image) } else { hex(&image[..40]) + "..." };
        format!("image {shown}:\n{fault}")
    })?;
    tally.valueless.add(image, answer)?;
    tally.answers[answer.0 as usize] += 1;
    tally.farthest = tally.farthest.max(answer.1);
    Ok(answer)
}

/// A good image in both forms, each damaged so many times.
fn damaged(
    random: &mut Random,
    image: &[u8],
    times: usize,
    tally: &mut Tally,
) -> Result<(), String> {
    for form in [listed(random, image), spread(random, image)] {
        for i in 0..times {
            let damage = if i % 4 == 3 { damage::valueless } else { damage::exceptions };
            let (more, image) = (random.below(2) as usize, damage(random, &form));
            if image != form {
                compare(&image, more, tally)?;
            }
        }
    }
    Ok(())
}

/// Each answer beside its neighbours.
fn boundaries(tally: &mut Tally) -> Result<usize, String> {
    let cases = [aux_cases::small(), aux_cases::valueless(), aux_cases::large()].concat();
    let number = cases.len();
    for (what, image, wanted) in cases {
        let answer = compare(&image, 0, tally).map_err(|fault| format!("{what}: {fault}"))?;
        if answer != wanted {
            return Err(format!("{what}: answered {answer:?}, not {wanted:?}"));
        }
    }
    Ok(number)
}

pub fn compare_all(n: u64, seed: u64) -> Result<String, String> {
    let random = &mut Random::new(seed);
    let mut tally = Tally::default();
    for i in 0..n {
        let lg_k = 4 + (i % 9) as u8;
        let mut rust = Door::start(4, lg_k);
        rust::feed(&mut rust, &draw::coupons(random, lg_k));
        damaged(random, &rust.serialize(), 8, &mut tally)?;
    }
    for lg_k in 13..=21 {
        let mut rust = Door::start(4, lg_k);
        let coupon = |_| (1 + random.below(63)) << 26 | random.below(1 << 26);
        rust::feed(&mut rust, &(0..200).map(coupon).collect::<Vec<u32>>());
        damaged(random, &rust.serialize(), 16, &mut tally)?;
    }
    let cases = boundaries(&mut tally)?;
    let Tally { answers, farthest, valueless } = tally;
    let images: usize = answers.iter().sum();
    let others: usize = answers[1..21].iter().sum();
    Ok(format!(
        "exception words: {images} images of lg_k 4 to 21 in both forms with words, nibbles or counts changed: all that we open the Rust opens, alike: {}; AUX_EMPTY {}, \
         AUX_TWICE {}, AUX_LOW {}, AUX_COUNT {}, AUX_MATCH {}, {others} with other answers, number and place of each as the model says, the largest place {farthest}; \
         {cases} of them boundaries beside their neighbours, worked out by hand; of these {valueless}",
        answers[0], answers[21], answers[22], answers[23], answers[24], answers[25]
    ))
}
