//! The Rust's lists and sets against `lists.rs`: what it writes at each lg_k and at which count it goes over to the next form, random
//! ones, and damaged ones, which one side alone may take only for a reason that docs/DIFFERENCES.md numbers.

use crate::damage;
use crate::examples::Random;
use crate::list_cases;
use crate::lists::{Layout, laid_out, many, most, said, words};
use crate::model::Model;
use crate::{Answer, Few, Recipe, hex, run};
use std::collections::{BTreeMap, BTreeSet};

/// The same lg_k for every image, so that none is too coarse: FINER is no matter of the Rust's.
const COARSEST: u8 = 4;

fn registers(lg_k: u8, coupons: &[u32]) -> Vec<u8> {
    let mut model = Model::new(8, lg_k);
    coupons.iter().for_each(|coupon| model.feed(*coupon));
    model.registers
}

fn distinct(words: &[u32]) -> BTreeSet<u32> {
    words.iter().copied().collect()
}

/// What the Rust makes of coupons, none of them the zero word: a list, a set or registers, by their number; its image is the one that
/// we lay out of its words, and they are read back from it. Answers the image of a list or a set.
fn written(kind: u8, lg_k: u8, coupons: &[u32]) -> Result<Option<Vec<u8>>, String> {
    let distinct_ones = distinct(coupons);
    let many = distinct_ones.len();
    let answer = run(&Recipe::FromList { kind, lg_k, coupons: coupons.to_vec() });
    let fault = |answer: &dyn std::fmt::Display| {
        Err(format!("kind {kind}, lg_k {lg_k}, coupons {coupons:08x?}: answered {answer}"))
    };
    match answer {
        Answer::Ok(state) if many > most(lg_k) => {
            match state.registers == registers(lg_k, coupons) {
                true => Ok(None),
                false => fault(&Answer::Ok(state)),
            }
        }
        Answer::Few(few) if many <= most(lg_k) => {
            let layout = if many < 8 { Layout::List } else { Layout::Set };
            let in_order = || {
                let mut seen = BTreeSet::new();
                coupons.iter().copied().filter(|word| seen.insert(*word)).collect::<Vec<u32>>()
            };
            let same = (few.layout, few.count) == (layout, many)
                && said(&few.image, lg_k) == (0, 0)
                && words(&few.image) == few.words
                && distinct(&few.words) == distinct_ones
                && (layout == Layout::Set || few.words == in_order())
                && few.image == laid_out(layout, kind, lg_k, &few.words);
            if same { Ok(Some(few.image)) } else { fault(&Answer::Few(few)) }
        }
        other => fault(&other),
    }
}

/// Coupons of any value, some by slots that are one modulo k, some twice; no zero word.
fn drawn(random: &mut Random, lg_k: u8, many: usize) -> Vec<u32> {
    let k = 1 << lg_k;
    let mut coupons: Vec<u32> = Vec::new();
    while coupons.len() < many {
        let (slot, value) = (random.below(k), random.below(64));
        let coupon = random.coupon(k, slot, value);
        let again = random.below(8) == 0;
        match coupons.get(random.below(many as u32) as usize) {
            Some(old) if again => coupons.push(*old),
            _ if coupon != 0 => coupons.push(coupon),
            _ => {}
        }
    }
    coupons
}

/// An image of ours, which the Rust may refuse: a list of up to 255 words or a set of any lg_k, words twice among them; at times not
/// compact, with free places behind its words.
fn ours(random: &mut Random, kind: u8, lg_k: u8) -> Vec<u8> {
    let layout = [Layout::List, Layout::Set][random.below(2) as usize];
    let most = [9, 40, 255][random.below(3) as usize];
    let many = random.below(most + 1) as usize;
    let mut image = laid_out(layout, kind, lg_k, &drawn(random, lg_k, many));
    if random.below(8) == 0 {
        image[5] &= !8;
        image.resize(image.len().max(layout.start() + (4 << image[4])), 0);
    }
    image
}

/// Why the Rust refuses an image with which nothing is wrong: its number in docs/DIFFERENCES.md.
fn stricter(image: &[u8]) -> Option<u8> {
    let (lg_k, lg_arr, empty, words) = (image[3], image[4], image[5] & 4 != 0, words(image));
    if image[7] & 12 == 12 {
        return Some(25);
    }
    if image[0] == 2 {
        let reasons = [(23, lg_arr != 3), (22, words.len() > 8), (24, empty != words.is_empty())];
        return reasons.into_iter().find(|(_, holds)| *holds).map(|(number, _)| number);
    }
    if !(5..=lg_k.saturating_sub(3)).contains(&lg_arr) {
        return Some(26);
    }
    if words.len() >= 1 << lg_arr {
        return Some(27);
    }
    (distinct(&words).len() < words.len()).then_some(28)
}

/// How images fared, both sides asked.
#[derive(Default)]
struct Tally {
    read: u32,
    refused: u32,
    /// Refused by the Rust alone, for each number in docs/DIFFERENCES.md.
    stricter: BTreeMap<u8, u32>,
    /// Refused by document 02 alone, for each of its numbers.
    looser: BTreeMap<u8, u32>,
}

impl Tally {
    fn compare(&mut self, image: &[u8]) -> Result<(), String> {
        let answer = run(&Recipe::Open { image: image.to_vec(), coupons: Vec::new() });
        match (said(image, COARSEST).0, answer) {
            (0, Answer::Few(Few { lg_k, words: theirs, .. }))
                if lg_k == image[3]
                    && distinct(&theirs) == distinct(&words(image))
                    && stricter(image).is_none() =>
            {
                self.read += 1
            }
            (0, Answer::Error(text)) => {
                let reason = stricter(image).ok_or(format!("{}: {text}", hex(image)))?;
                *self.stricter.entry(reason).or_default() += 1
            }
            (number @ (26 | 27), Answer::Few(_)) => *self.looser.entry(number).or_default() += 1,
            (1.., Answer::Error(_)) => self.refused += 1,
            (number, answer) => {
                return Err(format!("{}: {number}, where the Rust answers {answer}", hex(image)));
            }
        }
        Ok(())
    }
}

/// At every lg_k: none, one, the last list, the first set or registers, the last set, and one more.
fn steps() -> Result<usize, String> {
    let mut images = 0;
    for (kind, lg_k) in (4..=21).flat_map(|lg_k| [4, 6, 8].map(|kind| (kind, lg_k))) {
        for count in [0, 1, 2, 7, 8, 9, most(lg_k), most(lg_k) + 1] {
            images += written(kind, lg_k, &many(count))?.is_some() as usize;
        }
    }
    Ok(images)
}

/// On both sides of each bound that the Rust has and document 02 has not: words of a list, words of a set, and its lg_arr.
fn bounds(tally: &mut Tally) -> Result<(), String> {
    for (lg_k, lg_arr) in (4..=21).flat_map(|lg_k| (2..=19).map(move |lg_arr| (lg_k, lg_arr))) {
        let places = if lg_arr < 10 { 1 << lg_arr } else { 40 };
        for (layout, most) in [(Layout::List, 8), (Layout::Set, places)] {
            for count in [most - 1, most, most + 1] {
                let mut image = laid_out(layout, 8, lg_k, &many(count));
                image[4] = lg_arr;
                tally.compare(&image)?;
            }
        }
    }
    Ok(())
}

/// Opened by the Rust and fed on, at times until it has registers.
fn fed_on(random: &mut Random, image: &[u8]) -> Result<bool, String> {
    let lg_k = image[3];
    let many = random.below(2 * most(lg_k) as u32) as usize;
    let more = drawn(random, lg_k, many);
    let all = [words(image), more.clone()].concat();
    match run(&Recipe::Open { image: image.to_vec(), coupons: more }) {
        Answer::Ok(state) if state.registers == registers(lg_k, &all) => Ok(true),
        Answer::Few(few) if distinct(&few.words) == distinct(&all) => Ok(false),
        answer => Err(format!("{} fed on with {all:08x?}: {answer}", hex(image))),
    }
}

fn by_number(counts: &BTreeMap<u8, u32>) -> String {
    let counts = counts.iter().map(|(number, times)| format!("{number}: {times}"));
    counts.collect::<Vec<_>>().join(", ")
}

/// Compares N random lists and sets and what follows from each; says what was compared.
pub fn check(n: u64, seed: u64) -> Result<String, String> {
    let cases = list_cases::cases();
    for (what, image, lg_k, wanted) in &cases {
        if said(image, *lg_k) != *wanted {
            return Err(format!("{what}: {:?}, not {wanted:?}", said(image, *lg_k)));
        }
    }
    let random = &mut Random::new(seed);
    let (mut written_ones, mut over, mut risen) = (steps()?, 0, 0);
    let mut tally = Tally::default();
    bounds(&mut tally)?;
    for _ in 0..n {
        let (kind, lg_k) = ([4, 6, 8][random.below(3) as usize], 4 + random.below(9) as u8);
        let count = random.below(most(lg_k) as u32 + 3) as usize;
        let mut images = vec![ours(random, kind, lg_k)];
        match written(kind, lg_k, &drawn(random, lg_k, count))? {
            Some(image) => {
                written_ones += 1;
                risen += fed_on(random, &image)? as u32;
                images.push(image);
            }
            None => over += 1,
        }
        for image in images {
            tally.compare(&image)?;
            for _ in 0..4 {
                tally.compare(&damage::coupons(random, &image))?;
            }
        }
    }
    let Tally { read, refused, stricter, looser } = tally;
    Ok(format!(
        "lists and sets: {} cases worked out by hand; {written_ones} images of the Rust's, laid out and read as document 02 says, {over} \
         with too many coupons, which are registers; {risen} fed on until they were; others and damaged ones: {read} read by both and \
         alike, {refused} refused by both, {} by the Rust alone (by reason, {}), {} by document 02 alone ({})",
        cases.len(),
        stricter.values().sum::<u32>(),
        by_number(&stricter),
        looser.values().sum::<u32>(),
        by_number(&looser)
    ))
}
