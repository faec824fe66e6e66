//! The Rust's lists and sets, fed to our sketches; and damaged ones, answered as the oracle's plain model of document 02 says.

use exchange::{KINDS, by_new, more, ours, rusts, same, same_image};
use lintelpear::{Kind, Sketch};
use oracle::examples::{self, Random};
use oracle::{Door, damage, lists};

/// So many coupons, by the oracle's plans: each has a value, and none is there twice.
fn few(random: &mut Random, lg_k: u8, number: usize) -> Vec<u32> {
    let mut few = Vec::new();
    while few.len() < number {
        let plan = random.below(4);
        for coupon in examples::coupons(random, lg_k, plan, number as u32) {
            if few.len() < number && coupon >> 26 != 0 && !few.contains(&coupon) {
                few.push(coupon);
            }
        }
    }
    few
}

#[test]
fn taken_by_us_and_fed_on() {
    let mut random = Random::new(8);
    for lg_k in 4..=16 {
        for number in [0, 1, lists::most(lg_k).min(7), lists::most(lg_k).min(300)] {
            let coupons = few(&mut random, lg_k, number);
            let image = by_new(KINDS[number % 3], lg_k, &coupons).serialize();
            let words = lists::words(&image);
            assert_eq!(words.len(), number);
            for kind in KINDS {
                let coarser = lg_k - random.below(lg_k as u32 - 3) as u8;
                let (before, after) = (more(&mut random, coarser), more(&mut random, coarser));
                let mut sketch = ours(kind, coarser, &before);
                assert_eq!(sketch.feed_image(&image), Ok(number));
                let mut wanted = rusts(kind, coarser, &[before, words.clone()].concat());
                same(&sketch, &wanted);
                same_image(&sketch, &wanted, 16);
                sketch.extend(after.iter().copied());
                Door::feed(&mut wanted, &after);
                same_image(&sketch, &wanted, 16);
            }
        }
    }
}

/// Once with as many coupons as a set can have.
#[test]
fn the_largest_set() {
    let most = lists::most(21);
    let image = by_new(Kind::Six, 21, &lists::many(most)).serialize();
    assert_eq!(image.len(), 12 + 4 * most);
    for (kind, lg_k) in [(Kind::Four, 12), (Kind::Six, 21), (Kind::Eight, 21)] {
        let mut sketch = Sketch::new(lg_k, kind).unwrap();
        assert_eq!(sketch.feed_image(&image), Ok(most));
        same_image(&sketch, &rusts(kind, lg_k, &lists::words(&image)), 16);
    }
}

fn fed_as(lg_k: u8, image: &[u8]) -> u8 {
    let wanted = lists::said(image, lg_k);
    let mut sketch = Sketch::new(lg_k, Kind::Four).unwrap();
    match sketch.feed_image(image) {
        Ok(taken) => {
            assert_eq!(wanted, (0, 0), "fed: {image:02x?}");
            let words = lists::words(image);
            assert_eq!(taken, words.len(), "{image:02x?}");
            same(&sketch, &rusts(Kind::Four, lg_k, &words));
        }
        Err(refusal) => {
            let answer = (refusal.number() as u8, refusal.place());
            assert_eq!(answer, wanted, "{image:02x?}");
            assert!(sketch == Sketch::new(lg_k, Kind::Four).unwrap(), "{image:02x?}");
        }
    }
    wanted.0
}

#[test]
fn refused_as_the_model_says() {
    let mut random = Random::new(9);
    let mut answers = [0; 28];
    for round in 0..60 {
        let lg_k = 4 + round % 7;
        let coupons = few(&mut random, lg_k, lists::most(lg_k) * round as usize / 60);
        let image = by_new(KINDS[round as usize % 3], lg_k, &coupons).serialize();
        for len in 0..=image.len() {
            answers[fed_as(lg_k, &image[..len]) as usize] += 1;
        }
        for _ in 0..1000 {
            let sketch = 4.max(lg_k + 1 - random.below(3) as u8);
            answers[fed_as(sketch, &damage::coupons(&mut random, &image)) as usize] += 1;
        }
    }
    // All that an image can be answered with, and nothing else.
    for (number, count) in answers.into_iter().enumerate() {
        assert_eq!(count > 0, [0, 2, 5, 7, 8, 9, 26, 27].contains(&number), "{number}");
    }
}
