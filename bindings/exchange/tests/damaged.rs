//! Damaged images: number and place are those of the oracle's plain model of documents 01 and 02, and what opens means what the model says.

use exchange::{KINDS, ours};
use lintelpear::Sketch;
use oracle::damage;
use oracle::examples::{self, Random, listed, spread};
use oracle::model::{Model, said};

fn opens_as(image: &[u8]) -> u8 {
    let wanted = said(image);
    match Sketch::from_bytes(image) {
        Ok(sketch) => {
            assert_eq!(wanted, (0, 0), "opened: {image:02x?}");
            assert_eq!(sketch.registers(), Model::open(image).registers, "{image:02x?}");
        }
        Err(refusal) => {
            let answer = (refusal.number() as u8, refusal.place());
            assert_eq!(answer, wanted, "{image:02x?}");
        }
    }
    wanted.0
}

#[test]
fn refused_as_the_model_says() {
    let mut random = Random::new(7);
    let mut answers = [0; 26];
    for round in 0..60 {
        let (kind, lg_k) = (KINDS[round % 3], 4 + (round % 4) as u8);
        let coupons = examples::coupons(&mut random, lg_k, (round % 4) as u32, 60);
        let image = ours(kind, lg_k, &coupons).to_bytes();
        for image in [listed(&mut random, &image), spread(&mut random, &image), image] {
            for len in 0..=image.len() {
                answers[opens_as(&image[..len]) as usize] += 1;
            }
            for _ in 0..1000 {
                answers[opens_as(&damage::anywhere(&mut random, &image)) as usize] += 1;
                answers[opens_as(&damage::exceptions(&mut random, &image)) as usize] += 1;
            }
        }
    }
    // All that an image can be answered with, and nothing else.
    let all = [0, 2, 7, 8, 9, 10, 11, 12, 14, 15, 21, 22, 23, 24, 25];
    for (number, count) in answers.into_iter().enumerate() {
        assert_eq!(count > 0, all.contains(&number), "{number}");
    }
}
