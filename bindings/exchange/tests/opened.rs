//! The Rust's images, read by us.

use exchange::{KINDS, by_new, cases, more, ours, rusts, same, same_image};
use lintelpear::{Kind, Refusal, Sketch};
use oracle::Door;
use oracle::examples::{Random, listed, spread};
use oracle::hll::HllSketch;

#[test]
fn read_by_us_and_fed_on() {
    cases(3, |random, kind, lg_k, coupons| {
        let more = more(random, lg_k);
        for mut rusts in [rusts(kind, lg_k, &coupons), by_new(kind, lg_k, &coupons)] {
            let image = rusts.serialize();
            let mut ours = Sketch::from_bytes(&image).unwrap();
            same(&ours, &rusts);
            ours.extend(more.iter().copied());
            Door::feed(&mut rusts, &more);
            same(&ours, &rusts);
            // Where kind 4's exceptions stand depends on the order of the image that was read.
            let mut again = HllSketch::deserialize(&image).unwrap();
            Door::feed(&mut again, &more);
            same_image(&ours, &again, 32);
        }
    });
}

/// Exceptions in another order and by other slots modulo k, and in the second form.
#[test]
fn told_in_other_ways() {
    cases(4, |random, kind, lg_k, coupons| {
        let image = rusts(kind, lg_k, &coupons).serialize();
        for image in [listed(random, &image), spread(random, &image)] {
            let rusts = HllSketch::deserialize(&image).unwrap();
            let ours = Sketch::from_bytes(&image).unwrap();
            same(&ours, &rusts);
            same_image(&ours, &rusts, 32);
        }
    });
}

/// Images of both sides, merged on both.
#[test]
fn merged() {
    cases(5, |random, kind, lg_k, coupons| {
        let coarser = 4.max(lg_k - random.below(4) as u8);
        let more = more(random, coarser);
        let mut all = ours(Kind::Eight, coarser, &more);
        let mut of_rust = rusts(Kind::Eight, coarser, &more);
        let (of_ours, source) = (ours(kind, lg_k, &coupons), rusts(kind, lg_k, &coupons));
        all.merge(&Sketch::from_bytes(&source.serialize()).unwrap()).unwrap();
        let of_ours = HllSketch::deserialize(&of_ours.to_bytes()).unwrap();
        Door::merge(&mut of_rust, &of_ours).unwrap();
        same(&all, &of_rust);
        same_image(&all, &of_rust, 16);
    });
}

/// Opening reads registers alone.
#[test]
fn lists_are_refused() {
    for kind in KINDS {
        let coupons = [Random::new(6).coupon(1 << 10, 3, 5)];
        let image = by_new(kind, 10, &coupons).serialize();
        let image = [image, vec![0; 40]].concat();
        assert_eq!(Sketch::from_bytes(&image), Err(Refusal::Header));
    }
}
