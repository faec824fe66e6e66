//! Our images, read by the Rust.

use exchange::{cases, more, ours, rusts, same, same_image};
use lintelpear::Sketch;
use oracle::Door;
use oracle::hll::HllSketch;

#[test]
fn read_by_the_rust_and_fed_on() {
    cases(1, |random, kind, lg_k, coupons| {
        let mut ours = ours(kind, lg_k, &coupons);
        let mut rusts = HllSketch::deserialize(&ours.to_bytes()).unwrap();
        same(&ours, &rusts);
        let more = more(random, lg_k);
        ours.extend(more.iter().copied());
        Door::feed(&mut rusts, &more);
        same(&ours, &rusts);
        assert!(Sketch::from_bytes(&rusts.serialize()) == Ok(ours));
    });
}

#[test]
fn the_image_is_the_rusts() {
    cases(2, |random, kind, lg_k, coupons| {
        let (mut ours, mut rusts) = (ours(kind, lg_k, &coupons), rusts(kind, lg_k, &coupons));
        same_image(&ours, &rusts, 16);
        let more = more(random, lg_k);
        ours.extend(more.iter().copied());
        Door::feed(&mut rusts, &more);
        same_image(&ours, &rusts, 16);
    });
}
