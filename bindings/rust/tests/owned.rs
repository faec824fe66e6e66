//! The owned sketch against a plain model: fed, read and merged.

#[path = "common/draw.rs"]
mod draw;
#[path = "common/model.rs"]
mod model;

use draw::Draw;
use lintelpear::{Coupon, Kind, Refusal, Sketch};
use model::Model;

const KINDS: [Kind; 3] = [Kind::Four, Kind::Six, Kind::Eight];

fn fed(lg_k: u8, kind: Kind, coupons: &[u32]) -> Sketch {
    let mut sketch = Sketch::new(lg_k, kind).unwrap();
    sketch.extend(coupons.iter().copied());
    sketch
}

fn check(sketch: &Sketch, model: &Model) {
    assert!(sketch.registers() == model.0, "{:?}, lg_k {}", sketch.kind(), sketch.lg_k());
    assert_eq!(sketch.sums(), model.sums());
}

#[test]
fn registers_are_the_largest_values() {
    let mut draw = Draw::new(1);
    for lg_k in 4..=12 {
        for kind in KINDS {
            for number in [0, 1, 63, 64, 65, 12 << lg_k] {
                let coupons = draw.coupons(number);
                let sketch = fed(lg_k, kind, &coupons);
                assert_eq!((sketch.lg_k(), sketch.kind()), (lg_k, kind));
                check(&sketch, &Model::new(lg_k, &coupons));
            }
        }
    }
}

#[test]
fn the_largest_sketch() {
    // So many that some of them are waiting at the end.
    let coupons = Draw::new(2).coupons(400_000);
    let model = Model::new(21, &coupons);
    for kind in KINDS {
        let sketch = fed(21, kind, &coupons);
        check(&sketch, &model);
        assert!(Sketch::from_bytes(&sketch.to_bytes()) == Ok(sketch));
    }
}

/// Reads and flushes in between change nothing, the image of kind 4 included, which depends on the order of coupons.
#[test]
fn one_by_one_or_together() {
    let mut draw = Draw::new(3);
    for lg_k in 4..=12 {
        for kind in KINDS {
            let coupons = draw.coupons(3 << lg_k);
            let together = fed(lg_k, kind, &coupons);
            let mut one_by_one = Sketch::new(lg_k, kind).unwrap();
            for (i, coupon) in coupons.iter().enumerate() {
                one_by_one.update(*coupon);
                match draw.below(400) {
                    0 => one_by_one.flush(),
                    1 => check(&one_by_one, &Model::new(lg_k, &coupons[..=i])),
                    2 => one_by_one = one_by_one.clone(),
                    _ => {}
                }
            }
            assert!(one_by_one == together);
            assert!(one_by_one.to_bytes() == together.to_bytes());
            one_by_one.flush();
            assert!(one_by_one.to_bytes() == together.to_bytes());
        }
    }
}

#[test]
fn merges_in_any_order() {
    let mut draw = Draw::new(4);
    for round in 0..60 {
        let lg_k = 4 + round % 7;
        let source = |draw: &mut Draw| {
            let (finer, kind) = (lg_k + draw.below(4) as u8, KINDS[draw.below(3) as usize]);
            // Few, so that all of them wait, or many.
            let number = if draw.below(2) == 0 { 40 } else { 5 << finer };
            let coupons = draw.coupons(number);
            (fed(finer, kind, &coupons), coupons)
        };
        let ((a, of_a), (b, of_b)) = (source(&mut draw), source(&mut draw));
        let own = draw.coupons(50);
        let mut ab = fed(lg_k, Kind::Eight, &own);
        ab.merge(&a).unwrap();
        ab.merge(&b).unwrap();
        let mut ba = Sketch::new(lg_k, Kind::Eight).unwrap();
        ba.merge(&b).unwrap();
        ba.merge(&a).unwrap();
        ba.extend(own.iter().copied());
        check(&ab, &Model::new(lg_k, &[own, of_a, of_b].concat()));
        assert_eq!(ab.to_bytes(), ba.to_bytes());
        assert_eq!(ab, ba);
    }
}

#[test]
fn refused_merges_change_nothing() {
    let source = fed(4, Kind::Eight, &[(9 << 26) | 1]);
    for (target, refusal) in [
        (fed(4, Kind::Four, &[5 << 26]), Refusal::Kind),
        (fed(4, Kind::Six, &[5 << 26]), Refusal::Kind),
        (fed(5, Kind::Eight, &[5 << 26]), Refusal::Finer),
    ] {
        let mut merged = target.clone();
        assert_eq!(merged.merge(&source), Err(refusal));
        assert_eq!(merged, target);
    }
}

#[test]
fn every_lg_k() {
    for lg_k in 0..=255 {
        for kind in KINDS {
            match Sketch::new(lg_k, kind) {
                Ok(sketch) => assert_eq!(sketch.registers().len(), 1 << lg_k),
                Err(refusal) => {
                    assert!(!(4..=21).contains(&lg_k));
                    assert_eq!(refusal, Refusal::LgK);
                }
            }
        }
    }
}

#[test]
fn equal_means_the_same_registers() {
    // Both slots start their search at the table's first word, so the order shows in the image.
    let (first, second) = (40 << 26, (40 << 26) | 4);
    let one = fed(5, Kind::Four, &[first, second]);
    let other = fed(5, Kind::Four, &[second, first]);
    assert_ne!(one.to_bytes(), other.to_bytes());
    assert_eq!(one, other);
    assert_ne!(one, fed(5, Kind::Six, &[first, second]));
    assert_ne!(one, fed(5, Kind::Four, &[first]));
    assert_ne!(Sketch::new(4, Kind::Eight), Sketch::new(5, Kind::Eight));
}

#[test]
fn coupons() {
    assert_eq!(u32::from(Coupon::new(0x03ff_ffff, 63)), u32::MAX);
    assert_eq!(u32::from(Coupon::new(0, 1)), 1 << 26);
    assert_eq!(Coupon::new(1, 64), Coupon::new(1, 63));
    assert_eq!(Coupon::new(0x0400_0001, 2), Coupon::new(1, 2));
    let coupon = Coupon::from(0xa800_0003);
    assert_eq!((coupon.slot(), coupon.value()), (3, 42));
    let (mut words, mut coupons) = (Sketch::new(4, Kind::Six).unwrap(), fed(4, Kind::Six, &[]));
    words.extend([0xa800_0003u32]);
    coupons.extend([coupon]);
    assert_eq!(words.registers()[3], 42);
    assert_eq!(words, coupons);
}

#[test]
fn goes_between_threads() {
    fn free<T: Send + Sync>(_: &T) {}
    free(&Sketch::new(4, Kind::Eight));
}
