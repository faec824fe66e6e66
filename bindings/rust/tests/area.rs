//! Kind 4's exception area grows by itself, and what is kept is the same as in an area that was large from the start.

#[path = "common/draw.rs"]
mod draw;
#[path = "common/model.rs"]
mod model;

use draw::Draw;
use lintelpear::{Coupon, Kind, Sketch, lent};
use model::Model;

/// The image by one lent feed, with room for all.
fn roomy(lg_k: u8, coupons: &[u32]) -> Vec<u8> {
    let k = 1usize << lg_k;
    let (mut regs, mut aux) = (vec![0; k / 2], vec![0; 2 * k]);
    let mut record = lent::start(4, lg_k.into(), &mut regs, &mut aux).unwrap();
    record.feed(&mut regs, &mut aux, &mut vec![0; 2 * k], coupons).answer.unwrap();
    let mut image = vec![0; 40 + k / 2 + 4 * k];
    let len = record.write(&regs, &aux, &mut image).unwrap();
    image.truncate(len);
    image
}

fn grown(lg_k: u8, coupons: &[u32]) -> Sketch {
    let mut sketch = Sketch::new(lg_k, Kind::Four).unwrap();
    sketch.extend(coupons.iter().copied());
    sketch
}

/// All registers become exceptions; the last one lifts the least register, and none is left.
#[test]
fn up_to_every_register() {
    for lg_k in 4..=12 {
        let k = 1usize << lg_k;
        let coupons: Vec<u32> = (0..k as u32).map(|slot| Coupon::new(slot, 63).into()).collect();
        let mut sketch = grown(lg_k, &coupons[..k - 1]);
        let image = sketch.to_bytes();
        assert_eq!(image.len(), 40 + k / 2 + 4 * (k - 1));
        assert!(image == roomy(lg_k, &coupons[..k - 1]));
        assert_eq!(Sketch::from_bytes(&image), Ok(sketch.clone()));

        sketch.update(coupons[k - 1]);
        assert_eq!(sketch.registers(), vec![63; k]);
        assert_eq!(sketch.to_bytes().len(), 40 + k / 2);
        assert!(sketch.to_bytes() == roomy(lg_k, &coupons));
    }
}

#[test]
fn the_same_as_with_room_from_the_start() {
    let mut draw = Draw::new(5);
    for lg_k in 4..=12 {
        // Many exceptions, and few, whose table is smaller than k, so that the order of coupons shows in it.
        for share in [2, 8, 32, 128] {
            let mut coupons = draw.coupons(4 << lg_k);
            for coupon in &mut coupons {
                if draw.below(share) == 0 {
                    *coupon |= 0x8000_0000;
                }
            }
            let sketch = grown(lg_k, &coupons);
            let model = Model::new(lg_k, &coupons);
            assert!(sketch.registers() == model.0);
            assert_eq!(sketch.sums(), model.sums());
            assert!(sketch.to_bytes() == roomy(lg_k, &coupons));
        }
    }
}

/// Opened with just enough room, and grown from there.
#[test]
fn grows_after_opening() {
    for lg_k in 4..=10 {
        let k = 1 << lg_k;
        let coupons: Vec<u32> = (0..k - 1).map(|slot| Coupon::new(slot, 40).into()).collect();
        for taken in [1, 3, 4, 12, 13].into_iter().chain([k as usize / 2]) {
            let mut sketch =
                Sketch::from_bytes(&grown(lg_k, &coupons[..taken]).to_bytes()).unwrap();
            sketch.extend(coupons[taken..].iter().copied());
            assert!(sketch.registers() == Model::new(lg_k, &coupons).0);
        }
    }
}
