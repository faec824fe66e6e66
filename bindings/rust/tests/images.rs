//! Images written and read again; damaged ones, which are refused by the table's numbers and never end the program.

#[path = "common/draw.rs"]
mod draw;

use draw::Draw;
use lintelpear::{Coupon, Kind, Refusal, Sketch};

const KINDS: [Kind; 3] = [Kind::Four, Kind::Six, Kind::Eight];

/// A sketch of lg_k 4; for kind 4 with one exception, at slot 3.
fn image(kind: Kind) -> Vec<u8> {
    let mut sketch = Sketch::new(4, kind).unwrap();
    sketch.extend([Coupon::new(1, 2), Coupon::new(3, 40)]);
    sketch.to_bytes()
}

#[track_caller]
fn refused(image: &[u8], refusal: Refusal) {
    assert_eq!(Sketch::from_bytes(image), Err(refusal));
}

/// An image of some kind with a few bytes replaced.
fn with(kind: Kind, bytes: &[(usize, u8)]) -> Vec<u8> {
    let mut image = image(kind);
    bytes.iter().for_each(|(at, byte)| image[*at] = *byte);
    image
}

#[test]
fn written_and_read_again() {
    let mut draw = Draw::new(6);
    for lg_k in 4..=12 {
        for kind in KINDS {
            for number in [0, 5, 2 << lg_k, 20 << lg_k] {
                let mut sketch = Sketch::new(lg_k, kind).unwrap();
                sketch.extend(draw.coupons(number));
                let image = sketch.to_bytes();
                let mut again = Sketch::from_bytes(&image).unwrap();
                assert_eq!(again, sketch);
                assert_eq!(again.sums(), sketch.sums());
                assert!(again.to_bytes().len() == image.len());
                let behind = [&image[..], &[1, 2, 3]].concat();
                assert_eq!(Sketch::from_bytes(&behind), Ok(sketch.clone()));
                let more = draw.coupons(200);
                sketch.extend(more.iter().copied());
                again.extend(more);
                assert_eq!(again, sketch);
            }
        }
    }
}

/// Document 01's first specimen.
#[test]
fn an_empty_sketch() {
    let mut wanted = [0; 56];
    wanted[..8].copy_from_slice(&[10, 1, 7, 4, 0, 16, 0, 10]);
    wanted[16..24].copy_from_slice(&16f64.to_le_bytes());
    wanted[32] = 16;
    assert_eq!(Sketch::new(4, Kind::Eight).unwrap().to_bytes(), wanted);
}

#[test]
fn refused_by_the_tables_numbers() {
    use Kind::{Eight, Four, Six};
    refused(&[], Refusal::Short);
    refused(&with(Eight, &[(0, 9)])[..39], Refusal::Short);
    refused(&with(Eight, &[(0, 9)])[..40], Refusal::Header);
    refused(&image(Eight)[..40], Refusal::Short);
    refused(&image(Eight)[..55], Refusal::Short);
    refused(&image(Four)[..51], Refusal::Short);
    refused(&with(Six, &[(1, 2)]), Refusal::Header);
    refused(&with(Six, &[(2, 6), (7, 3)]), Refusal::Header);
    refused(&with(Four, &[(7, 0x12), (3, 3)]), Refusal::Mode);
    for lg_k in [0, 3, 22, 31, 63, 64, 255] {
        refused(&with(Four, &[(3, lg_k), (6, 64)]), Refusal::LgK);
    }
    refused(&with(Eight, &[(6, 1)]), Refusal::Counts);
    refused(&with(Six, &[(36, 1)]), Refusal::Counts);
    refused(&with(Four, &[(6, 64)]), Refusal::Counts);
    refused(&with(Four, &[(36, 17)]), Refusal::Counts);
    refused(&with(Four, &[(5, 16), (4, 23)]), Refusal::LgArr);
    refused(&with(Four, &[(5, 16), (4, 22)]), Refusal::Short);
    refused(&with(Eight, &[(40, 64)]), Refusal::Value);
    refused(&with(Four, &[(6, 62), (40, 0x22)]), Refusal::Value);
    refused(&with(Six, &[(52, 1)]), Refusal::Spare);
    for kind in KINDS {
        refused(&with(kind, &[(32, 13)]), Refusal::Tally);
    }
}

/// A count that no word stands behind asks for the largest table; NO_ROOM is never the answer.
#[test]
fn counts_that_lie() {
    let lying = |lg_k: u8, bytes: usize| {
        let mut image = vec![0; bytes];
        // The second form, with one word.
        image[..8].copy_from_slice(&[10, 1, 7, lg_k, 0, 0, 0, 2]);
        image[36..40].copy_from_slice(&(1u32 << lg_k).to_le_bytes());
        image
    };
    for lg_k in [4, 10, 21] {
        let mut image = lying(lg_k, 44 + (1 << lg_k) / 2);
        refused(&image, Refusal::AuxCount);
        refused(&image[..image.len() - 1], Refusal::Short);
        refused(&image[..40], Refusal::Short);
        (image[6], image[40]) = (60, 14);
        refused(&image, Refusal::Value);
        image[5] = 8;
        refused(&image, Refusal::Short);
    }
}

/// What memory has to say, or what only a merge or a buffer does, is no answer to an image.
fn opens(image: &[u8]) -> bool {
    match Sketch::from_bytes(image) {
        Ok(sketch) => {
            assert_eq!(Sketch::from_bytes(&sketch.to_bytes()), Ok(sketch));
            true
        }
        Err(refusal) => {
            let number = refusal.number();
            assert!(
                [2, 14, 15].contains(&number) || (7..=12).contains(&number) || number > 20,
                "{refusal}: {image:02x?}"
            );
            false
        }
    }
}

#[test]
fn damaged_anywhere() {
    let mut draw = Draw::new(7);
    let (mut opened, mut refused) = (0, 0);
    for kind in KINDS {
        let good = image(kind);
        assert!(opens(&good));
        for len in 0..good.len() {
            assert_eq!(Sketch::from_bytes(&good[..len]), Err(Refusal::Short));
        }
        let mut count = |image: &[u8]| *if opens(image) { &mut opened } else { &mut refused } += 1;
        for at in 0..good.len() {
            for byte in 0..=255 {
                count(&with(kind, &[(at, byte)]));
            }
        }
        for _ in 0..20_000 {
            let mut image = good.clone();
            for _ in 0..1 + draw.below(4) {
                image[draw.below(good.len() as u32) as usize] = draw.below(256) as u8;
            }
            image.truncate(draw.below(3 * good.len() as u32) as usize);
            count(&image);
        }
    }
    assert!(opened > 10_000 && refused > 10_000, "{opened} opened, {refused} refused");
}

#[test]
fn refusals_speak() {
    let refusal: Box<dyn std::error::Error> = Box::new(Refusal::Tally);
    assert_eq!(refusal.to_string(), "the image's num_at_cur_min is not the number counted");
    assert_eq!((Refusal::Tally.number(), Refusal::Tally.place()), (15, 0));
    let low = Refusal::AuxLow(3);
    let text = "an exception word of the image has a value below cur_min + 15: word 3, from 0";
    assert_eq!((low.number(), low.place(), low.to_string().as_str()), (23, 3, text));
}
