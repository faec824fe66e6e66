//! Lists and sets fed to a sketch: what it then holds, and each answer beside images and sketches that are a little different.

#[path = "common/draw.rs"]
mod draw;
#[path = "common/image.rs"]
mod image;
#[path = "common/model.rs"]
mod model;

use Refusal::{Damaged, Finer, Form, Header, LgK, ListEmpty, Mode, NoRoom, Short, Size};
use draw::Draw;
use image::{list, set};
use lintelpear::lent::{Fed, Record, start};
use lintelpear::{Coupon, Kind, Refusal, Sketch};
use model::Model;

const KINDS: [Kind; 3] = [Kind::Four, Kind::Six, Kind::Eight];
const LAYOUTS: [fn(u8, &[u32]) -> Vec<u8>; 2] = [list, set];

fn word(slot: u32, value: u8) -> u32 {
    Coupon::new(slot, value).into()
}

/// No word of these is zero.
fn some(draw: &mut Draw, number: usize) -> Vec<u32> {
    draw.coupons(number).into_iter().map(|word| word.max(1)).collect()
}

/// A sketch of kind 4 in lent memory, with whatever else the calls are lent.
#[derive(Clone, Debug, PartialEq)]
struct Lent {
    record: Record,
    regs: Vec<u8>,
    aux: Vec<u32>,
}

impl Lent {
    fn new(lg_k: u8, area: usize) -> Lent {
        let (mut regs, mut aux) = (vec![7; 1 << lg_k >> 1], vec![7; area]);
        let record = start(4, lg_k.into(), &mut regs, &mut aux).unwrap();
        Lent { record, regs, aux }
    }

    fn feed(&mut self, coupons: &[u32]) -> Fed {
        let mut scratch = vec![7; self.aux.len()];
        self.record.feed(&mut self.regs, &mut self.aux, &mut scratch, coupons)
    }

    fn feed_image(&mut self, image: &[u8]) -> Fed {
        let mut scratch = vec![7; self.aux.len()];
        self.record.feed_image(&mut self.regs, &mut self.aux, &mut scratch, image)
    }
}

/// Whatever the kind, and whatever came before, it is as if the coupons had come one by one, the image of kind 4 included.
#[test]
fn as_coupons_one_by_one() {
    let mut draw = Draw::new(8);
    for lg_k in 4..=12 {
        for kind in KINDS {
            for number in [0, 1, 7, 8, 63, 64, 65, 129, 200, 255, 4 << lg_k] {
                let (before, after) = (some(&mut draw, 70), some(&mut draw, 3));
                let words = some(&mut draw, number);
                let finer = 21.min(lg_k + draw.below(5) as u8);
                let layouts = if number > 255 { &LAYOUTS[1..] } else { &LAYOUTS };
                for layout in layouts {
                    let mut fed = Sketch::new(lg_k, kind).unwrap();
                    fed.extend(before.iter().copied());
                    let mut one_by_one = fed.clone();
                    assert_eq!(fed.feed_image(&layout(finer, &words)), Ok(number));
                    one_by_one.extend(words.iter().copied());
                    for sketch in [&mut fed, &mut one_by_one] {
                        sketch.extend(after.iter().copied());
                    }
                    let all = [&before[..], &words, &after].concat();
                    assert!(fed.registers() == Model::new(lg_k, &all).0);
                    assert!(fed.to_bytes() == one_by_one.to_bytes());
                }
            }
        }
    }
}

#[test]
fn the_largest_sketch() {
    let words = some(&mut Draw::new(9), 1 << 17);
    let image = set(21, &words);
    for (lg_k, kind) in [(21, Kind::Four), (21, Kind::Six), (21, Kind::Eight), (12, Kind::Four)] {
        let mut sketch = Sketch::new(lg_k, kind).unwrap();
        assert_eq!(sketch.feed_image(&image), Ok(1 << 17));
        let model = Model::new(lg_k, &words);
        assert!(sketch.registers() == model.0);
        assert_eq!(sketch.sums(), model.sums());
    }
}

/// A coupon that is there twice, and one of value 0 with a slot.
#[test]
fn words_that_raise_nothing() {
    for layout in LAYOUTS {
        let image = layout(4, &[word(3, 5), word(3, 5), word(3, 4), word(9, 0)]);
        let mut sketch = Sketch::new(4, Kind::Eight).unwrap();
        assert_eq!(sketch.feed_image(&image), Ok(4));
        assert_eq!(sketch.registers(), Model::new(4, &[word(3, 5)]).0);
    }
}

/// What is answered to an image of lg_k 6, or to one that was that, by a sketch of lg_k 6: by owned ones of all kinds and by a lent one.
/// A refusal leaves both as they were.
#[track_caller]
fn answers(image: &[u8], wanted: Result<usize, Refusal>) {
    answers_of(6, image, wanted);
}

#[track_caller]
fn answers_of(lg_k: u8, image: &[u8], wanted: Result<usize, Refusal>) {
    let before = [word(1, 40), word(2, 3)];
    for kind in KINDS {
        let mut sketch = Sketch::new(lg_k, kind).unwrap();
        sketch.extend(before);
        let was = sketch.to_bytes();
        assert_eq!(sketch.feed_image(image), wanted);
        assert!(wanted.is_ok() || sketch.to_bytes() == was);
    }
    let mut lent = Lent::new(lg_k, 16);
    lent.feed(&before);
    let was = lent.clone();
    let (taken, answer) = wanted.map_or_else(|refusal| (0, Err(refusal)), |taken| (taken, Ok(())));
    assert_eq!(lent.feed_image(image), Fed { taken, answer });
    assert!(wanted.is_ok() || lent == was);
}

/// An image with one byte replaced.
fn with(mut image: Vec<u8>, at: usize, byte: u8) -> Vec<u8> {
    image[at] = byte;
    image
}

const WORDS: [u32; 3] = [5 << 26, (63 << 26) | 63, 0xffff_ffff];

#[test]
fn cut_short() {
    for (layout, least) in [(LAYOUTS[0], 8), (LAYOUTS[1], 12)] {
        let good = layout(6, &WORDS);
        answers(&good, Ok(3));
        answers(&[&good[..], &[0, 0, 0, 0, 0]].concat(), Ok(3));
        (0..good.len()).for_each(|len| answers(&good[..len], Err(Short)));
        answers(&layout(6, &[]), Ok(0));
        answers(&layout(6, &[])[..least - 1], Err(Short));
    }
    // The mode of a set comes after its twelve bytes.
    answers(&with(set(6, &[]), 7, 8)[..11], Err(Short));
    answers(&with(set(6, &[]), 7, 8), Err(Mode));
}

#[test]
fn another_head() {
    for layout in LAYOUTS {
        let good = layout(6, &WORDS);
        let (first, mode) = (good[0], good[7] % 4);
        for byte in 0..=255 {
            let of_another = [2, 3].contains(&byte).then_some(Mode).unwrap_or(Header);
            let changed = |at: usize| with(good.clone(), at, byte);
            answers(&changed(0), if byte == first { Ok(3) } else { Err(of_another) });
            answers(&changed(1), if byte == 1 { Ok(3) } else { Err(Header) });
            answers(&changed(2), if byte == 7 { Ok(3) } else { Err(Header) });
            answers(&changed(5), if byte & 8 != 0 { Ok(3) } else { Err(Form) });
            answers(&changed(7), if byte % 4 == mode { Ok(3) } else { Err(Mode) });
            answers(&changed(4), Ok(3));
            let sized = if byte < 6 { Err(Finer) } else { Ok(3) };
            answers(&changed(3), if (4..=21).contains(&byte) { sized } else { Err(LgK) });
        }
        answers(&with(good[..7].to_vec(), 0, 10), Err(Short));
        answers(&with(good[..8].to_vec(), 0, 10), Err(Header));
    }
}

/// A list's stands in byte 6, a set's in bytes 8 to 11; four times it may pass 2^32.
#[test]
fn counts() {
    let good = list(6, &WORDS);
    for count in 0..=255 {
        let wanted = if count <= 3 { Ok(count as usize) } else { Err(Short) };
        answers(&with(good.clone(), 6, count), wanted);
        answers(&with(set(6, &WORDS), 6, count), Ok(3));
    }
    for count in [0u32, 1, 2, 3, 4, 255, 256, 1 << 30, (1 << 30) + 3, (3 << 30) + 2, u32::MAX] {
        let mut image = set(6, &WORDS);
        image[8..12].copy_from_slice(&count.to_le_bytes());
        answers(&image, if count <= 3 { Ok(count as usize) } else { Err(Short) });
    }
}

#[test]
fn zero_words() {
    let many: Vec<u32> = (1..=200).map(|slot| word(slot, 1)).collect();
    for layout in LAYOUTS {
        for at in [0, 1, 62, 63, 64, 65, 127, 128, 199] {
            let mut words = many.clone();
            words[at] = 1;
            answers(&layout(6, &words), Ok(200));
            words[at] = 0;
            answers(&layout(6, &words), Err(ListEmpty(at as u32)));
            // The first one is told.
            words[199] = 0;
            answers(&layout(6, &words), Err(ListEmpty(at as u32)));
        }
        // Behind the words nothing is read.
        answers(&[&layout(6, &WORDS)[..], &[0; 4]].concat(), Ok(3));
    }
}

#[test]
fn finer() {
    for layout in LAYOUTS {
        for lg_k in 4..=8 {
            let wanted = if lg_k <= 6 { Ok(3) } else { Err(Finer) };
            answers_of(lg_k, &layout(6, &WORDS), wanted);
        }
    }
}

/// The first thing that is wrong is told, in the order of the table, whatever else is.
#[test]
fn two_things_wrong() {
    type Change = fn(&mut Vec<u8>);
    let first_zero: Change = |image| {
        let at = if image[0] == 2 { 8 } else { 12 };
        image[at..at + 4].fill(0);
    };
    let changes: [(Change, Refusal); 7] = [
        (|image| image.truncate(7), Short),
        (|image| image[2] = 8, Header),
        (|image| image[7] |= 2, Mode),
        (|image| image[3] = 22, LgK),
        (|image| image[5] = 0, Form),
        (|image| image.truncate(image.len() - 1), Short),
        (first_zero, ListEmpty(0)),
    ];
    for layout in LAYOUTS {
        for (i, (first, refusal)) in changes.iter().enumerate() {
            for (then, _) in &changes[i + 1..] {
                let mut image = layout(6, &WORDS);
                then(&mut image);
                first(&mut image);
                answers(&image, Err(*refusal));
            }
            let mut image = layout(6, &WORDS);
            first(&mut image);
            answers_of(7, &image, Err(*refusal));
        }
    }
}

/// The sketch is looked at before the image, in the same order as by feed.
#[test]
fn the_sketch_first() {
    let refused = |record: [u32; 5], regs: usize, scratch: usize| {
        let (mut record, mut regs, mut aux) = (Record(record), vec![0; regs], [0; 4]);
        let was = (record, regs.clone());
        let fed = record.feed_image(&mut regs, &mut aux, &mut vec![0; scratch], &[]);
        assert!(fed.taken == 0 && (record, regs) == was && aux == [0; 4]);
        fed.answer
    };
    assert_eq!(refused([4, 4, 0, 16, 0], 8, 4), Err(Short));
    assert_eq!(refused([5, 3, 0, 15, 0], 7, 3), Err(Refusal::Kind));
    assert_eq!(refused([4, 3, 0, 15, 0], 7, 3), Err(LgK));
    assert_eq!(refused([4, 4, 0, 15, 0], 7, 4), Err(Size));
    assert_eq!(refused([4, 4, 0, 15, 0], 8, 3), Err(Size));
    assert_eq!(refused([4, 4, 0, 15, 0], 8, 4), Err(Damaged));
    // Scratch is for kind 4 alone.
    assert_eq!(refused([8, 4, 0, 16, 0], 16, 0), Err(Short));
    assert_eq!(refused([256 + 8, 4, 0, 16, 0], 16, 0), Err(Refusal::Kind));
}

/// Lent memory then holds the coupons taken, as feed would leave it; more room, and the same image, bring the rest. An owned sketch makes
/// room by itself.
#[test]
fn no_room() {
    let mut draw = Draw::new(10);
    for lg_k in 4..=9 {
        let k = 1usize << lg_k;
        // In no order, so that the table depends on it, and more than once around.
        let words: Vec<u32> =
            (0..2 * k).map(|i| word(draw.below(1 << 26), 15 + (i % 40) as u8)).collect();
        let image = set(lg_k, &words);
        for area in [0, 1, 2, 4, 8, 16, k / 4, k / 2, k] {
            let mut lent = Lent::new(lg_k, area);
            let fed = lent.feed_image(&image);
            let mut by_feed = Lent::new(lg_k, area);
            assert_eq!(fed, by_feed.feed(&words));
            assert_eq!(lent, by_feed);
            if fed.answer.is_ok() {
                continue;
            }
            assert_eq!(fed.answer, Err(NoRoom));
            assert_eq!(by_feed.feed(&words[fed.taken..fed.taken + 1]).answer, Err(NoRoom));
            lent.aux.resize(2 * k, 0);
            assert_eq!(lent.feed_image(&image), Fed { taken: words.len(), answer: Ok(()) });
            let mut roomy = Lent::new(lg_k, 2 * k);
            roomy.feed(&words);
            assert_eq!(lent, roomy);
        }
        let mut sketch = Sketch::new(lg_k, Kind::Four).unwrap();
        assert_eq!(sketch.feed_image(&image), Ok(words.len()));
        assert!(sketch.registers() == Model::new(lg_k, &words).0);
    }
}

/// Some have no room for their first exception, some for all.
#[test]
fn taken_before_there_is_no_room() {
    let words: Vec<u32> = (0..16).map(|slot| word(slot, 63)).collect();
    for (area, taken) in [(0, 0), (2, 0), (4, 3), (8, 6), (16, 12)] {
        for layout in LAYOUTS {
            let mut lent = Lent::new(4, area);
            let fed = lent.feed_image(&layout(4, &words));
            assert_eq!(fed, Fed { taken, answer: Err(NoRoom) });
            assert_eq!(lent.record.0[4], taken as u32);
        }
    }
}
