//! The images that the jobs name: good ones in every form that opens, and for each refusal the
//! smallest that gets it. Good ones are the Rust's own, or say the same in another way; a bad one
//! is a good one with a few bytes changed.

use crate::samples::{image, seen};
use crate::{Answer, Recipe, run};

fn coupon(slot: u32, value: u32) -> u32 {
    value << 26 | slot
}

/// The image with other bytes from a place on.
fn with(image: &[u8], at: usize, bytes: &[u8]) -> Vec<u8> {
    let mut image = image.to_vec();
    image[at..at + bytes.len()].copy_from_slice(bytes);
    image
}

/// The image up to so many bytes, or with bytes behind it that mean nothing.
fn to(image: &[u8], len: usize) -> Vec<u8> {
    let mut image = image.to_vec();
    image.resize(len, 0xa5);
    image
}

/// A kind 4 image with these exception words in place of its own; the count at byte 36 stays.
fn words(image: &[u8], words: &[u32]) -> Vec<u8> {
    let start = 40 + (1 << image[3] >> 1);
    let words = words.iter().flat_map(|word| word.to_le_bytes());
    image[..start].iter().copied().chain(words).collect()
}

/// The second form: no compact flag, and 2^lg_arr words.
fn second(image: &[u8], lg_arr: u8, list: &[u32]) -> Vec<u8> {
    let image = with(&with(image, 4, &[lg_arr]), 5, &[0]);
    words(&image, list)
}

/// Images that open, by name. Where a name does not say it, lg_k is 4.
pub fn good() -> Vec<(&'static str, Vec<u8>)> {
    let three = image(8, 4, vec![coupon(3, 5)]);
    // Values on both sides of all edges: 0, a nibble's 14 and 15, the sums' 31 and 32, the top.
    let edges = [0, 1, 2, 14, 15, 16, 30, 31, 32, 33, 62, 63, 7, 3, 0, 1];
    let edges: Vec<u32> = (0..16).zip(edges).map(|(slot, value)| coupon(slot, value)).collect();
    let six = image(6, 4, vec![coupon(1, 33), coupon(15, 63), coupon(8, 2)]);
    let four = image(4, 4, vec![coupon(2, 14), coupon(9, 1)]);

    // Four exceptions outgrow the first table, of four words.
    let [a, b, c, d] = [coupon(0, 15), coupon(1, 16), coupon(3, 40), coupon(11, 63)];
    let aux = image(4, 4, vec![a, b, c, d]);
    // cur_min 2, with an exception that has gone back to a nibble and one that has stayed.
    let mut risen = vec![coupon(5, 16), coupon(6, 17)];
    risen.extend((0..16).map(|slot| coupon(slot, 2)));
    let risen = image(4, 4, risen);
    let top = image(4, 4, (0..16).map(|slot| coupon(slot, 63)).collect());

    // The largest table: 8,192 words. One register has to be no exception, for cur_min is the least.
    let most: Vec<u32> = (0..4095).map(|slot| coupon(slot, 15 + slot % 49)).collect();
    let most = image(4, 12, most);
    let mut spread = vec![0; 8192];
    (0..4095).for_each(|slot| spread[2 * slot as usize + 1] = coupon(slot, 15 + slot % 49));

    vec![
        ("empty", image(8, 4, vec![])),
        ("empty-4", image(4, 4, vec![])),
        ("empty-6", image(6, 4, vec![])),
        ("edges-4", image(4, 4, edges.clone())),
        ("edges-6", image(6, 4, edges.clone())),
        ("edges-8", image(8, 4, edges)),
        // The same in the second form, in other places, one of them by a slot modulo k.
        ("aux-second", second(&aux, 3, &[0, d, 0, b + 16, 0, a, c, 0])),
        // The same words, in another order and by slots that are these only modulo k.
        ("aux-modulo", words(&aux, &[d + 16, b + 0x3ff_fff0, a + 32, c])),
        ("aux", aux),
        // No exceptions, so no words follow, whatever lg_arr says.
        ("second-none", second(&four, 255, &[])),
        // What is not read: lg_arr in kinds 6 and 8, the other flags, hip and the sums.
        ("not-read", with(&with(&three, 4, &[99, 0xff]), 8, &[0xff; 24])),
        ("tail-4", to(&risen, risen.len() + 3)),
        ("tail-6", to(&six, six.len() + 1)),
        ("tail-8", to(&three, three.len() + 7)),
        ("!~", three.clone()),
        ("folder/three", three.clone()),
        ("exact", to(&three, 40_000)),
        ("three", three),
        ("six", six),
        ("four", four),
        ("risen", risen),
        ("top", top),
        ("last", image(6, 4, vec![coupon(12, 61)])),
        // Document 01's specimen 5, and the same where slot 19 is an exception of kind 4.
        ("finer-5", image(8, 5, vec![coupon(3, 2), coupon(19, 9)])),
        ("finer-5-aux", image(4, 5, vec![coupon(3, 2), coupon(19, 50)])),
        ("wide-4", image(4, 12, seen(0..9000))),
        ("wide-6", image(6, 12, seen(4000..7000))),
        ("wide-8", image(8, 12, seen(6000..12000))),
        ("wide-11", image(6, 11, seen(0..3000))),
        ("most-second", second(&most, 13, &spread)),
        ("most", most),
    ]
}

/// Images that are refused, by name: all but LONG, LARGE and FINER for themselves alone.
pub fn bad() -> Vec<(&'static str, Vec<u8>)> {
    let three = image(8, 4, vec![coupon(3, 5)]);
    let six = image(6, 4, vec![coupon(1, 33), coupon(8, 2)]);
    let (word, other) = (coupon(0, 15), coupon(2, 20));
    let one = image(4, 4, vec![word]);
    let two = image(4, 4, vec![word, other]);
    let low: Vec<u32> = (0..16).map(|slot| coupon(slot, 1 + 15 * (slot == 0) as u32)).collect();
    let low = image(4, 4, low);
    let large = image(4, 13, vec![coupon(8191, 1)]);
    // Each register an exception: the table fits, but no register is left at cur_min.
    let full = image(4, 12, (0..4095).map(|slot| coupon(slot, 15)).collect());
    let all: Vec<u32> = (0..4096).map(|slot| coupon(slot, 15)).collect();
    let full = words(&with(&with(&full, 32, &[0, 0, 0, 0, 0, 16]), 40 + 2047, &[255]), &all);

    vec![
        ("lgk-3", with(&three, 3, &[3])),
        ("lgk-22", with(&three, 3, &[22])),
        ("bytes-39", to(&three, 39)),
        ("bytes-40", to(&three, 40)),
        ("nothing", vec![]),
        ("cut-8", to(&three, 55)),
        ("cut-6", to(&six, six.len() - 1)),
        ("cut-4", to(&two, two.len() - 1)),
        ("cut-second", to(&second(&one, 2, &[0, 0, word, 0]), 40 + 8 + 15)),
        ("header-0", with(&three, 0, &[2])),
        ("header-1", with(&three, 1, &[2])),
        ("header-2", with(&three, 2, &[8])),
        // A list of kind 8; a kind 4 mode with a bit that the Rust does not look at.
        ("mode-list", with(&three, 7, &[8])),
        ("mode-18", with(&one, 7, &[18])),
        ("counts-num", with(&three, 32, &[17])),
        ("counts-aux", with(&one, 36, &[17])),
        ("counts-min", with(&one, 6, &[64])),
        ("counts-min-8", with(&three, 6, &[1])),
        ("counts-aux-6", with(&six, 36, &[1])),
        // Short too, like any image of LGARR that is not LONG.
        ("lgarr-23", second(&one, 23, &[word])),
        ("lgarr-255", second(&one, 255, &[word])),
        ("value-64", with(&three, 43, &[64])),
        // cur_min 62 and a nibble of 2.
        ("value-nibble", with(&with(&image(4, 4, vec![]), 6, &[62]), 47, &[0x20])),
        ("aux-none", to(&with(&one, 36, &[0]), 48)),
        ("aux-more", with(&with(&one, 40, &[0]), 32, &[16])),
        ("aux-twice", words(&two, &[word, word + 16])),
        ("aux-low", words(&low, &[coupon(0, 15)])),
        ("aux-empty", words(&one, &[0])),
        ("aux-count", second(&with(&two, 36, &[1]), 1, &[word, other])),
        ("spare-1", with(&six, 52, &[1])),
        ("spare-128", with(&six, 52, &[128])),
        ("tally-8", with(&three, 32, &[14])),
        // No nibble is 0 and none is said to be: right for no cur_min.
        ("tally-none", with(&with(&image(4, 4, vec![]), 40, &[0x11; 8]), 32, &[0])),
        ("tally-full", full),
        ("long", to(&three, 40_001)),
        ("large-13", large.clone()),
        // Its registers would be 2 MB: LARGE comes before SHORT.
        ("large-21", with(&three, 3, &[21])),
        // Two things wrong in each; the answer is the one named first.
        ("long-header", with(&to(&three, 40_960), 0, &[0])),
        ("header-large", with(&large, 2, &[8])),
        ("large-counts", with(&large, 32, &[255; 8])),
        ("counts-short", with(&to(&three, 40), 32, &[255])),
        ("aux-tally", with(&to(&with(&one, 36, &[0]), 48), 32, &[3])),
    ]
}

/// Images whose exception words are right or wrong in one of document 02's ways: in each form a good
/// one and those a byte or two away from it.
pub fn exceptions() -> Vec<(&'static str, Vec<u8>)> {
    let ones = |slot: u32| coupon(slot, if slot == 0 { 16 } else { 1 });
    let [a, b, c, d] = [coupon(0, 15), coupon(1, 16), coupon(3, 40), coupon(11, 63)];
    let aux = image(4, 4, vec![a, b, c, d]);
    let list = |list: [u32; 4]| words(&aux, &list);
    let spread = |word: u32, last: u32| second(&aux, 3, &[0, d, 0, b, 0, a, word, last]);
    let over = |word: u32| with(&second(&aux, 3, &[0, a, 0, b, c, 0, word, 0]), 36, &[3]);
    let value = |slot: u32| coupon(slot, 15 + slot % 49);
    let most = image(4, 12, (0..4095).map(value).collect());
    let mut twice: Vec<u32> = (0..4095).flat_map(|slot| [0, value(slot)]).collect();
    twice.extend([0, value(0)]);

    vec![
        // cur_min 1 and the least exception.
        ("aux-16", image(4, 4, (0..16).map(ones).collect())),
        ("list", list([a, b, c, d])),
        ("list-value-0", list([a, b, coupon(3, 0), d])),
        ("list-value-1", list([a, b, coupon(3, 1), d])),
        ("list-value-14", list([a, b, coupon(3, 14), d])),
        ("list-value-15", list([a, b, coupon(3, 15), d])),
        ("list-slot-10", list([a, b, c, d - 1])),
        ("list-slot-12", list([a, b, c, d + 1])),
        ("list-slot-16", list([a, b, c, d + 5])),
        ("list-slot-27", list([a, b, c, d + 16])),
        ("list-nibble-5", with(&list([a, b, c, d]), 42, &[0xf0])),
        ("list-no-nibble-3", with(&list([a, b, c, d]), 41, &[0xe0])),
        ("list-twice-and-low", list([a, b, c, coupon(16, 14)])),
        ("list-low-then-twice", list([a, coupon(1, 14), c, coupon(3, 63)])),
        ("list-twice-then-empty", list([a, coupon(16, 20), 0, d])),
        ("list-empty-then-twice", list([a, 0, coupon(16, 20), d])),
        ("spread", spread(c, 5)),
        ("spread-count-3", with(&spread(c, 5), 36, &[3])),
        ("spread-count-5", with(&spread(c, 5), 36, &[5])),
        ("spread-fewer", spread(coupon(3, 0), 5)),
        ("spread-more", spread(c, coupon(5, 15))),
        ("spread-value-14", spread(coupon(3, 14), 5)),
        ("spread-slot-11", spread(coupon(11, 40), 5)),
        ("spread-slot-2", spread(coupon(2, 40), 5)),
        // Count 0, so that no words follow.
        ("spread-none", with(&spread(c, 5), 36, &[0])),
        ("over", over(d)),
        ("over-slot-16", over(d + 5)),
        ("over-value-14", over(coupon(11, 14))),
        ("most-twice", second(&most, 13, &twice)),
        ("most-nibble", with(&most, 40 + 2047, &[0xff])),
    ]
}

/// Words with a slot and no value, which are entries, beside the zero word, which is none.
pub fn valueless() -> Vec<(&'static str, Vec<u8>)> {
    let [a, b, c, d] = [coupon(0, 15), coupon(1, 16), coupon(3, 40), coupon(11, 63)];
    let aux = image(4, 4, vec![a, b, c, d]);
    let list = |list: [u32; 4]| words(&aux, &list);
    let zero = |word: u32| second(&aux, 3, &[0, d, 0, b, 0, a, word, 0]);
    let last = |word: u32| second(&aux, 3, &[0, d, 0, b, 0, a, c, word]);
    let one = image(4, 4, vec![a]);
    let beside = |word: u32| second(&one, 1, &[a, word]);
    let value = |slot: u32| coupon(slot, 15 + slot % 49);
    let most = image(4, 12, (0..4095).map(value).collect());
    let most = |word: u32| {
        let words: Vec<u32> =
            (0..4095).flat_map(|slot| [0, value(slot)]).chain([0, word]).collect();
        second(&most, 13, &words)
    };

    vec![
        ("aux-valueless", second(&aux, 3, &[7, a, b, 11, c, d, 0x3ff_ffff, 0])),
        ("zero", zero(c)),
        ("zero-count-3", with(&zero(c), 36, &[3])),
        ("zero-count-5", with(&zero(c), 36, &[5])),
        ("zero-fewer", zero(0)),
        ("zero-slot-2", zero(coupon(2, 40))),
        ("last-slot-16", last(16)),
        ("last-slot-27", last(27)),
        ("last-slot-12", last(12)),
        ("last-slot-15", last(0x3ff_ffff)),
        ("list-zero", list([a, b, c, 0])),
        ("list-0-slot-16", list([a, b, c, 16])),
        ("list-0-slot-11", list([a, b, c, 11])),
        ("list-0-then-twice", list([16, a, c, d])),
        ("list-twice-then-0", list([a, a, 3, d])),
        ("list-zero-then-0", list([a, 0, 16, d])),
        ("list-0-then-zero", list([a, 16, 0, d])),
        // docs/DIFFERENCES.md, nos. 11 to 13.
        ("beside-zero", beside(0)),
        ("beside-1", beside(1)),
        ("beside-1-count-2", with(&beside(1), 36, &[2])),
        ("beside-16", beside(16)),
        ("alone-1", words(&one, &[1])),
        ("alone-16", words(&one, &[16])),
        ("most-last", most(4095)),
        ("most-4096", most(4096)),
    ]
}

/// What the Rust writes of few coupons: a list and a set, whole, and a list that bytes behind it make as long as a header.
pub fn coupons() -> Vec<(&'static str, Vec<u8>)> {
    let few = |many: u32| {
        let coupons = (0..many).map(|slot| coupon(slot, 1 + slot)).collect();
        let answer = run(&Recipe::FromList { kind: 8, lg_k: 8, coupons });
        let Answer::Few(few) = answer else { unreachable!("answered {answer}") };
        few.image
    };
    vec![("coupon-list", few(7)), ("coupon-list-40", to(&few(7), 40)), ("coupon-set", few(8))]
}
