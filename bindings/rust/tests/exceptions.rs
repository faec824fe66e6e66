//! What is wrong with an image's exception words, and where: each answer beside images that are one byte away.

use Refusal::{AuxCount, AuxEmpty, AuxLow, AuxMatch, AuxTwice};
use lintelpear::{Coupon, Kind, Refusal, Sketch, lent};

/// Where the words begin, for kind 4 and lg_k 4.
const WORDS: usize = 48;

/// Slots 0, 5 and 9 at 20, 30 and 40.
fn good() -> Vec<u8> {
    let mut sketch = Sketch::new(4, Kind::Four).unwrap();
    sketch.extend([Coupon::new(0, 20), Coupon::new(5, 30), Coupon::new(9, 40)]);
    listing(sketch.to_bytes(), &[word(0, 20), word(5, 30), word(9, 40)])
}

fn word(slot: u32, value: u8) -> u32 {
    Coupon::new(slot, value).into()
}

/// The image with these words in place of its own.
fn listing(mut image: Vec<u8>, words: &[u32]) -> Vec<u8> {
    image.truncate(WORDS);
    image.extend(words.iter().flat_map(|word| word.to_le_bytes()));
    image
}

/// The same in the second form, with any number of words that is a power of two, and a count.
fn second(count: u8, words: &[u32]) -> Vec<u8> {
    let mut image = listing(good(), words);
    image[4] = words.len().trailing_zeros() as u8;
    image[5] = 0;
    image[36] = count;
    image
}

/// By the owned sketch and by the lent call, which leaves what it was lent.
#[track_caller]
fn answers(image: &[u8], wanted: Result<(), Refusal>) {
    assert_eq!(Sketch::from_bytes(image).map(|_| ()), wanted);
    let (mut regs, mut aux, mut scratch) = ([7; 8], [7; 32], [7; 32]);
    assert_eq!(lent::open(image, &mut regs, &mut aux, &mut scratch).map(|_| ()), wanted);
    assert!(wanted.is_ok() || (regs, aux) == ([7; 8], [7; 32]));
}

/// The compact image with one word replaced.
#[track_caller]
fn replaced(at: usize, word: u32, wanted: Result<(), Refusal>) {
    let mut image = good();
    image[WORDS + 4 * at..][..4].copy_from_slice(&word.to_le_bytes());
    answers(&image, wanted);
}

#[test]
fn empty() {
    for (at, slot) in [(0, 0), (1, 5), (2, 9)] {
        replaced(at as usize, word(slot, 15), Ok(()));
        replaced(at as usize, word(slot, 1), Err(AuxLow(at)));
        replaced(at as usize, 0, Err(AuxEmpty(at)));
    }
    answers(&second(3, &[word(0, 20), word(5, 30), word(9, 40), 0]), Ok(()));
}

/// A word with a slot is not empty, and without a value it is too low, or twice, in both forms.
#[test]
fn no_value() {
    replaced(1, word(5, 0), Err(AuxLow(1)));
    replaced(1, word(0, 0), Err(AuxEmpty(1)));
    for slot in [16, 32, (1 << 26) - 16] {
        replaced(0, word(slot, 0), Err(AuxLow(0)));
        replaced(1, word(slot, 0), Err(AuxTwice(1)));
    }
    let words = |last| [word(0, 20), word(5, 30), word(9, 40), last];
    for count in [3, 4] {
        answers(&second(count, &words(word(1, 0))), Err(AuxLow(3)));
        answers(&second(count, &words(word((1 << 26) - 1, 0))), Err(AuxLow(3)));
        answers(&second(count, &words(word(9, 0))), Err(AuxTwice(3)));
        answers(&second(count, &words(word(16, 0))), Err(AuxTwice(3)));
    }
}

#[test]
fn twice() {
    replaced(2, word(9, 40), Ok(()));
    replaced(2, word(5, 40), Err(AuxTwice(2)));
    replaced(2, word(5 + 16, 40), Err(AuxTwice(2)));
    replaced(2, word(9 + 16, 40), Ok(()));
    replaced(1, word(0, 30), Err(AuxTwice(1)));
    // Twice and too low in one word, and in two.
    replaced(1, word(0, 14), Err(AuxTwice(1)));
    replaced(0, word(5, 14), Err(AuxLow(0)));
}

#[test]
fn low() {
    for (at, slot) in [(0, 0), (1, 5), (2, 9)] {
        replaced(at as usize, word(slot, 15), Ok(()));
        replaced(at as usize, word(slot, 14), Err(AuxLow(at)));
    }
    // With cur_min 5 it is 20 that is not too low.
    let mut image = good();
    image[6] = 5;
    answers(&image, Ok(()));
    image[6] = 6;
    answers(&image, Err(AuxLow(0)));
}

/// The earliest word is told, not the first of the three answers.
#[test]
fn the_earliest() {
    answers(&listing(good(), &[word(0, 14), word(0, 30), 0]), Err(AuxLow(0)));
    answers(&listing(good(), &[word(0, 15), word(0, 30), 0]), Err(AuxTwice(1)));
    answers(&listing(good(), &[word(0, 15), word(5, 30), 0]), Err(AuxEmpty(2)));
    answers(&listing(good(), &[word(0, 15), word(5, 30), word(8, 40)]), Err(AuxMatch(8)));
}

/// Words passed over in the second form are counted.
#[test]
fn places_of_the_second_form() {
    let words = |fifth, last| [0, word(0, 20), 0, 0, 0, fifth, 0, last];
    answers(&second(3, &words(word(5, 30), word(9, 40))), Ok(()));
    answers(&second(3, &words(word(0, 30), word(9, 40))), Err(AuxTwice(5)));
    answers(&second(3, &words(word(5, 14), word(9, 40))), Err(AuxLow(5)));
    answers(&second(3, &words(word(5, 30), word(5, 40))), Err(AuxTwice(7)));
    answers(&second(3, &words(word(5, 30), word(9, 0))), Err(AuxLow(7)));
    answers(&second(3, &words(word(5, 30), 0)), Err(AuxCount));
}

#[test]
fn count() {
    let words = [word(0, 20), 0, word(5, 30), word(9, 40)];
    answers(&second(2, &words), Err(AuxCount));
    answers(&second(3, &words), Ok(()));
    answers(&second(4, &words), Err(AuxCount));
    // A wrong word behind the count comes first, and the count before the slots.
    answers(&second(1, &[word(0, 20), word(5, 30), word(0, 40), 0]), Err(AuxTwice(2)));
    answers(&second(1, &[word(0, 20), word(5, 30), word(9, 14), 0]), Err(AuxLow(2)));
    answers(&second(1, &[word(0, 20), word(5, 30), word(8, 40), 0]), Err(AuxCount));
    // No count and no words, though there are nibbles of 15.
    answers(&second(0, &[]), Err(AuxMatch(0)));
}

#[test]
fn slots_and_nibbles() {
    replaced(1, word(5, 30), Ok(()));
    replaced(1, word(4, 30), Err(AuxMatch(4)));
    replaced(1, word(6, 30), Err(AuxMatch(5)));
    replaced(2, word(15, 40), Err(AuxMatch(9)));
    for slot in 0..16 {
        let mut image = good();
        image[40 + slot / 2] ^= 15 << (slot % 2 * 4);
        answers(&image, Err(AuxMatch(slot as u32)));
    }
}
