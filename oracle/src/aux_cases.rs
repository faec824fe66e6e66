//! Images of kind 4 whose exception words are right, or wrong in one of document 02's five ways, each beside its neighbours. What is
//! wanted was worked out by hand, so that `aux_fault.rs` is tested too.

/// What it is, the image, its number and its place.
pub type Case = (&'static str, Vec<u8>, (u8, u32));

pub fn word(slot: u32, value: u32) -> u32 {
    value << 26 | slot
}

/// Nibbles of 15 at these slots, all others 0, and these words; in the second form with a count of its own.
pub fn image(lg_k: u8, count: Option<u32>, nibbles: &[u32], words: &[u32]) -> Vec<u8> {
    let k = 1u32 << lg_k;
    let lg_arr = words.len().trailing_zeros() as u8;
    let (lg_arr, flags) = if count.is_some() { (lg_arr, 0) } else { (0, 8) };
    let mut image = vec![10, 1, 7, lg_k, lg_arr, flags, 0, 2];
    image.extend([0; 24]);
    image.extend((k - nibbles.len() as u32).to_le_bytes());
    image.extend(count.unwrap_or(words.len() as u32).to_le_bytes());
    image.resize(40 + k as usize / 2, 0);
    nibbles.iter().for_each(|slot| image[40 + *slot as usize / 2] |= 15 << (slot % 2 * 4));
    image.extend(words.iter().flat_map(|word| word.to_le_bytes()));
    image
}

/// The same where all registers are 3 higher.
fn raised(mut image: Vec<u8>) -> Vec<u8> {
    image[6] = 3;
    image
}

/// So many words, zero but for these.
fn sparse(many: usize, words: &[(usize, u32)]) -> Vec<u32> {
    let mut list = vec![0; many];
    words.iter().for_each(|(at, word)| list[*at] = *word);
    list
}

/// Of lg_k 4, with nibbles of 15 at slots 0, 5 and 9.
pub fn small() -> Vec<Case> {
    let (a, b, c) = (word(0, 15), word(5, 30), word(9, 63));
    let compact = |words: &[u32]| image(4, None, &[0, 5, 9], words);
    let second = |count: u32, words: &[u32]| image(4, Some(count), &[0, 5, 9], words);
    let raised = |words: &[u32]| raised(compact(words));
    vec![
        ("good", compact(&[a, b, c]), (0, 0)),
        ("value 1", compact(&[a, word(5, 1), c]), (23, 1)),
        ("value 0", compact(&[a, word(5, 0), c]), (23, 1)),
        ("zero word", compact(&[0, b, c]), (21, 0)),
        ("value 0 for a slot that is there", compact(&[a, b, word(5, 0)]), (22, 2)),
        ("slot 5 as 21", compact(&[a, word(21, 30), c]), (0, 0)),
        ("slot 0 as 16", compact(&[a, word(16, 30), c]), (22, 1)),
        ("twice at the end", compact(&[a, b, word(5, 63)]), (22, 2)),
        ("value 15", compact(&[a, word(5, 15), c]), (0, 0)),
        ("value 14", compact(&[a, word(5, 14), c]), (23, 1)),
        ("cur_min 3, value 18", raised(&[word(0, 18), b, c]), (0, 0)),
        ("cur_min 3, value 17", raised(&[word(0, 17), b, c]), (23, 0)),
        ("twice, value 14", compact(&[a, word(0, 14), c]), (22, 1)),
        ("low, then twice, then empty", compact(&[word(0, 14), word(0, 20), 0]), (23, 0)),
        ("twice, then empty", compact(&[a, word(0, 20), 0]), (22, 1)),
        ("empty, then twice", compact(&[a, 0, word(0, 20)]), (21, 1)),
        ("slot 4 for 5", compact(&[a, word(4, 30), c]), (25, 4)),
        ("slot 6 for 5", compact(&[a, word(6, 30), c]), (25, 5)),
        ("slot 15 for 9", compact(&[a, b, word(15, 63)]), (25, 9)),
        ("two of three", compact(&[b, c]), (25, 0)),
        ("none of three", compact(&[]), (25, 0)),
        ("one more", compact(&[a, b, c, word(15, 20)]), (25, 15)),
        ("second form", second(3, &[a, 0, b, c]), (0, 0)),
        ("value 0 not passed over", second(3, &[a, word(5, 0), b, c]), (23, 1)),
        ("count 2 of 3", second(2, &[a, 0, b, c]), (24, 0)),
        ("count 4 of 3", second(4, &[a, 0, b, c]), (24, 0)),
        ("count 1, the second twice", second(1, &[a, a, 0, 0]), (22, 1)),
        ("count 1, the third twice", second(1, &[a, b, a, 0]), (22, 2)),
        ("count 1, the third low", second(1, &[a, b, word(9, 14), 0]), (23, 2)),
        ("count 1, the third unmatched", second(1, &[a, b, word(8, 20), 0]), (24, 0)),
        ("count 3, the third unmatched", second(3, &[a, b, word(8, 20), 0]), (25, 8)),
        ("passed over and twice", second(3, &sparse(16, &[(2, a), (9, b), (15, b)])), (22, 15)),
        ("passed over and low", second(3, &sparse(16, &[(2, a), (9, word(5, 3))])), (23, 9)),
    ]
}

/// Words with a slot and no value, which are entries (document 02, CR 3), beside the zero word, which is none. Such a word is its slot.
pub fn valueless() -> Vec<Case> {
    // Nibbles of 15 at slots 0, 5 and 9 as above, or at slot 0 alone.
    let (a, b, c) = (word(0, 15), word(5, 30), word(9, 63));
    let compact = |words: &[u32]| image(4, None, &[0, 5, 9], words);
    let second = |count: u32, words: &[u32]| image(4, Some(count), &[0, 5, 9], words);
    let raised = |words: &[u32]| raised(compact(words));
    let one = |words: &[u32]| image(4, None, &[0], words);
    let one_second = |count: u32, words: &[u32]| image(4, Some(count), &[0], words);
    let far = |word: u32| second(3, &sparse(16, &[(2, a), (9, b), (12, c), (15, word)]));
    vec![
        ("0x10 alone", one(&[0x10]), (23, 0)),
        ("zero alone", one(&[0]), (21, 0)),
        ("slot 0 of value 1 alone", one(&[word(0, 1)]), (23, 0)),
        ("1 alone, whose nibble is 0", one(&[1]), (23, 0)),
        ("0x10 behind slot 0", one(&[a, 0x10]), (22, 1)),
        ("zero behind slot 0", one(&[a, 0]), (21, 1)),
        ("1 behind slot 0", one(&[a, 1]), (23, 1)),
        ("0x10 before slot 0", one(&[0x10, a]), (23, 0)),
        ("0x10 behind slot 0 as 16", one(&[word(16, 15), 0x10]), (22, 1)),
        ("0x10 and 0x20", one(&[0x10, 0x20]), (23, 0)),
        ("0x10 and zero", one(&[0x10, 0]), (23, 0)),
        ("zero and 0x10", one(&[0, 0x10]), (21, 0)),
        ("slot 0, 0x20 and 0x10", one(&[a, 0x20, 0x10]), (22, 1)),
        ("lg_k 5, 0x10 is slot 16", image(5, None, &[0, 16], &[a, 0x10]), (23, 1)),
        ("lg_k 5, 0x20 is slot 0", image(5, None, &[0, 16], &[a, 0x20]), (22, 1)),
        ("1 alone, whose nibble is 15", image(4, None, &[1], &[1]), (23, 0)),
        ("1 behind slot 1", image(4, None, &[1], &[word(1, 15), 1]), (22, 1)),
        ("1, of no nibble", compact(&[a, 1, c]), (23, 1)),
        ("zero in its place", compact(&[a, 0, c]), (21, 1)),
        ("k - 1", compact(&[a, b, 0xf]), (23, 2)),
        ("k, there already", compact(&[a, b, 0x10]), (22, 2)),
        ("k, not there yet", compact(&[0x10, b, c]), (23, 0)),
        ("the last slot of all", compact(&[a, 0x3ff_ffff, c]), (23, 1)),
        ("the word behind it, slot 0 of value 1", compact(&[a, 0x400_0000, c]), (22, 1)),
        ("5 before the entry of slot 5", compact(&[5, b, c]), (23, 0)),
        ("5 behind it", compact(&[b, 5, c]), (22, 1)),
        ("5 as 21 behind it", compact(&[b, 21, c]), (22, 1)),
        ("5 two behind it", compact(&[b, c, 5]), (22, 2)),
        ("5 twice", compact(&[5, 5, c]), (23, 0)),
        ("5 behind a word that is low", compact(&[word(5, 14), 5, c]), (23, 0)),
        ("behind a twice", compact(&[a, a, 1]), (22, 1)),
        ("before a twice", compact(&[1, a, a]), (23, 0)),
        ("behind zero", compact(&[a, 0, 5]), (21, 1)),
        ("before zero", compact(&[a, 5, 0]), (23, 1)),
        ("one more, slot 1", compact(&[a, b, c, 1]), (23, 3)),
        ("one more, slot 5", compact(&[a, b, c, 5]), (22, 3)),
        ("one more, zero", compact(&[a, b, c, 0]), (21, 3)),
        ("one more, slot 1 of value 15", compact(&[a, b, c, word(1, 15)]), (25, 1)),
        ("cur_min 3, 5 before its entry", raised(&[word(0, 18), 5, c]), (23, 1)),
        ("cur_min 3, 5 behind it", raised(&[word(0, 18), b, 5]), (22, 2)),
        // The images of docs/DIFFERENCES.md, no. 11, beside zero.
        ("second form, 1 not counted", one_second(1, &[a, 1]), (23, 1)),
        ("second form, zero not counted", one_second(1, &[a, 0]), (0, 0)),
        ("second form, 1 counted", one_second(2, &[a, 1]), (23, 1)),
        ("second form, zero counted", one_second(2, &[a, 0]), (24, 0)),
        ("second form, 1 first", one_second(1, &[1, a]), (23, 0)),
        ("second form, zero first", one_second(1, &[0, a]), (0, 0)),
        ("second form, 0x10 not counted", one_second(1, &[a, 0x10]), (22, 1)),
        ("second form, 0x10 counted", one_second(2, &[a, 0x10]), (22, 1)),
        ("second form, 0x10 first", one_second(1, &[0x10, a]), (23, 0)),
        ("second form, 0x10 and 0x20", one_second(2, &[0x10, 0x20]), (23, 0)),
        ("second form, the same between zeros", one_second(2, &[0, 0x10, 0, 0x20]), (23, 1)),
        ("second form, 0x10 alone", one_second(1, &[0, 0x10]), (23, 1)),
        ("second form, nothing but zero", one_second(1, &[0, 0]), (24, 0)),
        ("second form, count 0: not read", image(4, Some(0), &[], &[1]), (0, 0)),
        ("second form, 1 among three", second(3, &[a, 1, b, c]), (23, 1)),
        ("second form, 1 as the fourth", second(4, &[a, b, c, 1]), (23, 3)),
        ("second form, 5 behind its entry", second(3, &[a, b, 5, c]), (22, 2)),
        ("second form, the last slot of all", second(3, &[a, b, c, 0x3ff_ffff]), (23, 3)),
        ("second form, behind a twice", second(3, &[a, a, 1, 0]), (22, 1)),
        ("second form, before a twice", second(3, &[1, a, a, 0]), (23, 0)),
        ("far, slot 9 there", far(9), (22, 15)),
        ("far, slot 8", far(8), (23, 15)),
        ("far, zero", far(0), (0, 0)),
    ]
}

/// Of lg_k 21 and 2^22 words, the most that there can be.
pub fn large() -> Vec<Case> {
    let (last, most) = ((1 << 21) - 1, 1 << 22);
    let far = |at: usize, word: u32| {
        image(21, Some(2), &[7, last], &sparse(most, &[(0, self::word(7, 20)), (at, word)]))
    };
    // All slots once, in an order that jumps about, an empty word behind each; but the last word has the first one's slot.
    let mut crowd: Vec<u32> =
        (0..1 << 21).flat_map(|i: u32| [word(i.wrapping_mul(0x9e37_79b1) & last, 20), 0]).collect();
    crowd[most - 1] = word(0, 20);
    vec![
        ("the last of 2^22 words", far(most - 1, word(last, 20)), (0, 0)),
        ("the last one twice", far(most - 1, word(7, 20)), (22, most as u32 - 1)),
        ("the last one low", far(most - 1, word(last, 14)), (23, most as u32 - 1)),
        ("the last one of value 0", far(most - 1, word(last, 0)), (23, most as u32 - 1)),
        ("the last one twice, of value 0", far(most - 1, word(7, 0)), (22, most as u32 - 1)),
        ("the last one zero", far(most - 1, 0), (24, 0)),
        ("the last slot but one", far(1, word(last - 1, 20)), (25, last - 1)),
        ("all slots, the last word twice", image(21, Some(1), &[], &crowd), (22, most as u32 - 1)),
    ]
}
