//! Lists and sets with which nothing is wrong, or one thing, each beside its neighbours, and with two things wrong at once. What is
//! wanted was worked out by hand from document 02, so that `lists.rs` is tested too. Nothing here is the crate's.

/// What it is, the image, the lg_k of the sketch that it is fed to, its number and its place.
pub type Case = (String, Vec<u8>, u8, (u8, u32));

/// Slots 5, 0 and 2^26 - 1, values 1, 63 and 20.
const WORDS: [u32; 3] = [0x0400_0005, 0xfc00_0000, 0x53ff_ffff];

/// The image with other bytes from a place on.
fn with(image: &[u8], at: usize, bytes: &[u8]) -> Vec<u8> {
    let mut image = image.to_vec();
    image[at..at + bytes.len()].copy_from_slice(bytes);
    image
}

/// A list of lg_k 6 and kind 8.
fn list(words: &[u32]) -> Vec<u8> {
    let head = [2, 1, 7, 6, 3, 8, words.len() as u8, 8];
    head.into_iter().chain(words.iter().flat_map(|word| word.to_le_bytes())).collect()
}

/// The same as a set.
fn set(words: &[u32]) -> Vec<u8> {
    let head = [3, 1, 7, 6, 5, 8, 0, 9].into_iter().chain((words.len() as u32).to_le_bytes());
    head.chain(words.iter().flat_map(|word| word.to_le_bytes())).collect()
}

pub fn cases() -> Vec<Case> {
    [either("list", list, 8, 0), either("set", set, 12, 1), lists(), sets()].concat()
}

/// What both layouts have in common: words from `start` on, `mode` in the low bits of byte 7.
fn either(name: &str, image: fn(&[u32]) -> Vec<u8>, start: usize, mode: u8) -> Vec<Case> {
    let good = image(&WORDS);
    let mut cases: Vec<Case> = Vec::new();
    let mut case = |what: &str, image: &[u8], lg_k: u8, number: u8, place: u32| {
        cases.push((format!("{name}: {what}"), image.to_vec(), lg_k, (number, place)));
    };
    case("good", &good, 6, 0, 0);
    case("no words", &image(&[]), 6, 0, 0);
    case("one word", &image(&WORDS[..1]), 6, 0, 0);

    case("no bytes", &[], 6, 7, 0);
    case("7 bytes", &good[..7], 6, 7, 0);
    case("8 bytes", &good[..8], 6, 7, 0);
    for (at, byte) in [(0, 0), (0, 1), (0, 4), (0, 10), (0, 255), (1, 0), (1, 2), (2, 6), (2, 8)] {
        case(&format!("byte {at} is {byte}"), &with(&good, at, &[byte]), 6, 8, 0);
    }
    let headless = with(&good, 0, &[10]);
    case("7 bytes, byte 0 is 10", &headless[..7], 6, 7, 0);
    case("8 bytes, byte 0 is 10", &headless[..8], 6, 8, 0);
    // Each of the two is read as the other, whose mode it has not.
    case("the other's byte 0", &with(&good, 0, &[5 - good[0]]), 6, 9, 0);

    for low in 0..4 {
        let number = if low == mode { 0 } else { 9 };
        case(&format!("low mode bits {low}"), &with(&good, 7, &[low]), 6, number, 0);
        let all = with(&good, 7, &[0xfc | low]);
        case(&format!("low mode bits {low}, all others"), &all, 6, number, 0);
    }
    for bit in 2..8 {
        case(&format!("mode bit {bit}"), &with(&good, 7, &[1 << bit | mode]), 6, 0, 0);
    }
    for (lg_k, number) in [(0, 2), (3, 2), (4, 0), (21, 0), (22, 2), (255, 2)] {
        case(&format!("lg_k {lg_k}"), &with(&good, 3, &[lg_k]), 4, number, 0);
    }
    for (flags, number) in [(8, 0), (0, 26), (255, 0), (0xf7, 26), (12, 0), (4, 26), (24, 0)] {
        case(&format!("flags {flags}"), &with(&good, 5, &[flags]), 6, number, 0);
    }
    for lg_arr in [0, 3, 5, 18, 255] {
        case(&format!("lg_arr {lg_arr}"), &with(&good, 4, &[lg_arr]), 6, 0, 0);
    }

    case("a byte short", &good[..good.len() - 1], 6, 7, 0);
    case("a word short", &good[..good.len() - 4], 6, 7, 0);
    case("a byte behind", &[&good[..], &[1]].concat(), 6, 0, 0);
    case("a zero word behind", &[&good[..], &[0; 4]].concat(), 6, 0, 0);

    let [a, b, c] = WORDS;
    case("the first word zero", &image(&[0, b, c]), 6, 27, 0);
    case("the second word zero", &image(&[a, 0, c]), 6, 27, 1);
    case("the last word zero", &image(&[a, b, 0]), 6, 27, 2);
    case("the last two zero", &image(&[a, 0, 0]), 6, 27, 1);
    case("all zero", &image(&[0, 0, 0]), 6, 27, 0);
    case("value 0, slot 1", &image(&[a, 1, c]), 6, 0, 0);
    case("value 0, slot 64, which is 0 modulo k", &image(&[a, 64, c]), 6, 0, 0);
    case("value 0, the last slot", &image(&[a, 0x03ff_ffff, c]), 6, 0, 0);
    case("slot 0, value 1", &image(&[a, 0x0400_0000, c]), 6, 0, 0);
    // Each byte of a word is enough for it not to be zero.
    for byte in 0..4 {
        let word = with(&image(&[a, 0, c]), start + 4 + byte, &[1]);
        case(&format!("a word whose byte {byte} is 1"), &word, 6, 0, 0);
    }
    case("a word twice", &image(&[a, b, a]), 6, 0, 0);

    case("a coarser sketch", &good, 5, 0, 0);
    case("the coarsest sketch", &good, 4, 0, 0);
    case("a finer sketch", &good, 7, 5, 0);
    case("no words, a finer sketch", &image(&[]), 7, 5, 0);
    case("lg_k 21, sketch 12", &with(&good, 3, &[21]), 12, 0, 0);
    case("lg_k 11, sketch 12", &with(&good, 3, &[11]), 12, 5, 0);
    [cases, pairs(name, &good, start, mode)].concat()
}

/// Every two faults at once: the answer is that of the one that comes first.
fn pairs(name: &str, good: &[u8], start: usize, mode: u8) -> Vec<Case> {
    type Fault<'a> = (&'a str, &'a dyn Fn(&mut Vec<u8>), (u8, u32));
    let second_zero = |image: &mut Vec<u8>| image[start + 4..start + 8].fill(0);
    let faults: [Fault; 10] = [
        ("7 bytes", &|image| image.truncate(7), (7, 0)),
        ("byte 0", &|image| image[0] = 9, (8, 0)),
        ("byte 1", &|image| image[1] = 2, (8, 0)),
        ("byte 2", &|image| image[2] = 6, (8, 0)),
        // For a list this is the end of its words.
        ("11 bytes", &|image| image.truncate(11), (7, 0)),
        ("mode", &|image| image[7] = 14 + mode, (9, 0)),
        ("lg_k 22", &|image| image[3] = 22, (2, 0)),
        ("not compact", &|image| image[5] = 0, (26, 0)),
        ("a byte short", &|image| image.truncate(image.len() - 1), (7, 0)),
        ("a zero word", &second_zero, (27, 1)),
    ];
    let list = mode == 0;
    let mut cases = Vec::new();
    for (first, (what, change, number)) in faults.iter().enumerate() {
        let mut add = |then: &str, image: Vec<u8>, lg_k: u8| {
            cases.push((format!("{name}: {what}, and {then}"), image, lg_k, *number));
        };
        if list && *what == "11 bytes" {
            continue;
        }
        // The later fault goes in first, since the earlier one may cut off its bytes.
        for (then, later, _) in &faults[first + 1..] {
            let mut image = good.to_vec();
            later(&mut image);
            change(&mut image);
            add(then, image, 6);
        }
        let mut image = good.to_vec();
        change(&mut image);
        add("a finer sketch", image, 7);
    }
    cases
}

/// A list's count is the one byte 6.
fn lists() -> Vec<Case> {
    let good = list(&WORDS);
    let many: Vec<u32> = (1..=255).map(|slot| 1 << 26 | slot).collect();
    let most = list(&many);
    let case = |what: &str, image: &[u8], number: u8, place: u32| {
        (format!("list: {what}"), image.to_vec(), 6, (number, place))
    };
    vec![
        case("8 bytes, no words", &list(&[])[..8], 0, 0),
        case("11 bytes, one word", &list(&WORDS[..1])[..11], 7, 0),
        case("12 bytes, one word", &list(&WORDS[..1])[..12], 0, 0),
        case("count 2 of 3", &with(&good, 6, &[2]), 0, 0),
        case("count 4 of 3", &with(&good, 6, &[4]), 7, 0),
        case("count 255 of 3", &with(&good, 6, &[255]), 7, 0),
        case("count 0 of 3", &with(&good, 6, &[0]), 0, 0),
        case("8 words", &list(&many[..8]), 0, 0),
        case("9 words", &list(&many[..9]), 0, 0),
        case("200 words", &list(&many[..200]), 0, 0),
        case("255 words", &most, 0, 0),
        case("255 words, a byte short", &most[..1027], 7, 0),
        case("255 words, the last zero", &with(&most, 1024, &[0; 4]), 27, 254),
        case(
            "count 254 of 255, the last zero",
            &with(&with(&most, 1024, &[0; 4]), 6, &[254]),
            0,
            0,
        ),
        // The type is not read: 0, 4 and 8 are the kinds' own, 12 is nobody's.
        case("kind 4", &with(&good, 7, &[0]), 0, 0),
        case("kind 6", &with(&good, 7, &[4]), 0, 0),
        case("no kind", &with(&good, 7, &[12]), 0, 0),
        // Flag 4, which says that there are none, is not read either.
        case("no words, not said to be empty", &with(&list(&[]), 5, &[8]), 0, 0),
        case("no words, said to be empty", &with(&list(&[]), 5, &[12]), 0, 0),
    ]
}

/// A set's count is the u32 at byte 8; four times it may pass 2^32.
fn sets() -> Vec<Case> {
    let good = set(&WORDS);
    let none = set(&[]);
    let many: Vec<u32> = (1..=70_000).map(|slot| 1 << 26 | slot).collect();
    let case = |what: &str, image: &[u8], number: u8, place: u32| {
        (format!("set: {what}"), image.to_vec(), 6, (number, place))
    };
    let counted = |count: u32| with(&good, 8, &count.to_le_bytes());
    let mut cases = vec![
        case("11 bytes, no words", &none[..11], 7, 0),
        case("12 bytes, no words", &none[..12], 0, 0),
        case("11 bytes, the mode wrong", &with(&none, 7, &[8])[..11], 7, 0),
        case("12 bytes, the mode wrong", &with(&none, 7, &[8])[..12], 9, 0),
        case("11 bytes, byte 1 is 2", &with(&none, 1, &[2])[..11], 8, 0),
        case("15 bytes, one word", &set(&WORDS[..1])[..15], 7, 0),
        case("16 bytes, one word", &set(&WORDS[..1])[..16], 0, 0),
        case("count 2 of 3", &counted(2), 0, 0),
        case("count 4 of 3", &counted(4), 7, 0),
        case("count 0 of 3", &counted(0), 0, 0),
        // Byte 6 is a list's count.
        case("byte 6 is 1", &with(&good, 6, &[1]), 0, 0),
        case("byte 6 is 255", &with(&good, 6, &[255]), 0, 0),
        case("byte 6 is 3, count 0 of 3", &with(&counted(0), 6, &[3]), 0, 0),
        case("byte 6 is 1, the last word zero", &with(&with(&good, 6, &[1]), 20, &[0; 4]), 27, 2),
        // As many words as each byte of the count can tell apart.
        case("255 words", &set(&many[..255]), 0, 0),
        case("256 words", &set(&many[..256]), 0, 0),
        case("256 words, a byte short", &set(&many[..256])[..12 + 1023], 7, 0),
        case("256 words, the last zero", &with(&set(&many[..256]), 12 + 1020, &[0; 4]), 27, 255),
        case("70,000 words", &set(&many), 0, 0),
        case("70,000 words, a byte short", &set(&many)[..12 + 279_999], 7, 0),
        case("70,000 words, the last zero", &with(&set(&many), 12 + 279_996, &[0; 4]), 27, 69_999),
    ];
    // Four times the count is 2^32, or 12 bytes above a multiple of it, as many as there are, or just below.
    let over = [1 << 30, (1 << 30) + 3, (1 << 31) + 3, (3 << 30) + 3, (1 << 30) - 1, u32::MAX];
    for count in over.into_iter().chain([1 << 8, 1 << 16, 1 << 24, 1 << 31, u32::MAX - 2]) {
        cases.push(case(&format!("count {count} of 3"), &counted(count), 7, 0));
    }
    cases
}
