//! The lists of the crate `replay`: histories, images and merges, lists and sets, each line with what
//! the Rust answers; and images with document 02's numbers and places, which the Rust does not have.
//! crates/replay/src/main.rt says what a line means and which image bytes are free.

use crate::aux_cases;
use crate::damage;
use crate::examples::{Random, coupons, few, listed, spread};
use crate::list_cases;
use crate::lists;
use crate::model::{refusal, said};
use crate::{Answer, Few, Recipe, State, hex, merge, run};

/// What the replaying program has memory for: a sketch's lg_k, and the bytes of a line.
const LARGEST: u8 = 10;
const LONGEST: usize = 16384;

struct List(String);

impl List {
    fn bytes(&mut self, letter: char, bytes: &[u8]) {
        self.0 += &format!("{letter}{}\n", hex(bytes));
    }

    fn words(&mut self, letter: char, words: &[u32]) {
        let bytes: Vec<u8> = words.iter().flat_map(|word| word.to_be_bytes()).collect();
        self.bytes(letter, &bytes);
    }

    fn start(&mut self, recipe: &Recipe) {
        match recipe {
            Recipe::History { kind, lg_k, .. } => self.bytes('S', &[*kind, *lg_k]),
            Recipe::Open { image, .. } => self.bytes('O', image),
            Recipe::FromList { .. } => unreachable!(),
        }
    }

    /// What an image is answered, A if it is opened and B if it is fed to the sketch at hand.
    fn answer(&mut self, letter: char, image: &[u8], (number, place): (u8, u32)) {
        self.bytes(letter, &[&[number], &place.to_be_bytes()[..], image].concat());
    }

    /// All that a sketch shows; `image` is I or J.
    fn shown(&mut self, answer: Answer, image: char) -> State {
        let Answer::Ok(state) = answer else { unreachable!("answered {answer}") };
        self.bytes('R', &state.registers);
        if state.kind == 4 {
            self.words('T', &state.table);
        }
        self.bytes(image, &state.image);
        state
    }

    /// Feeds the batches in turn and shows the sketch after each.
    fn fed(&mut self, mut recipe: Recipe, batches: Vec<Vec<u32>>) -> (Recipe, State) {
        self.start(&recipe);
        let image = if matches!(recipe, Recipe::Open { .. }) { 'J' } else { 'I' };
        let mut state = self.shown(run(&recipe), image);
        for batch in batches {
            self.words('F', &batch);
            recipe.feed(batch);
            state = self.shown(run(&recipe), image);
        }
        (recipe, state)
    }

    /// A sketch at hand that has something, and is not shown.
    fn made(&mut self, random: &mut Random, kind: u8, lg_k: u8) {
        self.start(&empty(kind, lg_k));
        self.words('F', &some(random, lg_k));
    }
}

impl Recipe {
    fn feed(&mut self, batch: Vec<u32>) {
        match self {
            Recipe::History { coupons, .. } | Recipe::Open { coupons, .. } => coupons.extend(batch),
            Recipe::FromList { .. } => unreachable!(),
        }
    }
}

fn empty(kind: u8, lg_k: u8) -> Recipe {
    Recipe::History { kind, lg_k, coupons: Vec::new() }
}

/// N stories, of a sketch each, its image and what becomes of it; then some of sketches that are fed lists and sets.
pub fn replay(n: u64, seed: u64) -> String {
    let random = &mut Random::new(seed);
    let mut list = List(String::new());
    for i in 0..n {
        let kind = [4, 4, 6, 8][i as usize % 4];
        let large = 8 + ((i / 15 + 2) % 3) as u8;
        let lg_k = if i % 15 == 0 { large } else { 4 + random.below(4) as u8 };
        let batches = batches(random, lg_k);
        let (_, state) = list.fed(empty(kind, lg_k), batches);
        refused(random, &mut list, &state.image);
        let image = reopened(random, state.image);
        let more = some(random, lg_k);
        let (source, state) = list.fed(Recipe::Open { image, coupons: Vec::new() }, vec![more]);
        refused(random, &mut list, &state.image);
        merged(random, &mut list, source, lg_k);
    }
    (0..n / 5).for_each(|i| fed_images(random, &mut list, [4, 4, 6, 8][i as usize % 4]));
    list.0
}

/// A sketch that has something already, and up to three lists or sets in turn.
fn fed_images(random: &mut Random, list: &mut List, kind: u8) {
    let lg_k = 4 + random.below(3) as u8;
    let before = some(random, lg_k);
    let (mut recipe, _) = list.fed(empty(kind, lg_k), vec![before]);
    for _ in 0..1 + random.below(3) {
        let few = written(random, lg_k);
        list.bytes('L', &few.image);
        recipe.feed(few.words);
        list.shown(run(&recipe), 'I');
    }
}

/// A list or a set for a sketch of this lg_k, as fine or finer, of coupons as it may be fed in batches.
fn written(random: &mut Random, lg_k: u8) -> Few {
    let finer = lg_k + random.below((LARGEST - lg_k) as u32 + 1) as u8;
    let coupons = batches(random, lg_k).concat();
    few(random, finer, coupons)
}

/// At most 20 coupons, by any plan.
fn some(random: &mut Random, lg_k: u8) -> Vec<u32> {
    let plan = random.below(4);
    let mut coupons = coupons(random, lg_k, plan, 20);
    coupons.truncate(random.below(21) as usize);
    coupons
}

fn batches(random: &mut Random, lg_k: u8) -> Vec<Vec<u32>> {
    let many = 1 + random.below(3);
    if random.below(2) == 0 {
        return climb(random, lg_k, many);
    }
    (0..many)
        .map(|_| {
            let (plan, most) = (random.below(4), 1 + random.below(2 << lg_k));
            coupons(random, lg_k, plan, most)
        })
        .collect()
}

/// Rounds over all slots, each of which lifts cur_min; a third of the values lie about cur_min + 15.
fn climb(random: &mut Random, lg_k: u8, many: u32) -> Vec<Vec<u32>> {
    let mut floor = 0;
    (0..many)
        .map(|_| {
            let rise = 1 + random.below(5);
            let mut batch = Vec::new();
            for slot in random.slots(1 << lg_k) {
                let edge = random.below(3) == 0;
                let value = if edge {
                    floor + 14 + random.below(3 + rise)
                } else {
                    floor + rise + random.below(2)
                };
                batch.push(random.coupon(1 << lg_k, slot, value));
            }
            floor += rise;
            batch
        })
        .collect()
}

/// The image as it is, or in other words that mean the same; at times with bytes behind it.
fn reopened(random: &mut Random, image: Vec<u8>) -> Vec<u8> {
    let mut image = match random.below(3) {
        0 => image,
        1 => listed(random, &image),
        _ => spread(random, &image),
    };
    if random.below(4) == 0 {
        image.extend([random.below(256) as u8, 0]);
    }
    image
}

/// Damaged images that both sides refuse: where document 01 is stricter there is nothing to compare.
fn refused(random: &mut Random, list: &mut List, image: &[u8]) {
    for _ in 0..3 {
        let mut image = damage::anywhere(random, image);
        if random.below(4) == 0 {
            image.truncate(random.below(image.len() as u32) as usize);
        }
        let answer = run(&Recipe::Open { image: image.clone(), coupons: Vec::new() });
        let small = image.get(3).is_none_or(|lg_k| *lg_k <= LARGEST);
        if small && matches!(answer, Answer::Error(_)) && refusal(&image) != 0 {
            list.bytes('X', &image);
        }
    }
}

/// The sketch at hand into a target as fine or coarser; at times another source after it.
fn merged(random: &mut Random, list: &mut List, source: Recipe, lg_k: u8) {
    let coarser = 4 + random.below(lg_k as u32 - 3) as u8;
    list.bytes('P', &[]);
    let few = some(random, coarser);
    let (target, _) = list.fed(empty(8, coarser), vec![few]);
    let mut sources = vec![source];
    list.bytes('M', &[]);
    list.shown(merge(&target, &sources), 'I');
    if random.below(3) == 0 {
        let kind = [4, 6, 8][random.below(3) as usize];
        let finer = LARGEST.min(coarser + 1);
        let batches = batches(random, finer);
        list.bytes('P', &[]);
        sources.push(list.fed(empty(kind, finer), batches).0);
        list.bytes('P', &[]);
        list.bytes('M', &[]);
        list.shown(merge(&target, &sources), 'I');
    }
}

/// The answers about exception words, each with its place, and images beside them that open: the
/// cases worked out by hand, then N histories whose image, in both forms, is damaged at random. Then
/// the answers to lists and sets, by a sketch that they are fed to: worked out by hand, and N that
/// are damaged at random. At last exception words with a slot and no value, by hand and at random.
pub fn places(n: u64, seed: u64) -> String {
    let random = &mut Random::new(seed);
    let mut list = List(String::new());
    by_hand(&mut list, aux_cases::small());
    (0..n).for_each(|i| at_random(random, &mut list, i % 10 == 0, damage::exceptions));
    let mut at_hand = None;
    for (what, image, lg_k, wanted) in list_cases::cases() {
        assert_eq!(lists::said(&image, lg_k), wanted, "{what}");
        if lg_k > LARGEST || image.len() > LONGEST - 5 {
            continue;
        }
        if at_hand.replace(lg_k) != Some(lg_k) {
            list.made(random, 4, lg_k);
        }
        list.answer('B', &image, wanted);
    }
    for i in 0..n {
        let lg_k = 5 + random.below(4) as u8;
        list.made(random, [4, 6, 8][i as usize % 3], lg_k);
        let coarser = lg_k - random.below(2) as u8;
        let few = written(random, coarser);
        for _ in 0..4 {
            let image = damage::coupons(random, &few.image);
            list.answer('B', &image, lists::said(&image, lg_k));
        }
    }
    by_hand(&mut list, aux_cases::valueless());
    (0..n / 3).for_each(|_| at_random(random, &mut list, false, damage::valueless));
    list.0
}

fn by_hand(list: &mut List, cases: Vec<aux_cases::Case>) {
    for (what, image, wanted) in cases {
        assert_eq!(said(&image), wanted, "{what}");
        list.answer('A', &image, wanted);
    }
}

/// A history of kind 4, whose image is damaged in both forms.
fn at_random(
    random: &mut Random,
    list: &mut List,
    large: bool,
    damage: fn(&mut Random, &[u8]) -> Vec<u8>,
) {
    let lg_k = if large { LARGEST } else { 4 + random.below(4) as u8 };
    let coupons = batches(random, lg_k).concat();
    let Answer::Ok(state) = run(&Recipe::History { kind: 4, lg_k, coupons }) else {
        unreachable!()
    };
    for form in [listed(random, &state.image), spread(random, &state.image)] {
        for _ in 0..4 {
            let image = damage(random, &form);
            let answer = said(&image);
            if answer.0 == 0 || answer.0 > 20 {
                list.answer('A', &image, answer);
            }
        }
    }
}

/// A short list in which one thing is wrong on each line but those that make the sketch, and but
/// the free bytes of an image: each answer of the Rust's with each of its bytes changed in turn,
/// answers of another length, lines that cannot be read.
pub fn wrong(seed: u64) -> String {
    let random = &mut Random::new(seed);
    let mut list = List(String::new());
    let (_, state) = list.fed(empty(4, 4), climb(random, 4, 2));
    each_changed(&mut list, 'R', &state.registers);
    let table: Vec<u8> = state.table.iter().flat_map(|word| word.to_be_bytes()).collect();
    each_changed(&mut list, 'T', &table);
    list.bytes('T', &[&table[4..], &table[..4]].concat());
    each_changed(&mut list, 'I', &state.image);
    let image = state.image;
    list.bytes('X', &image);
    list.bytes('O', &image[..image.len() - 1]);
    let (_, state) = list.fed(Recipe::Open { image, coupons: Vec::new() }, vec![some(random, 4)]);
    each_changed(&mut list, 'J', &state.image);
    answers_changed(&mut list, "slot 0 as 16");
    answers_changed(&mut list, "good");
    list.0 += UNREAD;
    // Of a sketch that is fed images, while the other waits aside.
    list.bytes('P', &[]);
    images_changed(random, &mut list);
    list.bytes('P', &[]);
    list.shown(Answer::Ok(state), 'J');
    // The last line is cut.
    list.0.pop();
    list.0
}

/// No such kind, no such lg_k, a byte missing; three bytes for a coupon; a target of kind 4;
/// bytes where there are none; no such letter; nothing; half a byte; no digit; a space.
const UNREAD: &str = "S0504\nS0403\nS04\nF040000\nM\nM00\nP00\nQ00\nr00\n\nR0\nR0G\nR 00\n";

fn answers_changed(list: &mut List, what: &str) {
    let cases = aux_cases::small();
    let (_, image, answer) = cases.iter().find(|case| case.0 == what).unwrap();
    answer_changed(list, 'A', image, *answer);
}

/// The right line, its number and each byte of its place changed, and what is too short to have them.
fn answer_changed(list: &mut List, letter: char, image: &[u8], (number, place): (u8, u32)) {
    list.answer(letter, image, (number, place));
    list.answer(letter, image, (number ^ 1, place));
    (0..4).for_each(|byte| list.answer(letter, image, (number, place ^ 1 << (8 * byte))));
    list.bytes(letter, &[number, 0, 0, 0]);
}

/// A set that is fed, and answers after it that are changed; images that are refused, said to be fed; the registers of another set.
fn images_changed(random: &mut Random, list: &mut List) {
    let mut recipe = empty(4, 4);
    list.start(&recipe);
    let words = climb(random, 4, 1).concat();
    let image = lists::laid_out(lists::Layout::Set, 4, 4, &words);
    list.bytes('L', &image);
    recipe.feed(words);
    let state = list.shown(run(&recipe), 'I');
    each_changed(list, 'R', &state.registers);
    let cases = list_cases::cases();
    for answer in [(26, 0), (27, 1), (7, 0), (5, 0)] {
        let (_, image, lg_k, _) = cases.iter().find(|case| case.3 == answer).unwrap();
        list.start(&empty(4, *lg_k));
        list.bytes('L', image);
        answer_changed(list, 'B', image, answer);
    }
    list.start(&empty(4, 4));
    answer_changed(list, 'B', &image, (0, 0));
    list.bytes('L', &image[..image.len() - 1]);
    let mut other = image;
    other[12] ^= 1;
    list.bytes('L', &other);
    list.bytes('R', &state.registers);
}

/// The right line, each byte of it changed, one byte less, one more.
fn each_changed(list: &mut List, letter: char, bytes: &[u8]) {
    list.bytes(letter, bytes);
    for at in 0..bytes.len() {
        let mut bytes = bytes.to_vec();
        bytes[at] ^= 1;
        list.bytes(letter, &bytes);
    }
    list.bytes(letter, &bytes[..bytes.len() - 1]);
    list.bytes(letter, &[bytes, &[0]].concat());
}
