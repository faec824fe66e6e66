//! The Rust against the model of document 01, over random histories: registers, record,
//! exception table and image after each; the image opened in three forms and fed on; merges;
//! and images damaged at random: what the documents open the Rust opens, alike.
//! Lists and sets are compared in `list_check.rs`.

use crate::damage;
use crate::examples::{Random, coupons, listed, spread};
use crate::list_check;
use crate::model::{Model, said};
use crate::valueless::Valueless;
use crate::{Answer, Recipe, State, hex, merge, run, union};
use std::collections::BTreeMap;
use std::fmt;

/// Which image bytes are compared: all but flags and hip, and not the sums once opened,
/// because the Rust keeps the ones it read.
#[derive(Clone, Copy)]
enum Since {
    Start,
    Open,
}

fn compare(answer: Answer, model: &Model, since: Since) -> Result<State, String> {
    let Answer::Ok(state) = answer else { return Err(format!("answered {answer}")) };
    let masked = |image: &[u8]| {
        let mut image = image.to_vec();
        let sums = match since {
            Since::Start => 16,
            Since::Open => 32,
        };
        image[5] = 0;
        image[8..sums].fill(0);
        image
    };
    let same = state.registers == model.registers
        && (state.kind, state.lg_k, state.cur_min) == (model.kind, model.lg_k, model.cur_min)
        && state.num_at_cur_min == model.num_at_cur_min()
        && state.table == model.table
        && masked(&state.image) == masked(&model.image());
    if same { Ok(state) } else { Err(format!("{state:?}\nis not\n{model:?}")) }
}

/// Compares N random histories and what follows from each; says what was compared.
pub fn check(n: u64, seed: u64) -> Result<String, String> {
    let random = &mut Random::new(seed);
    let (mut most, mut largest) = (0, 0);
    let (mut rises, mut tables, mut unions) = (0, 0, 0);
    let mut damaged = Damaged::default();
    for _ in 0..n {
        let kind = [4, 4, 6, 8][random.below(4) as usize];
        let lg_k = 4 + random.below(7) as u8;
        let recipe = draw(random, kind, lg_k);
        let Recipe::History { coupons, .. } = &recipe else { unreachable!() };
        let model = plain(&recipe);
        let state = compare(run(&recipe), &model, Since::Start)?;
        most = most.max(coupons.len());
        rises += (model.cur_min > 0) as u64;
        tables += !model.table.is_empty() as u64;
        largest = largest.max(model.table.len());

        let (list, second) = (listed(random, &state.image), spread(random, &state.image));
        for image in [state.image, list, second] {
            damaged.compare(&image, &damage::anywhere(random, &image))?;
            if kind == 4 {
                damaged.compare(&image, &damage::exceptions(random, &image))?;
                damaged.compare(&image, &damage::valueless(random, &image))?;
            }
            let mut model = Model::open(&image);
            let opened = Recipe::Open { image: image.clone(), coupons: Vec::new() };
            compare(run(&opened), &model, Since::Open)?;
            let more = coupons_for(random, lg_k);
            more.iter().for_each(|coupon| model.feed(*coupon));
            compare(run(&Recipe::Open { image, coupons: more }), &model, Since::Open)?;
        }

        let other_kind = [4, 6, 8][random.below(3) as usize];
        let other = draw(random, other_kind, lg_k);
        let target_lg_k = 4 + random.below(lg_k as u32 - 3) as u8;
        let target = draw(random, 8, target_lg_k);
        let mut model = plain(&target);
        model.merge(&plain(&recipe));
        model.merge(&plain(&other));
        let sources = [recipe, other];
        compare(merge(&target, &sources), &model, Since::Start)?;
        // A union of nothing is still a list, with no registers to compare.
        if model.registers.iter().any(|register| *register > 0) {
            let [first, second] = sources;
            compare(union(target_lg_k, 8, &[target, first, second]), &model, Since::Start)?;
            unions += 1;
        }
    }
    // Each larger lg_k has a first table size of its own: one exception shows it, many outgrow it.
    for (lg_k, many) in (11..=21).flat_map(|lg_k| [(lg_k, 1), (lg_k, 8192)]) {
        let coupons = (0..many).map(|_| (15 + random.below(49)) << 26 | random.below(1 << 26));
        let recipe = Recipe::History { kind: 4, lg_k, coupons: coupons.collect() };
        compare(run(&recipe), &plain(&recipe), Since::Start)?;
    }
    Ok(format!(
        "{n} histories of up to {most} coupons, lg_k 4 to 10 ({rises} raised cur_min, {tables} ended \
         with exceptions, the largest table {largest} words); {} opens of their images in three \
         forms, half of them fed on; {n} merges and {unions} unions of two sources; 22 \
         histories of exceptions, lg_k 11 to 21: all as the model says\n{damaged}\n{}",
        6 * n,
        list_check::check(n, seed)?
    ))
}

/// How damaged images fared, both sides asked.
#[derive(Default)]
struct Damaged {
    opened: u32,
    refused: u32,
    /// Refused by the documents alone, for each of their numbers.
    stricter: BTreeMap<u8, u32>,
    valueless: Valueless,
}

impl Damaged {
    /// A good image, and what damage made of it.
    fn compare(&mut self, good: &[u8], image: &[u8]) -> Result<(), String> {
        if image == good {
            return Ok(());
        }
        let answer = run(&Recipe::Open { image: image.to_vec(), coupons: Vec::new() });
        let said = said(image);
        self.valueless.add(image, said).map_err(|fault| format!("{}: {fault}", hex(image)))?;
        match (said.0, answer) {
            (0, answer) => {
                compare(answer, &Model::open(image), Since::Open)
                    .map_err(|fault| format!("{}: {fault}", hex(image)))?;
                self.opened += 1;
            }
            (_, Answer::Error(_)) => self.refused += 1,
            (number, _) => *self.stricter.entry(number).or_default() += 1,
        }
        Ok(())
    }
}

impl fmt::Display for Damaged {
    fn fmt(&self, f: &mut fmt::Formatter<'_>) -> fmt::Result {
        let Damaged { opened, refused, stricter, valueless } = self;
        let alone = stricter.values().sum::<u32>();
        let only: Vec<String> =
            stricter.iter().map(|(no, times)| format!("{no}: {times}")).collect();
        write!(
            f,
            "{} damaged images: all that the documents open the Rust opens, alike: {opened}; {refused} refused by both, \
             {alone} by the documents alone ({})\nof these {valueless}",
            opened + refused + alone,
            only.join(", ")
        )
    }
}

fn plain(recipe: &Recipe) -> Model {
    let Recipe::History { kind, lg_k, coupons } = recipe else { unreachable!() };
    let mut model = Model::new(*kind, *lg_k);
    coupons.iter().for_each(|coupon| model.feed(*coupon));
    model
}

fn draw(random: &mut Random, kind: u8, lg_k: u8) -> Recipe {
    Recipe::History { kind, lg_k, coupons: coupons_for(random, lg_k) }
}

fn coupons_for(random: &mut Random, lg_k: u8) -> Vec<u32> {
    let plan = random.below(4);
    let most = 1 + random.below(4 << lg_k);
    coupons(random, lg_k, plan, most)
}
