//! Coupon lists and sets fed by feed_image, to sketches of each kind, beside the Rust's own arrays fed the same words in the same order,
//! and, where they have registers, beside its HllSketch and its HllUnion.

use crate::draw;
use crate::histories::{self, fitting, start};
use crate::least::least;
use crate::lent::Lent;
use crate::ours::{Ours, answered, same};
use crate::room::Room;
use crate::rust;
use oracle::examples::Random;
use oracle::hll::{HllSketch, HllType, HllUnion};
use oracle::lists::{Layout, laid_out, many, most, said, words};
use oracle::{Answer, Door, Few, Recipe, run};

/// Both sides of a sketch, and the room that it has.
#[derive(Clone)]
pub struct Both {
    ours: Ours,
    rust: HllSketch,
    room: Room,
}

impl Both {
    pub fn start(kind: u8, lg_k: u8, area: usize, scratch: usize) -> Result<Both, String> {
        let (rust, room) = (Door::start(kind, lg_k), Room::empty(kind, lg_k));
        Ok(Both { ours: start(kind, lg_k, area, scratch)?, rust, room })
    }

    pub fn feed(&mut self, coupons: &[u32]) -> Result<usize, String> {
        histories::feed(&mut self.ours, &mut self.rust, &mut self.room, coupons)
    }

    /// The image on our side, on the Rust's its words as far as there is room; a refusal leaves all but scratch. Answers the number, and
    /// how many coupons were taken.
    pub fn feed_image(&mut self, image: &[u8]) -> Result<(u32, usize), String> {
        let before = self.ours.clone();
        let (refusal, place) = said(image, self.rust.lg_config_k());
        let (number, taken) = match refusal {
            0 => {
                let words = words(image);
                let fit = fitting(&mut self.room, &words, self.ours.aux.all().len());
                rust::feed(&mut self.rust, &words[..fit]);
                (if fit < words.len() { 6 } else { 0 }, fit)
            }
            _ => (refusal.into(), 0),
        };
        let lent = Lent::holding(image.iter().copied());
        answered("feed_image", self.ours.feed_image(lent.all()), (number, place, taken))?;
        if refusal != 0 && !self.ours.same(&before) {
            return Err(format!("refused with {refusal}, and something was changed"));
        }
        if !lent.intact() || lent.all() != image {
            return Err("the image was changed".into());
        }
        self.ours.intact()?;
        Ok((number, taken))
    }

    pub fn compare(&self) -> Result<(), String> {
        self.ours.compare(&rust::state(&self.rust), true)
    }
}

/// The list or set that the Rust writes of few coupons.
pub fn written(kind: u8, lg_k: u8, coupons: &[u32]) -> Vec<u8> {
    match run(&Recipe::FromList { kind, lg_k, coupons: coupons.to_vec() }) {
        Answer::Few(Few { image, .. }) => image,
        answer => unreachable!("few coupons are {answer}"),
    }
}

/// Who lays an image out. The Rust has no list of more than seven words, no set of less than eight or below lg_k 8, and no coupon twice:
/// what such an image of ours does to a sketch is still compared with the Rust's arrays, fed its words.
#[derive(Clone, Copy, Debug)]
enum Writer {
    Rust,
    Ours(Layout),
}

/// A sketch that was fed, and an image that is fed to it then.
#[derive(Clone)]
struct Story {
    kind: u8,
    lg_k: u8,
    area: usize,
    scratch: usize,
    before: Vec<u32>,
    writer: Writer,
    /// The image's kind, on which nothing depends, and its lg_k.
    named: (u8, u8),
    coupons: Vec<u32>,
}

impl Story {
    fn image(&self) -> Vec<u8> {
        let (kind, lg_k) = self.named;
        match self.writer {
            Writer::Ours(layout) => laid_out(layout, kind, lg_k, &self.coupons),
            Writer::Rust => written(kind, lg_k, &self.coupons),
        }
    }

    /// With an area that is just enough.
    fn fitted(mut self) -> Story {
        let coupons = [&self.before[..], &words(&self.image())].concat();
        self.area = draw::needed(self.kind, self.lg_k, &coupons);
        self.scratch = self.area;
        self
    }
}

#[derive(Default)]
struct Tally {
    images: usize,
    sets: usize,
    longest: usize,
    taken: usize,
    stops: usize,
    sketches: usize,
    unions: usize,
    #[cfg(feature = "write")]
    written: crate::written::Tally,
}

/// The registers of a sketch of the Rust's own that begins as a list; none while it is one, or a set.
fn grown(kind: u8, lg_k: u8, coupons: Vec<u32>) -> Option<Vec<u8>> {
    match run(&Recipe::FromList { kind, lg_k, coupons }) {
        Answer::Ok(state) => Some(state.registers),
        _ => None,
    }
}

/// Those of the Rust's own union of a sketch and an image; none where the Rust does not open it.
fn joined(sketch: &HllSketch, image: &[u8]) -> Option<Vec<u8>> {
    let mut union = HllUnion::new(sketch.lg_config_k()).unwrap();
    union.update(sketch);
    union.update(&HllSketch::deserialize(image).ok()?);
    Door::registers(&union.to_sketch(HllType::Hll8))
}

fn tell(story: &Story, tally: &mut Tally) -> Result<(), String> {
    let Story { kind, lg_k, area, scratch, ref before, .. } = *story;
    let mut both = Both::start(kind, lg_k, area, scratch)?;
    let fed = both.feed(before)?;
    let (earlier, image) = (both.rust.clone(), story.image());
    let (number, taken) = both.feed_image(&image)?;
    both.compare()?;
    #[cfg(feature = "write")]
    crate::written::written(&both.ours, &rust::state(&both.rust), &mut tally.written)?;
    tally.images += 1;
    tally.sets += (image[0] == 3) as usize;
    tally.longest = tally.longest.max(taken);
    tally.taken += taken;
    tally.stops += (number == 6) as usize;
    if number == 0 {
        let registers = Door::registers(&both.rust).unwrap();
        let coupons = [&before[..fed], &words(&image)].concat();
        if let Some(theirs) = grown(kind, lg_k, coupons) {
            same("the registers, beside HllSketch's,", &registers, &theirs)?;
            tally.sketches += 1;
        }
        if let Some(theirs) = joined(&earlier, &image) {
            same("the registers, beside HllUnion's,", &registers, &theirs)?;
            tally.unions += 1;
        }
    }
    Ok(())
}

fn compare(story: Story, tally: &mut Tally) -> Result<(), String> {
    let Err(fault) = tell(&story, tally) else { return Ok(()) };
    let fails = |story: Story| tell(&story, &mut Tally::default()).is_err();
    let fewer = |coupons: &[u32]| Story { coupons: coupons.to_vec(), ..story.clone() };
    let story = fewer(&least(&story.coupons, |coupons| fails(fewer(coupons))));
    let later = |before: &[u32]| Story { before: before.to_vec(), ..story.clone() };
    let story = later(&least(&story.before, |before| fails(later(before))));
    let fault = tell(&story, &mut Tally::default()).err().unwrap_or(fault);
    let Story { kind, lg_k, area, scratch, before, writer, named, coupons } = story;
    Err(format!(
        "lists and sets: kind {kind}, lg_k {lg_k}, an area of {area} words and a scratch of {scratch}, fed {before:08x?}, then the image by \
         {writer:?} of kind {}, lg_k {} and coupons {coupons:08x?}:\n{fault}",
        named.0, named.1
    ))
}

/// The i-th story: a history whose later coupons come as an image, in areas of every length, as histories have them.
fn drawn(random: &mut Random, i: u64) -> Story {
    let kind = [4, 4, 6, 8][i as usize % 4];
    let history = draw::history(random, kind, i / 4);
    let draw::History { lg_k, area, scratch, .. } = history;
    let mut before = history.batches().concat();
    let at = random.below(before.len() as u32 + 1) as usize;
    let mut coupons = before.split_off(if random.below(3) == 0 { 0 } else { at });
    coupons.retain(|word| *word != 0);
    let finer = [0, 0, 1, random.below(10)][random.below(4) as usize] as u8;
    let named = ([4, 6, 8][random.below(3) as usize], lg_k + finer);
    let (writer, count) = match random.below(4) {
        0 => (Writer::Ours(Layout::Set), usize::MAX),
        1 => (Writer::Ours(Layout::List), [0, 1, 8, 200, 255][random.below(5) as usize]),
        _ => (Writer::Rust, 1 + random.below(most(named.1) as u32) as usize),
    };
    coupons.truncate(count);
    Story { kind, lg_k, area, scratch, before, writer, named, coupons }
}

/// Every lg_k, into sketches as fine and coarser, empty and fed: lists of 8 and 200 words, and the largest that the Rust writes, up to a
/// set of 2^17; in smaller sketches also lists of 0, 1, 7 and 255 words and sets of ours.
fn sizes(tally: &mut Tally) -> Result<(), String> {
    for lg_k in 4..=21u8 {
        let list = |count| (Writer::Ours(Layout::List), count);
        let mut forms = vec![list(8), list(200), (Writer::Rust, most(lg_k).min(1 << 17))];
        if lg_k <= 12 {
            forms.extend([(Writer::Rust, 0), (Writer::Rust, 1), (Writer::Rust, 7), list(255)]);
            forms.extend([0, 1, 8, 24, 4000].map(|count| (Writer::Ours(Layout::Set), count)));
        }
        for (at, (writer, count)) in forms.into_iter().enumerate() {
            for (kind, coarser) in [4, 6, 8].into_iter().flat_map(|kind| [(kind, 0), (kind, 3)]) {
                let fed = if (at + coarser as usize) % 2 == 0 { 40 } else { 0 };
                let story = Story {
                    kind,
                    lg_k: lg_k.saturating_sub(coarser).max(4),
                    area: 0,
                    scratch: 0,
                    before: many(fed + count)[count..].to_vec(),
                    writer,
                    named: ([4, 6, 8][at % 3], lg_k),
                    coupons: many(count),
                };
                compare(story.fitted(), tally)?;
            }
        }
    }
    Ok(())
}

pub fn compare_all(n: u64, seed: u64) -> Result<String, String> {
    let random = &mut Random::new(seed);
    let mut tally = Tally::default();
    for i in 0..n {
        compare(drawn(random, i), &mut tally)?;
    }
    sizes(&mut tally)?;
    let Tally { images, sets, longest, taken, stops, sketches, unions, .. } = tally;
    Ok(format!(
        "lists and sets: {images} images of lg_k 4 to 21 fed, {sets} of them sets, the largest {longest} words; {taken} coupons taken, {stops} \
         stops at NO_ROOM; {sketches} of them beside the registers of an HllSketch, {unions} of an HllUnion too"
    ))
}
