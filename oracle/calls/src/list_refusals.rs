//! Lists and sets in which something is wrong: answer, place and what is taken are those of `oracle::lists`, a refusal leaves what was
//! lent, and what is fed all the same is compared with the Rust's arrays.

use crate::draw;
use crate::histories::start;
use crate::lists::{Both, written};
use crate::ours::{Ours, answered};
use crate::refusals::{Case, listed};
use oracle::examples::Random;
use oracle::lists::{Layout, laid_out, many, said, words};
use oracle::{damage, hex, list_cases};

const BOTH: [Layout; 2] = [Layout::List, Layout::Set];

#[derive(Default)]
struct Tally {
    images: usize,
    whole: usize,
}

/// An image as it comes, into a sketch of which both sides are at hand.
fn fed(both: &Both, image: &[u8], tally: &mut Tally) -> Result<u32, String> {
    let mut both = both.clone();
    let told = |fault| format!("image {}:\n{fault}", hex(&image[..image.len().min(4000)]));
    let (number, _) = both.feed_image(image).map_err(told)?;
    both.compare().map_err(told)?;
    tally.images += 1;
    tally.whole += (number == 0) as usize;
    Ok(number)
}

/// Damaged copies: each byte changed, each length, bytes behind, each word zero, any count, and several changes at once.
fn damages(random: &mut Random, image: &[u8]) -> Vec<Vec<u8>> {
    let mut list: Vec<Vec<u8>> = (0..image.len()).map(|long| image[..long].to_vec()).collect();
    let mut with = |at: usize, bytes: &[u8]| {
        let mut image = image.to_vec();
        image[at..at + bytes.len()].copy_from_slice(bytes);
        list.push(image);
    };
    for at in 0..image.len() {
        let held = image[at];
        let near = [held ^ 1, held ^ 2, held.wrapping_add(1), held.wrapping_sub(1)];
        for byte in near.into_iter().chain([0, 3, 4, 21, 22, 64, 255]) {
            with(at, &[byte]);
        }
    }
    let layout = Layout::of(image[0]).expect("a list or a set");
    let start = layout.start();
    for at in (start..image.len()).step_by(4) {
        with(at, &[0; 4]);
    }
    if layout == Layout::Set {
        // Counts whose four times is as long as the words are, modulo 2^32, and others about round numbers.
        let count = (image.len() - start) as u32 / 4;
        let wrapped = [1 << 30, 1 << 31, 3 << 30].map(|past: u32| past + count);
        let round = [0, 1, 255, 256, 1 << 16, (1 << 30) - 1, 1 << 30, 1 << 31, u32::MAX];
        for count in wrapped.into_iter().chain(round).chain([count + 1, count.wrapping_sub(1)]) {
            with(8, &count.to_le_bytes());
        }
    }
    list.extend((1..9).map(|long| [image, &vec![0; long][..]].concat()));
    list.extend((0..2 * image.len()).map(|_| damage::coupons(random, image)));
    list
}

/// Good images and damaged copies of them, into sketches that are empty and fed, coarser, as fine and finer, with room and without.
fn damaged(random: &mut Random, tally: &mut Tally) -> Result<(), String> {
    let ours = |layout| [0, 3, 12].map(|count| laid_out(layout, 8, 6, &many(count)));
    let rusts = [(4, 4, 7), (6, 6, 1), (8, 8, 24)];
    let rusts = rusts.map(|(kind, lg_k, count)| written(kind, lg_k, &many(count)));
    for image in BOTH.into_iter().flat_map(ours).chain(rusts) {
        let mut sketches = Vec::new();
        for (kind, area) in [(4, 0), (4, 8), (4, 64), (6, 3), (8, 0)] {
            let lg_k = [4, image[3], image[3] + 1][random.below(3) as usize];
            let mut both = Both::start(kind, lg_k, area, area)?;
            let coupons = draw::coupons(random, lg_k);
            both.feed(&coupons[..random.below(coupons.len() as u32 + 1) as usize])?;
            sketches.extend([both, Both::start(kind, 4, area, area)?]);
        }
        for copy in damages(random, &image) {
            for both in &sketches {
                fed(both, &copy, tally)?;
            }
        }
    }
    Ok(())
}

/// The cases worked out by hand, into each kind.
fn by_hand(tally: &mut Tally) -> Result<usize, String> {
    let cases = list_cases::cases();
    let number = cases.len();
    for (what, image, lg_k, wanted) in cases {
        answered(&format!("{what}: the model"), said(&image, lg_k), wanted)?;
        for kind in [4, 6, 8] {
            let area = if kind == 4 { 2 << lg_k } else { 0 };
            let both = Both::start(kind, lg_k, area, area)?;
            fed(&both, &image, tally).map_err(|fault| format!("{what}, kind {kind}: {fault}"))?;
        }
    }
    Ok(number)
}

/// Twelve exceptions fit sixteen words, the thirteenth does not; nothing is fed before all words were looked at; opening reads no lists.
fn boundaries() -> Result<Vec<Case>, String> {
    let mut cases = Vec::new();
    let exceptions = |count: u32| (0..count).map(|slot| 20 << 26 | slot).collect::<Vec<u32>>();
    let rooms = [(16, 12, 0), (16, 13, 6), (31, 13, 6), (32, 13, 0), (4, 3, 0), (4, 4, 6)];
    for (area, count, wanted) in rooms.into_iter().chain([(3, 1, 6), (0, 1, 6)]) {
        for layout in BOTH {
            let image = laid_out(layout, 4, 4, &exceptions(count));
            let (number, place, taken) = start(4, 4, area, area)?.feed_image(&image);
            let what = format!("{layout} of {count} exceptions with {area} words");
            let fit = if wanted == 0 { count } else { count - 1 };
            cases.push((format!("  place of {what}"), place, 0));
            cases.push((format!("  taken of {what}"), taken as u32, fit));
            cases.push((what, number, wanted));
        }
    }
    for layout in BOTH {
        let mut ours = start(4, 4, 4, 4)?;
        let before = ours.clone();
        let image = laid_out(layout, 4, 4, &[&exceptions(5)[..], &[0]].concat());
        let (number, place, taken) = ours.feed_image(&image);
        let what = format!("{layout} with no room for its fourth word, and the sixth zero");
        cases.push((format!("  place of {what}"), place, 5));
        cases.push((format!("  taken of {what}"), taken as u32, 0));
        cases.push((format!("  unchanged by {what}"), ours.same(&before) as u32, 1));
        cases.push((what, number, 27));
    }
    #[cfg(feature = "open")]
    for (layout, count, wanted) in
        [(Layout::List, 7, 7), (Layout::List, 8, 8), (Layout::Set, 6, 7), (Layout::Set, 7, 8)]
    {
        let image = laid_out(layout, 8, 4, &many(count));
        let (number, _) = Ours::lend(16, 0, 0).open(&image);
        cases.push((format!("open a {layout} of {} bytes", image.len()), number, wanted));
    }
    Ok(cases)
}

/// A sketch as it is, in good order or not: its own refusal comes first, then the image's, and none of these images changes anything.
pub fn unchanging(ours: &mut Ours, refusal: u32) -> Result<(), String> {
    let before = ours.clone();
    // A coupon of value 0 is taken without effect; lg_k 4 is too coarse for some sketches.
    let images = [
        laid_out(Layout::List, 8, 21, &[]),
        laid_out(Layout::Set, 8, 21, &[5]),
        laid_out(Layout::List, 4, 4, &[7, 8]),
        laid_out(Layout::Set, 6, 4, &[63 << 26, 0]),
        vec![10, 1, 7, 4, 0, 8, 0, 2],
        vec![2, 1, 7, 4, 3, 8, 0],
    ];
    for image in images {
        let (number, place) = match refusal {
            0 => said(&image, ours.record.all()[1] as u8),
            _ => (refusal as u8, 0),
        };
        let taken = if number == 0 { words(&image).len() } else { 0 };
        answered("feed_image", ours.feed_image(&image), (number.into(), place, taken))
            .and_then(|()| ours.intact())
            .map_err(|fault| format!("image {}: {fault}", hex(&image)))?;
        if !ours.same(&before) {
            return Err(format!("image {} changed something", hex(&image)));
        }
    }
    Ok(())
}

pub fn compare_all(n: u64, seed: u64) -> Result<String, String> {
    let random = &mut Random::new(seed);
    let mut tally = Tally::default();
    for _ in 0..n.div_ceil(1000) {
        damaged(random, &mut tally)?;
    }
    let hand = by_hand(&mut tally)?;
    let cases = listed(&boundaries()?)?;
    let Tally { images, whole } = tally;
    Ok(format!(
        "damaged lists and sets: {images}, {whole} of them fed whole; number, place and what was taken as the model says; {hand} of them in \
         each kind, and {cases} boundaries, worked out by hand"
    ))
}
