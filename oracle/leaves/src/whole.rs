//! Sizes of tables, and whole tables made of a list of words, beside the Rust's AuxMap.

use crate::draw::distinct;
use crate::leaf;
use crate::lent::Lent;
use crate::map::{mapped, shown};
use crate::order;
use crate::report::shrink;
use oracle::AuxMap;
use oracle::examples::Random;

/// The sizes alone, for many more counts: the least table of each lg_k, and its growth as words come in.
fn sizes() -> Result<String, String> {
    let mut compared = 0;
    for lg_k in 0..=26 {
        let (ours, rust) = (leaf::base_for(lg_k), AuxMap::new(lg_k).estimated_size() / 4);
        if ours != rust {
            return Err(format!("base_for({lg_k}) answers {ours}, the Rust's is {rust}"));
        }
        if !(4..=20).contains(&lg_k) {
            continue;
        }
        let mut map = AuxMap::new(lg_k);
        for slot in 0..1 << lg_k {
            map.insert(slot, 15);
            let (count, rust) = (slot as usize + 1, map.estimated_size() / 4);
            let ours = leaf::table_size(ours, count);
            if ours != rust {
                return Err(format!(
                    "lg_k {lg_k}: table_size for {count} is {ours}, the Rust's {rust}"
                ));
            }
            compared += 1;
        }
    }
    Ok(format!("sizes: 27 bases, {compared} counts"))
}

/// A table made of a list of words, as where an image is opened.
fn build(random: &mut Random, lg_k: u8, many: u32) -> Result<usize, String> {
    let words = distinct(random, lg_k, many);
    let rust = |words: &[u32]| shown(&mapped(lg_k, words)).0;
    let extra = random.below(3) as usize * random.below(40) as usize;
    let differs = |words: &[u32]| {
        let rust = rust(words);
        let room = rust.len() + extra;
        let (mut area, mut scratch) = (Lent::zeros(room), Lent::scratch(room));
        let top = room - words.len();
        scratch.words()[top..].copy_from_slice(words);
        leaf::build(area.words(), scratch.words(), leaf::base_for(lg_k), top);
        let (table, behind) = area.words().split_at(rust.len());
        *table != rust || order::used(behind) > 0 || !area.intact() || !scratch.intact()
    };
    if !differs(&words) {
        return Ok(rust(&words).len());
    }
    let words = shrink(&words, differs);
    Err(format!(
        "build: lg_k {lg_k}, extra room {extra}, words {words:08x?}: another table than the Rust's"
    ))
}

/// Compares the sizes, and tables made of N lists of words.
pub fn compare_all(n: u64, seed: u64) -> Result<String, String> {
    let random = &mut Random::new(seed);
    let mut words = 0;
    for i in 0..n {
        let lg_k = 4 + (i % 15) as u8;
        let many = if i % 50 == 49 { 3000 } else { random.below(200) };
        words += build(random, lg_k, many)?;
    }
    Ok(format!("{}\nbuild: {n} lists of words, {words} words compared at their places", sizes()?))
}
