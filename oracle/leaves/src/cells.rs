//! Cells of 6 and of 4 bits: puts of ours beside what Array6 and Array4 do with the same values, byte for byte of their
//! images; gets and unpacking beside the Rust's `get`.
//!
//! The Rust's put_raw and get_raw are private to their files, and even the door does not reach them. A value that rises is
//! stored through `update`; for one that falls, a sketch is fed anew; and Array4 lowers its nibbles itself when cur_min rises.

use crate::leaf::Cells;
use crate::report::{difference, shrink};
use oracle::examples::{Random, coupons};
use oracle::hll::HllSketch;
use oracle::{Door, hex};
use std::fmt;

#[derive(Clone, Debug)]
struct Put(u32, u8);

#[derive(Default)]
struct Tally {
    lists: usize,
    raised: usize,
    lowered: usize,
    rises: usize,
    bytes: usize,
    gets: usize,
    unpacked: usize,
}

impl fmt::Display for Tally {
    fn fmt(&self, f: &mut fmt::Formatter<'_>) -> fmt::Result {
        write!(
            f,
            "{} lists, {} values raised, {} lowered, cur_min raised {} times; {} bytes, {} gets, {} unpacked registers compared",
            self.lists, self.raised, self.lowered, self.rises, self.bytes, self.gets, self.unpacked
        )
    }
}

struct Both {
    cells: Cells,
    k: u32,
    rust: HllSketch,
    ours: Vec<u8>,
}

/// Array6's last byte is spare: no cell reaches it, and a put leaves it as it is.
fn fed(cells: Cells, lg_k: u8, registers: &[u8], spare: u8) -> HllSketch {
    let kind = if cells == Cells::Six { 6 } else { 4 };
    let mut sketch = Door::start(kind, lg_k);
    for (slot, value) in registers.iter().enumerate().filter(|(_, value)| **value > 0) {
        sketch.update_with_coupon(Door::coupon((*value as u32) << 26 | slot as u32));
    }
    if spare == 0 {
        return sketch;
    }
    let mut image = sketch.serialize();
    *image.last_mut().unwrap() = spare;
    HllSketch::deserialize(&image).unwrap()
}

impl Both {
    fn new(cells: Cells, lg_k: u8, rust: HllSketch) -> Both {
        let mut both = Both { cells, k: 1 << lg_k, rust, ours: Vec::new() };
        both.ours = both.bytes();
        both
    }

    /// The register bytes of the Rust's image.
    fn bytes(&self) -> Vec<u8> {
        let n = match self.cells {
            Cells::Six => self.k as usize / 4 * 3 + 1,
            Cells::Four => self.k as usize / 2,
        };
        self.rust.serialize()[40..40 + n].to_vec()
    }

    fn cur_min(&self) -> u8 {
        self.rust.serialize()[6]
    }

    /// What the Rust's cells have to hold, from what its registers are.
    fn raw(&self, registers: &[u8]) -> Vec<u8> {
        let cur_min = self.cur_min();
        match self.cells {
            Cells::Six => registers.to_vec(),
            Cells::Four => registers.iter().map(|value| (value - cur_min).min(15)).collect(),
        }
    }

    fn same(&self, near: u32, tally: &mut Tally) -> Result<(), String> {
        let bytes = self.bytes();
        if let Some(fault) = difference(&self.ours, &bytes) {
            return Err(format!("the bytes {fault}"));
        }
        let raw = self.raw(&Door::registers(&self.rust).unwrap());
        let k = self.k;
        for slot in [near, (near + 1) % k, (near + k - 1) % k, 0, k - 1] {
            let ours = self.cells.get_raw(&self.ours, slot);
            if ours != raw[slot as usize] {
                return Err(format!(
                    "get_raw({slot}) answers {ours}, the Rust {}",
                    raw[slot as usize]
                ));
            }
        }
        let unpacked = self.cells.unpack(&self.ours, k as usize);
        if let Some(fault) = difference(&unpacked, &raw) {
            return Err(format!("the unpacked registers {fault}"));
        }
        tally.bytes += bytes.len();
        tally.gets += 5;
        tally.unpacked += raw.len();
        Ok(())
    }
}

/// Puts over registers that are there.
fn puts(
    cells: Cells,
    lg_k: u8,
    start: &[u8],
    spare: u8,
    puts: &[Put],
    tally: &mut Tally,
) -> Result<(), String> {
    let mut registers = start.to_vec();
    let mut both = Both::new(cells, lg_k, fed(cells, lg_k, start, spare));
    both.same(0, tally)?;
    for Put(slot, value) in puts {
        let old = std::mem::replace(&mut registers[*slot as usize], *value);
        if *value >= old {
            both.rust.update_with_coupon(Door::coupon((*value as u32) << 26 | slot));
            tally.raised += 1;
        } else {
            both.rust = fed(cells, lg_k, &registers, spare);
            tally.lowered += 1;
        }
        cells.put_raw(&mut both.ours, *slot, *value);
        both.same(*slot, tally)?;
    }
    tally.lists += 1;
    Ok(())
}

/// A history of Array4, with its rises done by our gets and puts.
fn history(lg_k: u8, coupons: &[u32], tally: &mut Tally) -> Result<(), String> {
    let mut both = Both::new(Cells::Four, lg_k, Door::start(4, lg_k));
    let mut registers = vec![0; both.k as usize];
    for coupon in coupons {
        let slot = coupon % both.k;
        let (value, before) = ((coupon >> 26) as u8, both.cur_min());
        both.rust.update_with_coupon(Door::coupon(*coupon));
        let old = &mut registers[slot as usize];
        if value > *old {
            *old = value;
            Cells::Four.put_raw(&mut both.ours, slot, (value - before).min(15));
            tally.raised += 1;
        }
        for cur_min in before + 1..=both.cur_min() {
            for slot in 0..both.k {
                match Cells::Four.get_raw(&both.ours, slot) {
                    15 => {
                        let nibble = (registers[slot as usize] - cur_min).min(15);
                        Cells::Four.put_raw(&mut both.ours, slot, nibble);
                    }
                    raw => Cells::Four.put_raw(&mut both.ours, slot, raw - 1),
                }
            }
            tally.rises += 1;
        }
        both.same(slot, tally)?;
    }
    tally.lists += 1;
    Ok(())
}

fn draw(random: &mut Random, cells: Cells, lg_k: u8) -> (Vec<u8>, u8, Vec<Put>) {
    let k = 1u32 << lg_k;
    let most = if cells == Cells::Six { 64 } else { 16 };
    // One slot of four bits stays at zero, so that cur_min does.
    let still = (cells == Cells::Four).then(|| random.below(k));
    let mut start = vec![0; k as usize];
    if random.below(2) == 0 {
        start.iter_mut().for_each(|value| *value = random.below(most) as u8);
    }
    if let Some(still) = still {
        start[still as usize] = 0;
    }
    let spare =
        if cells == Cells::Six { [0, random.below(256)][random.below(2) as usize] } else { 0 };
    let (from, near) = (random.below(k), random.below(2) == 0);
    let steps = (0..1 + random.below(40)).map(|i| {
        let slot = match i {
            0 => 0,
            1 => k - 1,
            _ if near => (from + random.below(6)) % k,
            _ => random.below(k),
        };
        let value = [0, most - 1, random.below(most), random.below(most)][random.below(4) as usize];
        Put(slot, value as u8)
    });
    let steps = steps.filter(|put| Some(put.0) != still).collect();
    (start, spare as u8, steps)
}

fn compare(random: &mut Random, cells: Cells, lg_k: u8, tally: &mut Tally) -> Result<(), String> {
    let (start, spare, steps) = draw(random, cells, lg_k);
    let Err(fault) = puts(cells, lg_k, &start, spare, &steps, tally) else { return Ok(()) };
    let fails = |start: &[u8], spare, steps: &[Put]| {
        puts(cells, lg_k, start, spare, steps, &mut Tally::default()).is_err()
    };
    let zeros = vec![0; start.len()];
    let plainer = [(&zeros, 0), (&zeros, spare), (&start, 0)];
    let (start, spare) = *plainer
        .iter()
        .find(|(start, spare)| fails(start, *spare, &steps))
        .unwrap_or(&(&start, spare));
    let steps = shrink(&steps, |steps| fails(start, spare, steps));
    let fault =
        puts(cells, lg_k, start, spare, &steps, &mut Tally::default()).err().unwrap_or(fault);
    let start = if *start == zeros { "zeros".into() } else { hex(start) };
    Err(format!("{cells:?}: lg_k {lg_k}, spare byte {spare}, {steps:?} over {start}:\n{fault}"))
}

pub fn compare_all(n: u64, seed: u64) -> Result<String, String> {
    let random = &mut Random::new(seed);
    let mut tallies = [(); 3].map(|()| Tally::default());
    let [six, four, raised] = &mut tallies;
    for i in 0..n {
        let lg_k = 4 + (i % 9) as u8;
        compare(random, Cells::Six, lg_k, six)?;
        compare(random, Cells::Four, lg_k, four)?;
    }
    for i in 0..n / 8 {
        let lg_k = 4 + (i % 5) as u8;
        let coupons = coupons(random, lg_k, (i % 4) as u32, 2 << lg_k);
        if let Err(fault) = history(lg_k, &coupons, raised) {
            let fails = |coupons: &[u32]| history(lg_k, coupons, &mut Tally::default()).is_err();
            let coupons = shrink(&coupons, fails);
            return Err(format!("Array4: lg_k {lg_k}, coupons {coupons:08x?}:\n{fault}"));
        }
    }
    Ok(format!("6 bits: {six}\n4 bits: {four}\n4 bits, histories: {raised}"))
}
