//! Lists of insertions, replacements and rises, done by the Rust's AuxMap and by our leaves side by side: after each the
//! tables are equal word for word.

use crate::draw::{PLANS, Step, steps};
use crate::leaf::{self, Find};
use crate::lent::Lent;
use crate::map::shown;
use crate::order;
use crate::report::{difference, shrink};
use oracle::AuxMap;
use oracle::examples::Random;
use std::collections::BTreeMap;
use std::fmt;

/// Done and compared.
#[derive(Default)]
struct Tally {
    lists: usize,
    inserted: usize,
    grown: usize,
    replaced: usize,
    freed_all: usize,
    freed_some: usize,
    freed_none: usize,
    exact: usize,
    words: usize,
    hits: usize,
    misses: usize,
    largest: usize,
    /// The largest that came about by growth.
    grew_to: usize,
}

impl fmt::Display for Tally {
    fn fmt(&self, f: &mut fmt::Formatter<'_>) -> fmt::Result {
        write!(
            f,
            "tables: {} lists ({} in areas of exactly the size they need), {} words inserted, {} growths, {} replaced, \
             rises that freed all {}, some {}, none {}; {} words compared at their places, the largest table {}, the largest \
             by growth {}; get found {} and missed {}",
            self.lists,
            self.exact,
            self.inserted,
            self.grown,
            self.replaced,
            self.freed_all,
            self.freed_some,
            self.freed_none,
            self.words,
            self.largest,
            self.grew_to,
            self.hits,
            self.misses
        )
    }
}

struct Both {
    lg_k: u8,
    base: usize,
    rust: Option<AuxMap>,
    area: Lent,
    scratch: Lent,
    count: usize,
}

/// The room that a list's largest table needs.
fn needed(lg_k: u8, steps: &[Step]) -> usize {
    let mut values = BTreeMap::new();
    let mut most = 0;
    for step in steps {
        match *step {
            Step::Put(slot, value) => drop(values.insert(slot, value)),
            Step::Rise(limit) => values.retain(|_, value| limit <= *value as u32),
        }
        most = most.max(values.len());
    }
    order::size(leaf::base_for(lg_k), most)
}

impl Both {
    fn new(lg_k: u8, room: usize) -> Both {
        Both {
            lg_k,
            base: leaf::base_for(lg_k),
            rust: None,
            area: Lent::zeros(room),
            scratch: Lent::scratch(room),
            count: 0,
        }
    }

    fn size(&self) -> usize {
        leaf::table_size(self.base, self.count)
    }

    fn step(&mut self, step: &Step, tally: &mut Tally) -> Result<(), String> {
        let named = match *step {
            Step::Put(slot, value) => self.put(slot, value, tally)?,
            Step::Rise(limit) => {
                self.rise(limit, tally);
                None
            }
        };
        self.same(named, tally)
    }

    /// Answers the place that our search named, and the word that is now there if the table did not grow.
    fn put(
        &mut self,
        slot: u32,
        value: u8,
        tally: &mut Tally,
    ) -> Result<Option<(usize, u32)>, String> {
        let word = (value as u32) << 26 | slot;
        let present = self.rust.as_ref().is_some_and(|map| map.get(slot).is_some());
        let size = self.size().max(self.base);
        let at = match leaf::find(&self.area.words()[..size], slot) {
            Find::Found(at) if present => at,
            Find::Empty(at) if !present => at,
            other => return Err(format!("find({slot}) answers {other:?}, the Rust the contrary")),
        };
        let map = self.rust.get_or_insert_with(|| AuxMap::new(self.lg_k));
        if present {
            map.replace(slot, value);
            leaf::replace(&mut self.area.words()[..size], slot, value);
            tally.replaced += 1;
        } else {
            map.insert(slot, value);
            let (area, scratch) = (self.area.words(), self.scratch.words());
            let answer = leaf::insert(area, scratch, size, self.count, word);
            self.count += 1;
            tally.inserted += 1;
            if answer != self.size() {
                return Err(format!("insert answers size {answer}, not {}", self.size()));
            }
            if answer != size {
                tally.grown += 1;
                tally.grew_to = tally.grew_to.max(answer);
                return Ok(None);
            }
        }
        Ok(Some((at, word)))
    }

    /// What `shift_to_bigger_cur_min` does to the map, with its floor of exceptions as the limit.
    fn rise(&mut self, limit: u32, tally: &mut Tally) {
        let Some(old) = self.rust.take() else { return };
        let before = self.count;
        for (slot, value) in old.into_iter() {
            if limit <= value as u32 {
                self.rust.get_or_insert_with(|| AuxMap::new(self.lg_k)).insert(slot, value);
            }
        }
        let size = self.size();
        let (area, scratch) = (self.area.words(), self.scratch.words());
        self.count = leaf::rebuild(area, scratch, self.base, size, limit);
        match self.count {
            0 => tally.freed_all += 1,
            left if left == before => tally.freed_none += 1,
            _ => tally.freed_some += 1,
        }
    }

    fn same(&mut self, named: Option<(usize, u32)>, tally: &mut Tally) -> Result<(), String> {
        let (words, count) = shown(&self.rust);
        let (size, ours) = (self.size(), self.count);
        if (size, ours) != (words.len(), count) {
            return Err(format!(
                "size {size} and count {ours}, the Rust's {} and {count}",
                words.len()
            ));
        }
        let (table, behind) = self.area.words().split_at(size);
        if let Some(fault) = difference(table, &words) {
            return Err(format!("the tables {fault}"));
        }
        if let Some((at, word)) = named.filter(|(at, word)| words[*at] != *word) {
            return Err(format!("find named {at}, the Rust has {word:x} elsewhere: {words:x?}"));
        }
        if behind.iter().any(|word| *word != 0) {
            return Err(format!("behind the table is {behind:08x?}"));
        }
        if !order::good(self.area.words(), self.base, count) {
            return Err(format!("the Rust's table is not in our good order: {words:08x?}"));
        }
        if !leaf::check(self.area.words(), self.base, count) {
            return Err(format!("check refuses the Rust's table {words:08x?}"));
        }
        if !self.area.intact() || !self.scratch.intact() {
            return Err("words around the area or the scratch were written".into());
        }
        tally.words += size;
        tally.largest = tally.largest.max(size);
        Ok(())
    }

    fn gets(&mut self, slots: &[u32], tally: &mut Tally) -> Result<(), String> {
        let size = self.size();
        let Some(map) = &self.rust else { return Ok(()) };
        for &slot in slots {
            let (rust, ours) = (map.get(slot), leaf::get(&self.area.words()[..size], slot));
            if rust != ours {
                return Err(format!("get({slot}) answers {ours:?}, the Rust {rust:?}"));
            }
            match rust {
                Some(_) => tally.hits += 1,
                None => tally.misses += 1,
            }
        }
        Ok(())
    }
}

/// Does a list on both sides. The error has the number of steps done.
fn run(lg_k: u8, extra: usize, steps: &[Step], tally: &mut Tally) -> Result<(), (usize, String)> {
    let mut both = Both::new(lg_k, needed(lg_k, steps) + extra);
    let k = 1u32 << lg_k;
    let random = &mut Random::new(steps.len() as u64);
    for (i, step) in steps.iter().enumerate() {
        both.step(step, tally).map_err(|fault| (i + 1, fault))?;
        let near = match *step {
            Step::Put(slot, _) => slot,
            Step::Rise(_) => random.below(k),
        };
        let slots = [near, (near + 1) % k, (near + k - 1) % k, random.below(k), random.below(k)];
        both.gets(&slots, tally).map_err(|fault| (i + 1, fault))?;
    }
    let all: Vec<u32> = (0..k.min(4096)).collect();
    both.gets(&all, tally).map_err(|fault| (steps.len(), fault))?;
    tally.lists += 1;
    tally.exact += (extra == 0) as usize;
    Ok(())
}

fn compare(lg_k: u8, extra: usize, steps: &[Step], tally: &mut Tally) -> Result<(), String> {
    let Err((done, fault)) = run(lg_k, extra, steps, tally) else { return Ok(()) };
    let fails = |steps: &[Step]| run(lg_k, extra, steps, &mut Tally::default()).is_err();
    let steps = shrink(&steps[..done], fails);
    let fault = match run(lg_k, extra, &steps, &mut Tally::default()) {
        Err((_, fault)) => fault,
        Ok(()) => fault,
    };
    let room = needed(lg_k, &steps) + extra;
    Err(format!("tables: lg_k {lg_k}, an area of {room} words, {steps:?}:\n{fault}"))
}

/// Compares N lists of up to 160 puts and some larger ones; says what was compared.
pub fn compare_all(n: u64, seed: u64) -> Result<String, String> {
    let random = &mut Random::new(seed);
    let mut tally = Tally::default();
    for i in 0..n {
        let lg_k = if i % 16 == 15 { 13 + i / 16 % 4 } else { 4 + i % 9 } as u8;
        let many = 1 + random.below(if lg_k > 12 { 240 } else { 160 });
        let plan = random.below(PLANS);
        let steps = steps(random, plan, lg_k, many);
        let extra = [0, 0, 1, 1 + random.below(300)][random.below(4) as usize];
        compare(lg_k, extra as usize, &steps, &mut tally)?;
    }
    // Tables of thousands of words; then the least tables of the largest lg_k, searched and made anew.
    let larger = [(11, 2500), (12, 3000), (12, 5000), (16, 1500), (17, 900), (18, 900), (19, 1700)];
    let least = (20..=26).map(|lg_k| (lg_k, 8));
    for (i, (lg_k, many)) in larger.into_iter().chain(least).enumerate() {
        let steps = steps(random, i as u32 % 2, lg_k, many);
        compare(lg_k, random.below(2) as usize, &steps, &mut tally)?;
    }
    Ok(tally.to_string())
}
