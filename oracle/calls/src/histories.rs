//! Histories from an empty sketch, done by our calls and by the Rust side by side: after each batch all that is held is equal.

use crate::draw::{self, History};
use crate::least::least;
use crate::ours::{Ours, answered, bytes};
use crate::room::Room;
use crate::rust;
use oracle::Door;
use oracle::examples::Random;
use oracle::hll::HllSketch;
use std::fmt;

#[derive(Default)]
struct Tally {
    histories: usize,
    batches: usize,
    taken: usize,
    stops: usize,
    rises: usize,
    most_rises: usize,
    tables: usize,
    largest: usize,
    areas: std::collections::BTreeSet<usize>,
}

impl fmt::Display for Tally {
    fn fmt(&self, f: &mut fmt::Formatter<'_>) -> fmt::Result {
        write!(
            f,
            "{} histories, {} batches, {} coupons taken; cur_min rose by {} in all, by up to {} in one history; {} stops at NO_ROOM, \
             areas of {} lengths; {} exception tables compared, the largest {} words",
            self.histories,
            self.batches,
            self.taken,
            self.rises,
            self.most_rises,
            self.stops,
            self.areas.len(),
            self.tables,
            self.largest
        )
    }
}

/// How many of the coupons find room in an area, fed to a sketch whose registers are these.
pub fn fitting(room: &mut Room, coupons: &[u32], area: usize) -> usize {
    let stop = coupons.iter().position(|coupon| {
        let stops = room.needed(*coupon) > area;
        if !stops {
            room.feed(*coupon);
        }
        stops
    });
    stop.unwrap_or(coupons.len())
}

/// One batch on both sides. Answers how many coupons were taken.
pub fn feed(
    ours: &mut Ours,
    rust: &mut HllSketch,
    room: &mut Room,
    coupons: &[u32],
) -> Result<usize, String> {
    let fit = fitting(room, coupons, ours.aux.all().len());
    let (number, taken) = ours.feed(coupons);
    answered("feed", number, if fit < coupons.len() { 6 } else { 0 })?;
    if taken != fit {
        return Err(format!("feed takes {taken} coupons, not {fit}"));
    }
    rust::feed(rust, &coupons[..fit]);
    Ok(fit)
}

pub fn start(kind: u8, lg_k: u8, area: usize, scratch: usize) -> Result<Ours, String> {
    let mut ours = Ours::lend(bytes(kind, lg_k), area, scratch);
    answered("start", ours.start(kind as u32, lg_k as u32), 0)?;
    Ok(ours)
}

fn run(history: &History, tally: &mut Tally) -> Result<(), String> {
    let History { kind, lg_k, area, scratch, .. } = *history;
    let mut ours = start(kind, lg_k, area, scratch)?;
    let mut rust = Door::start(kind, lg_k);
    let mut room = Room::empty(kind, lg_k);
    ours.compare(&rust::state(&rust), true).map_err(|fault| format!("after start: {fault}"))?;
    for (i, batch) in history.batches().iter().enumerate() {
        let at = |fault| format!("batch {}: {fault}", i + 1);
        let taken = feed(&mut ours, &mut rust, &mut room, batch).map_err(at)?;
        let state = rust::state(&rust);
        ours.compare(&state, true).map_err(at)?;
        tally.batches += 1;
        tally.stops += (taken < batch.len()) as usize;
        tally.taken += taken;
        tally.tables += !state.table.is_empty() as usize;
        tally.largest = tally.largest.max(state.table.len());
    }
    let rises = if kind == 4 { room.cur_min() } else { 0 };
    tally.histories += 1;
    tally.rises += rises;
    tally.most_rises = tally.most_rises.max(rises);
    tally.areas.insert(area);
    Ok(())
}

fn compare(history: &History, tally: &mut Tally) -> Result<(), String> {
    let Err(fault) = run(history, tally) else { return Ok(()) };
    let with = |steps: &[draw::Step]| History { steps: steps.to_vec(), ..history.clone() };
    let fails = |steps: &[draw::Step]| run(&with(steps), &mut Tally::default()).is_err();
    let history = with(&least(&history.steps, fails));
    let fault = run(&history, &mut Tally::default()).err().unwrap_or(fault);
    let History { kind, lg_k, area, scratch, .. } = history;
    let batches = history.batches();
    Err(format!(
        "history: kind {kind}, lg_k {lg_k}, an area of {area} words and a scratch of {scratch}, batches {batches:08x?}:\n{fault}"
    ))
}

pub fn compare_all(n: u64, seed: u64) -> Result<String, String> {
    let mut lines = Vec::new();
    for kind in [4, 6, 8] {
        let random = &mut Random::new(seed);
        let mut tally = Tally::default();
        for i in 0..n {
            compare(&draw::history(random, kind, i), &mut tally)?;
        }
        lines.push(format!("kind {kind}: {tally}"));
    }
    // The largest sketches: a few coupons show each one's first table and the slots at both ends.
    let mut tally = Tally::default();
    let random = &mut Random::new(seed);
    for (kind, lg_k) in (13..=21).flat_map(|lg_k| [4, 6, 8].map(|kind| (kind, lg_k))) {
        let k = 1u32 << lg_k;
        let coupons = [(15 << 26), 63 << 26 | (k - 1), 1 << 26 | k / 2]
            .into_iter()
            .chain((0..200).map(|_| random.below(64) << 26 | random.below(1 << 26)));
        let steps = coupons.map(draw::Step::Coupon).collect();
        let area = if kind == 4 { 1 << 14 } else { 0 };
        compare(&History { kind, lg_k, area, scratch: area, steps }, &mut tally)?;
    }
    lines.push(format!("lg_k 13 to 21: {tally}"));
    Ok(lines.join("\n"))
}
