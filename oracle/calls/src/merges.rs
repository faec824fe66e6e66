//! Merges into kind 8, of equal and of finer sources of each kind, one after another, fed on between: beside Array8's own merges.

use crate::draw;
use crate::histories::{feed, start};
use crate::least::least;
use crate::ours::{Ours, answered};
use crate::room::Room;
use crate::rust;
use oracle::Door;
use oracle::examples::Random;
use oracle::hll::HllSketch;

#[derive(Clone, Debug)]
struct Sketch {
    kind: u8,
    lg_k: u8,
    coupons: Vec<u32>,
}

fn made(sketch: &Sketch) -> Result<(Ours, HllSketch), String> {
    let Sketch { kind, lg_k, coupons } = sketch;
    let area = draw::needed(*kind, *lg_k, coupons);
    let mut ours = start(*kind, *lg_k, area, area)?;
    let mut rust = Door::start(*kind, *lg_k);
    feed(&mut ours, &mut rust, &mut Room::empty(*kind, *lg_k), coupons)?;
    Ok((ours, rust))
}

#[derive(Default)]
struct Tally {
    equal: [usize; 3],
    finer: [usize; 3],
}

fn run(target: &Sketch, sources: &[Sketch], tally: &mut Tally) -> Result<(), String> {
    let (mut ours, mut rust) = made(target)?;
    for source in sources {
        let (from, theirs) = made(source)?;
        let before = from.clone();
        answered("merge", ours.merge(&from), 0)?;
        Door::merge(&mut rust, &theirs)?;
        ours.compare(&rust::state(&rust), true).map_err(|fault| format!("merged: {fault}"))?;
        if !from.same(&before) {
            return Err("the source was changed".into());
        }
        from.intact()?;
        let line = if source.lg_k == target.lg_k { &mut tally.equal } else { &mut tally.finer };
        line[source.kind as usize / 2 - 2] += 1;
        // What was merged is a sketch as any other.
        let more = &source.coupons[..source.coupons.len().min(5)];
        let mut room = Room::of(8, target.lg_k, Door::registers(&rust).unwrap());
        feed(&mut ours, &mut rust, &mut room, more)?;
        ours.compare(&rust::state(&rust), true).map_err(|fault| format!("fed on: {fault}"))?;
    }
    Ok(())
}

fn compare(target: Sketch, sources: Vec<Sketch>, tally: &mut Tally) -> Result<(), String> {
    let Err(fault) = run(&target, &sources, tally) else { return Ok(()) };
    let fails =
        |target: &Sketch, sources: &[Sketch]| run(target, sources, &mut Tally::default()).is_err();
    let mut sources = least(&sources, |sources| fails(&target, sources));
    let fewer = |coupons: &[u32]| Sketch { coupons: coupons.to_vec(), ..target.clone() };
    let target = fewer(&least(&target.coupons, |coupons| fails(&fewer(coupons), &sources)));
    for at in 0..sources.len() {
        let with = |coupons: &[u32]| {
            let mut sources = sources.clone();
            sources[at].coupons = coupons.to_vec();
            sources
        };
        sources = with(&least(&sources[at].coupons, |coupons| fails(&target, &with(coupons))));
    }
    let fault = run(&target, &sources, &mut Tally::default()).err().unwrap_or(fault);
    Err(format!("merge: {target:08x?} with {sources:08x?}:\n{fault}"))
}

pub fn compare_all(n: u64, seed: u64) -> Result<String, String> {
    let random = &mut Random::new(seed);
    let mut tally = Tally::default();
    for i in 0..n {
        let lg_k = 4 + (i % 7) as u8;
        let drawn = |random: &mut Random, kind, lg_k| Sketch {
            kind,
            lg_k,
            coupons: draw::coupons(random, lg_k),
        };
        let target = drawn(random, 8, lg_k);
        let sources = (0..1 + random.below(3)).map(|_| {
            let kind = [4, 6, 8][random.below(3) as usize];
            let finer = [0, 0, random.below(4)][random.below(3) as usize] as u8;
            drawn(random, kind, lg_k + finer)
        });
        let sources = sources.collect();
        compare(target, sources, &mut tally)?;
    }
    let Tally { equal, finer } = tally;
    Ok(format!(
        "merges into {n} targets: sources of kinds 4, 6, 8 with equal lg_k {equal:?}, with a larger one {finer:?}; registers, record and sums compared"
    ))
}
