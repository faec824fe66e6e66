//! Sketches handed in damaged, and lengths that are off by one: the answer is document 01's, and a refusal leaves what it was lent.

use crate::call;
use crate::draw;
use crate::good;
use crate::histories::{feed, start};
use crate::lent::Lent;
#[cfg(feature = "lists")]
use crate::list_refusals;
use crate::ours::{Ours, answered, bytes};
use crate::room::Room;
use oracle::Door;
use oracle::examples::Random;

/// Every call on a sketch as it is, each compared with what document 01 answers.
fn all(ours: &Ours, tally: &mut usize) -> Result<(), String> {
    *tally += 1;
    let record = ours.record.all();
    let (kind, lg_k, area) = (record[0], record[1], ours.aux.all().len());
    let wanted = good::sketch(ours, true);
    // Lengths around the right ones; where lg_k is none, any.
    let k = if lg_k < 22 { 1usize << lg_k } else { 16 };
    for long in [k, k - 1, k + 1] {
        let mut out = Lent::noise(long);
        let wanted = good::sketch(ours, lg_k < 64 && long as u64 == 1 << lg_k);
        answered("unpack", ours.unpack(&mut out), wanted)?;
        if !out.intact() || wanted != 0 && !out.is_noise() {
            return Err("unpack wrote what it should not".into());
        }
    }
    for long in [area, area + 1, area.saturating_sub(1)] {
        let mut fed = Ours { scratch: Lent::noise(long), ..ours.clone() };
        let wanted = good::sketch(ours, kind != 4 || area <= long);
        let (number, taken) = fed.feed(&[]);
        answered("feed of nothing", number, wanted)?;
        if taken != 0 || !fed.same(ours) {
            return Err(format!("feed of nothing takes {taken}, or changed something"));
        }
        #[cfg(feature = "lists")]
        list_refusals::unchanging(&mut fed, wanted)?;
        let (number, taken) = fed.feed(&[63 << 26, 0, 1 << 26 | 7]);
        if wanted != 0 && ((number, taken) != (wanted, 0) || !fed.same(ours)) {
            return Err(format!(
                "feed answers {number} and takes {taken}, not {wanted} and 0; or changed something"
            ));
        }
        fed.intact()?;
    }
    let shown = if good::eight(ours) == 0 { ours.regs.all().len() } else { 0 };
    if ours.view() != shown {
        return Err(format!("view shows {}, not {shown}", ours.view()));
    }
    #[cfg(feature = "sums")]
    {
        let (number, sums) = ours.sums();
        answered("sums", number, wanted)?;
        if wanted != 0 && sums.map(f64::to_bits) != [0, 0] {
            return Err(format!("refused, the sums are {sums:?}"));
        }
    }
    #[cfg(feature = "write")]
    {
        let whole =
            if wanted == 0 { 40 + ours.regs.all().len() + 4 * record[4] as usize } else { 64 };
        for long in [whole, whole + 3, whole - 1, 0] {
            let mut out = Lent::noise(long);
            let wanted = if wanted == 0 && long < whole { 16 } else { wanted };
            let (number, len) = ours.write(&mut out);
            answered("write", number, wanted)?;
            let kept = wanted == 0 || out.is_noise();
            if !kept || !out.intact() || len != if wanted == 0 { whole } else { 0 } {
                return Err(format!("write has length {len}, or wrote what it should not"));
            }
        }
    }
    let good = start(8, 4, 0, 0)?;
    let mut target = good.clone();
    let finer = if wanted == 0 && lg_k < 4 { 5 } else { wanted };
    answered("merge as source", target.merge(ours), finer)?;
    if finer != 0 && !target.same(&good) {
        return Err("a refused merge changed the target".into());
    }
    let mut large = start(8, 6, 0, 0)?;
    let before = large.clone();
    let finer = if wanted == 0 && lg_k < 6 { 5 } else { wanted };
    answered("merge as source of a larger target", large.merge(ours), finer)?;
    if finer != 0 && !large.same(&before) {
        return Err("a refused merge changed the larger target".into());
    }
    // The target's refusals come first, then the source's.
    let kindless = Ours::lend(0, 0, 0);
    for (source, theirs) in [(&good, 0), (&kindless, 1)] {
        let mut target = ours.clone();
        let finer = if lg_k > 4 { 5 } else { 0 };
        let steps = [good::eight(ours), theirs, finer];
        let wanted = steps.into_iter().find(|number| *number != 0).unwrap_or(0);
        answered("merge as target", target.merge(source), wanted)?;
        if wanted != 0 && !target.same(ours) {
            return Err("a refused merge changed its target".into());
        }
        target.intact()?;
    }
    ours.intact()
}

/// A good sketch's memory with one thing changed, for each thing.
fn damages(random: &mut Random, good: &Ours) -> Vec<(String, Ours)> {
    let mut list = vec![("as it was".to_string(), good.clone())];
    let mut push = |what: String, change: &dyn Fn(&mut Ours)| {
        let mut ours = good.clone();
        change(&mut ours);
        list.push((what, ours));
    };
    for field in 0..5 {
        let held = good.record.all()[field];
        let near = [held.wrapping_sub(1), held + 1, held ^ 2, held + 256, held + (1 << 31)];
        let fixed = [0, 3, 4, 6, 8, 15, 21, 22, 32, 63, 64, 200, 255, 256, 512, u32::MAX];
        for other in near.into_iter().chain(fixed) {
            push(format!("record word {field} is {other}"), &|ours| {
                ours.record.all_mut()[field] = other
            });
        }
    }
    for at in 0..good.regs.all().len() {
        let held = good.regs.all()[at];
        let bits = (0..8).map(|bit| held ^ 1 << bit);
        for other in bits.chain([0, 15, 63, 64, 0xf0, 255]) {
            push(format!("register byte {at} is {other}"), &|ours| ours.regs.all_mut()[at] = other);
        }
    }
    let area = good.aux.all().len();
    for at in 0..area {
        let held = good.aux.all()[at];
        let other = good.aux.all()[random.below(area as u32) as usize];
        let bit = 1 << random.below(32);
        for word in [0, held ^ bit, held ^ 1, held ^ 1 << 26, other, held + 16, 5, 15 << 26] {
            push(format!("exception word {at} is {word:08x}"), &|ours| {
                ours.aux.all_mut()[at] = word
            });
        }
        push(format!("exception words {at} and the next change places"), &|ours| {
            ours.aux.all_mut().swap(at, (at + 1) % area)
        });
    }
    let n = good.regs.all().len();
    for long in [0, n - 1, n + 1] {
        let regs = good.regs.all().iter().copied().chain([0]).take(long).collect::<Vec<u8>>();
        push(format!("{long} register bytes"), &|ours| {
            ours.regs = Lent::holding(regs.clone().into_iter())
        });
    }
    for (long, last) in
        [(area + 1, 0), (area + 1, 1), (area.saturating_sub(1), 0), (area / 2, 0), (0, 0)]
    {
        let aux = good.aux.all().iter().copied().chain([last]).take(long).collect::<Vec<u32>>();
        push(format!("{long} exception words, the last {last} if new"), &|ours| {
            ours.aux = Lent::holding(aux.clone().into_iter())
        });
    }
    list
}

/// A name, the answer, and the number that it should be.
pub type Case = (String, u32, u32);

/// Each boundary of start, with what lies on its other side; and merge's.
fn boundaries() -> Result<Vec<Case>, String> {
    let mut cases = Vec::new();
    for kind in [4u8, 6, 8] {
        for lg_k in [3u8, 4, 21, 22] {
            let mut ours = Ours::lend(bytes(kind, lg_k), 3, 0);
            let before = ours.clone();
            let wanted = if (4..=21).contains(&lg_k) { 0 } else { 2 };
            let number = ours.start(kind as u32, lg_k as u32);
            cases.push((format!("start kind {kind} lg_k {lg_k}"), number, wanted));
            refused_start(&ours, &before, number)?;
        }
        for off in [-1, 0, 1] {
            let long = bytes(kind, 4) as isize + off;
            let mut ours = Ours::lend(long as usize, 0, 0);
            let before = ours.clone();
            let number = ours.start(kind as u32, 4);
            cases.push((
                format!("start kind {kind}, {long} register bytes"),
                number,
                if off == 0 { 0 } else { 3 },
            ));
            refused_start(&ours, &before, number)?;
        }
    }
    for (kind, lg_k, wanted) in [
        (0, 4, 1),
        (3, 4, 1),
        (4, 4, 0),
        (5, 4, 1),
        (6, 4, 0),
        (7, 4, 1),
        (8, 4, 0),
        (9, 4, 1),
        (255, 4, 1),
        (256 + 8, 4, 1),
        (8, 256 + 4, 2),
        (u32::MAX, 4, 1),
        (8, u32::MAX, 2),
        (5, 3, 1),
        (8, 3, 2),
    ] {
        let mut ours = Ours::lend(bytes(kind as u8, 4), 0, 0);
        let before = ours.clone();
        let number = ours.start(kind, lg_k);
        cases.push((format!("start kind {kind} lg_k {lg_k}"), number, wanted));
        refused_start(&ours, &before, number)?;
    }
    for (target, source, wanted) in [(4, 4, 0), (4, 5, 0), (5, 4, 5), (5, 5, 0)] {
        for kind in [4, 6, 8] {
            let number = start(8, target, 0, 0)?.merge(&start(kind, source, 0, 0)?);
            cases.push((
                format!("merge kind {kind} lg_k {source} into lg_k {target}"),
                number,
                wanted,
            ));
        }
    }
    // Twelve exceptions fit sixteen words, the thirteenth does not; what raises an exception needs no room.
    for (area, many, wanted) in [
        (16, 12, 0),
        (16, 13, 6),
        (31, 13, 6),
        (32, 13, 0),
        (4, 3, 0),
        (4, 4, 6),
        (3, 1, 6),
        (0, 1, 6),
    ] {
        let mut ours = start(4, 4, area, area)?;
        let coupons: Vec<u32> = (0..many).map(|slot| 20 << 26 | slot).collect();
        let (number, taken) = ours.feed(&coupons);
        cases.push((format!("feed {many} exceptions with {area} words"), number, wanted));
        cases.push((
            format!("  taken of {many} with {area} words"),
            taken as u32,
            if wanted == 0 { many } else { many - 1 },
        ));
        if taken > 0 {
            cases.push((
                format!("  then one raised with {area} words"),
                ours.feed(&[60 << 26]).0,
                0,
            ));
        }
    }
    Ok(cases)
}

fn refused_start(ours: &Ours, before: &Ours, number: u32) -> Result<(), String> {
    let untouched = ours.regs.all() == before.regs.all() && ours.aux.all() == before.aux.all();
    if number != 0 && (ours.record.all() != [0; 5] || !untouched) {
        return Err("a refused start leaves no record of zeros, or wrote".into());
    }
    ours.intact()
}

pub fn listed(cases: &[Case]) -> Result<usize, String> {
    match cases.iter().find(|(_, ours, wanted)| ours != wanted) {
        Some((what, ours, wanted)) => Err(format!("{what}: {ours}, not {wanted}")),
        None => Ok(cases.len()),
    }
}

/// Every number that a call can answer was answered, and no other.
pub fn table() -> Result<String, String> {
    let column =
        |number: &usize| call::CALLS.iter().any(|(_, can)| can.contains(&(*number as u32)));
    let columns: Vec<usize> = (0..call::NUMBERS).filter(column).collect();
    let mut text = String::from("answers      ");
    columns.iter().for_each(|number| text += &format!("{number:>8}"));
    for (at, (call, numbers)) in call::CALLS.iter().enumerate() {
        text += &format!("\n  {call:<11}");
        for number in 0..call::NUMBERS {
            let times = call::answers(at, number);
            if (times > 0) != numbers.contains(&(number as u32)) {
                return Err(format!("{call} answered {number} {times} times\n{text}"));
            }
            if columns.contains(&number) {
                text += &if times > 0 { format!("{times:>8}") } else { format!("{:>8}", ".") };
            }
        }
    }
    Ok(text)
}

pub fn compare_all(n: u64, seed: u64) -> Result<String, String> {
    let random = &mut Random::new(seed);
    let (mut sketches, mut tally) = (0, 0);
    for i in 0..n.div_ceil(40).max(6) {
        let kind = [4, 4, 6, 8][i as usize % 4];
        let lg_k = 4 + (i / 4 % 3) as u8;
        let coupons = if i < 4 { Vec::new() } else { draw::coupons(random, lg_k) };
        let area = draw::needed(kind, lg_k, &coupons) + random.below(3) as usize;
        let mut ours = start(kind, lg_k, area, area)?;
        feed(&mut ours, &mut Door::start(kind, lg_k), &mut Room::empty(kind, lg_k), &coupons)?;
        for (what, damaged) in damages(random, &ours) {
            all(&damaged, &mut tally).map_err(|fault| {
                format!(
                    "damaged: {what}; record {:?}, register bytes {:02x?}, exception area {:08x?}:\n{fault}",
                    damaged.record.all(), damaged.regs.all(), damaged.aux.all()
                )
            })?;
        }
        sketches += 1;
    }
    let cases = listed(&boundaries()?)?;
    Ok(format!(
        "damaged sketches: {sketches} sketches with one thing changed, {tally} in all, handed to every call; {cases} boundaries beside their neighbours"
    ))
}
