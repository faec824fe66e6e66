//! The Rust's images opened by us, as written, reordered and in the second form, and fed on; and damaged ones, whose answer and place are
//! those of the model of documents 01 and 02.

use crate::draw;
use crate::histories::feed;
use crate::least::least;
use crate::order::size;
use crate::ours::{Ours, answered, bytes};
use crate::refusals::{Case, listed};
use crate::room::{self, Room};
use crate::rust;
use oracle::examples::{self, Random};
use oracle::hll::HllSketch;
use oracle::model::{Model, said};
use oracle::valueless::Valueless;
use oracle::{Answer, Door, Recipe, State, hex, run};

#[derive(Default)]
struct Tally {
    opened: usize,
    fed_on: usize,
    damaged: usize,
    calls: usize,
    taken: usize,
    valueless: Valueless,
}

/// The answer to opening and its place: the model's, with SIZE and NO_ROOM of the lent memory where they stand in the order.
fn opening(image: &[u8], ours: &Ours) -> (u8, u32) {
    let said = said(image);
    let number = said.0;
    if image.len() < 40 || [8, 9, 2].contains(&number) {
        return said;
    }
    let kind = kind(image);
    let (area, scratch) = (ours.aux.all().len(), ours.scratch.all().len());
    if ours.regs.all().len() != bytes(kind, image[3]) || kind == 4 && scratch < area {
        return (3, 0);
    }
    if [10, 11, 7].contains(&number) {
        return said;
    }
    if size(room::base(image[3]), count(image)) > area { (6, 0) } else { said }
}

fn kind(image: &[u8]) -> u8 {
    match image[7] {
        2 => 4,
        6 => 6,
        _ => 8,
    }
}

fn count(image: &[u8]) -> usize {
    u32::from_le_bytes(image[36..40].try_into().unwrap()) as usize
}

fn modelled(model: &Model) -> State {
    State {
        kind: model.kind,
        lg_k: model.lg_k,
        cur_min: model.cur_min,
        num_at_cur_min: model.num_at_cur_min(),
        registers: model.registers.clone(),
        table: model.table.clone(),
        image: model.image(),
    }
}

/// Opens any bytes; where they are refused, nothing lent was written but scratch; where they are opened, the Rust opens them alike.
pub fn opened(image: &[u8], ours: &mut Ours) -> Result<(u8, u32), String> {
    let (before, wanted) = (ours.clone(), opening(image, ours));
    answered("open", ours.open(image), (wanted.0.into(), wanted.1))?;
    ours.intact()?;
    if wanted.0 != 0 {
        let untouched = ours.regs.all() == before.regs.all() && ours.aux.all() == before.aux.all();
        return match untouched && ours.record.all() == [0; 5] {
            true => Ok(wanted),
            false => Err(format!(
                "refused with {wanted:?}, and memory or record are not as they should be"
            )),
        };
    }
    let model = modelled(&Model::open(image));
    ours.compare(&model, true).map_err(|fault| format!("opened, by the model: {fault}"))?;
    match run(&Recipe::Open { image: image.to_vec(), coupons: Vec::new() }) {
        Answer::Ok(state) => {
            ours.compare(&state, false).map_err(|fault| format!("opened: {fault}"))?
        }
        other => return Err(format!("opened, where the Rust answers {other}")),
    }
    Ok(wanted)
}

/// Memory as an image asks for it; a count above k is refused before its table is.
pub fn lend(image: &[u8], more: usize) -> Ours {
    let lg_k = image[3];
    let area = size(room::base(lg_k), count(image).min(1 << lg_k)) + more;
    Ours::lend(bytes(kind(image), lg_k), area, area)
}

/// An image that the Rust opens too, then fed on.
fn fed_on(image: &[u8], more: usize, coupons: &[u32], tally: &mut Tally) -> Result<(), String> {
    let mut ours = lend(image, more);
    if opened(image, &mut ours)?.0 != 0 {
        return Err("a good image is refused".into());
    }
    tally.opened += 1;
    let mut rust = HllSketch::deserialize(image).map_err(|error| error.to_string())?;
    let registers = Door::registers(&rust).unwrap();
    let mut room = Room::of(kind(image), image[3], registers);
    feed(&mut ours, &mut rust, &mut room, coupons)?;
    ours.compare(&rust::state(&rust), true).map_err(|fault| format!("fed on: {fault}"))?;
    tally.fed_on += 1;
    Ok(())
}

/// Damaged copies, each once: each byte changed, each length, two bytes at once, bytes behind.
fn damages(random: &mut Random, image: &[u8]) -> Vec<Vec<u8>> {
    let mut list: Vec<Vec<u8>> = (0..image.len()).map(|long| image[..long].to_vec()).collect();
    for at in (0..image.len()).filter(|at| !(8..32).contains(at)) {
        let held = image[at];
        let other = held ^ 1 << random.below(8);
        for byte in [held ^ 1, other, held.wrapping_add(1), held.wrapping_sub(1), 0, 64, 255] {
            let mut image = image.to_vec();
            image[at] = byte;
            list.push(image);
        }
    }
    for at in 8..32 {
        let mut image = image.to_vec();
        image[at] = random.below(256) as u8;
        list.push(image);
    }
    for _ in 0..image.len() {
        let mut image = image.to_vec();
        for _ in 0..2 {
            let at = random.below(image.len() as u32) as usize;
            image[at] = random.below(256) as u8;
        }
        list.push(image);
    }
    for long in 1..6 {
        list.push(
            image.iter().copied().chain((0..long).map(|_| random.below(256) as u8)).collect(),
        );
    }
    list.sort();
    list.dedup();
    list.retain(|copy| copy != image);
    list
}

fn damaged(random: &mut Random, image: &[u8], tally: &mut Tally) -> Result<(), String> {
    for copy in damages(random, image) {
        let more = random.below(3) as usize;
        // Lent for the good image; and for this one, where its own fields ask for another size.
        let mut lents = vec![lend(image, more)];
        if copy.len() >= 40 && (4..=12).contains(&copy[3]) {
            lents.push(lend(&copy, more));
        }
        let mut answers = Vec::new();
        for mut ours in lents {
            let (regs, area) = (ours.regs.all().len(), ours.aux.all().len());
            answers.push(opened(&copy, &mut ours).map_err(|fault| {
                format!(
                    "image {}, {regs} register bytes, an area of {area} words:\n{fault}",
                    hex(&copy)
                )
            })?);
        }
        tally.damaged += 1;
        tally.calls += answers.len();
        tally.taken += answers.contains(&(0, 0)) as usize;
        // The last in memory as the image asks for it.
        tally.valueless.add(&copy, answers[answers.len() - 1])?;
    }
    Ok(())
}

/// All that follows from one history.
fn history(
    random: &mut Random,
    kind: u8,
    lg_k: u8,
    coupons: &[u32],
    tally: &mut Tally,
) -> Result<(), String> {
    let mut rust = Door::start(kind, lg_k);
    rust::feed(&mut rust, coupons);
    let image = rust.serialize();
    let forms = [image.clone(), examples::listed(random, &image), examples::spread(random, &image)];
    for image in forms {
        let more = draw::coupons(random, lg_k);
        let spare = [0, 1, random.below(40) as usize][random.below(3) as usize];
        fed_on(&image, spare, &more[..more.len().min(300)], tally)
            .map_err(|fault| format!("image {}: {fault}", hex(&image)))?;
    }
    Ok(())
}

/// Each boundary of open beside its neighbour; those of the exception words are in words.rs.
fn boundaries() -> Result<Vec<Case>, String> {
    let mut cases = Vec::new();
    let mut case = |what: &str, image: &[u8], ours: &mut Ours, wanted: u32| {
        let (number, place) = ours.open(image);
        cases.push((what.to_string(), number, wanted));
        cases.push((format!("  place of {what}"), place, 0));
    };
    let image = |kind: u8, lg_k: u8, coupons: &[u32]| {
        let mut rust = Door::start(kind, lg_k);
        rust::feed(&mut rust, coupons);
        rust.serialize()
    };
    let with = |image: &[u8], at: usize, byte: u8| {
        let mut image = image.to_vec();
        image[at] = byte;
        image
    };
    let eight = image(8, 4, &[]);
    let six = image(6, 4, &[]);
    let four = image(4, 4, &[15 << 26]);
    case("56 bytes", &eight, &mut lend(&eight, 0), 0);
    case("55 bytes", &eight[..55], &mut lend(&eight, 0), 7);
    case("57 bytes", &[&eight[..], &[1]].concat(), &mut lend(&eight, 0), 0);
    let wrong = with(&eight, 0, 9);
    case("39 bytes, byte 0 is 9", &wrong[..39], &mut lend(&eight, 0), 7);
    case("40 bytes, byte 0 is 9", &wrong[..40], &mut lend(&eight, 0), 8);
    case("40 bytes", &eight[..40], &mut lend(&eight, 0), 7);
    for (at, byte, wanted) in
        [(0, 9, 8), (0, 11, 8), (1, 2, 8), (2, 6, 8), (7, 9, 9), (7, 11, 9), (7, 0x12, 9)]
    {
        case(
            &format!("byte {at} is {byte}"),
            &with(&eight, at, byte),
            &mut lend(&eight, 0),
            wanted,
        );
    }
    for (lg_k, wanted) in [(3, 2), (4, 0), (21, 0), (22, 2)] {
        let (kind, good) = (8, image(8, lg_k.clamp(4, 21), &[]));
        let mut ours = Ours::lend(bytes(kind, lg_k), 0, 0);
        case(&format!("lg_k {lg_k}"), &with(&good, 3, lg_k), &mut ours, wanted);
    }
    let low = with(&eight, 32, 15);
    case("register byte 63", &with(&low, 40, 63), &mut lend(&eight, 0), 0);
    case("register byte 64", &with(&low, 40, 64), &mut lend(&eight, 0), 12);
    case("one register, zeros 15", &with(&low, 40, 1), &mut lend(&eight, 0), 0);
    case("one register, zeros 16", &with(&eight, 40, 1), &mut lend(&eight, 0), 15);
    case("no register, zeros 15", &low, &mut lend(&eight, 0), 15);
    case("zeros 17", &with(&eight, 32, 17), &mut lend(&eight, 0), 10);
    case("spare byte 0", &six, &mut lend(&six, 0), 0);
    case("spare byte 1", &with(&six, 52, 1), &mut lend(&six, 0), 14);
    case("kind 8, cur_min 1", &with(&eight, 6, 1), &mut lend(&eight, 0), 10);
    case("kind 6, count 1", &with(&six, 36, 1), &mut lend(&six, 0), 10);
    let empty = image(4, 4, &[]);
    case("cur_min 63", &with(&empty, 6, 63), &mut lend(&empty, 0), 0);
    case("cur_min 64", &with(&empty, 6, 64), &mut lend(&empty, 0), 10);
    case("kind 4, 8 bytes", &empty, &mut Ours::lend(8, 0, 0), 0);
    case("kind 4, 7 bytes", &empty, &mut Ours::lend(7, 0, 0), 3);
    case("kind 4, 9 bytes", &empty, &mut Ours::lend(9, 0, 0), 3);
    case("area 4, scratch 4", &four, &mut Ours::lend(8, 4, 4), 0);
    case("area 4, scratch 3", &four, &mut Ours::lend(8, 4, 3), 3);
    case("area 3, scratch 3", &four, &mut Ours::lend(8, 3, 3), 6);
    case("exception 15", &four, &mut lend(&four, 0), 0);
    case("exception 14", &with(&four, 51, 14 << 2), &mut lend(&four, 0), 23);
    case("count 0 of 1", &with(&four, 36, 0), &mut Ours::lend(8, 4, 4), 25);
    case("count 2 of 1", &with(&four, 36, 2), &mut Ours::lend(8, 4, 4), 7);
    case("count 17", &with(&four, 36, 17), &mut Ours::lend(8, 64, 64), 10);
    case("slot 16 for 0", &with(&four, 48, 16), &mut lend(&four, 0), 0);
    case("slot 1 for 0", &with(&four, 48, 1), &mut lend(&four, 0), 25);
    let mut full = image(4, 4, &(0..16).map(|slot| 1 << 26 | slot).collect::<Vec<u32>>());
    case("num 16 at cur_min 1", &full, &mut lend(&full, 0), 0);
    full[6] = 0;
    full[32] = 0;
    full[40..48].fill(0x11);
    case("kind 4, none at cur_min", &full, &mut lend(&full, 0), 15);
    let mut second = with(&with(&four, 5, 0), 4, 22);
    second.resize(48 + (4 << 22), 0);
    case("lg_arr 22", &second, &mut lend(&four, 0), 0);
    case("lg_arr 22, a byte short", &second[..second.len() - 1], &mut lend(&four, 0), 7);
    case("lg_arr 23", &with(&second, 4, 23), &mut lend(&four, 0), 11);
    case("lg_arr 23, compact", &with(&with(&four, 4, 23), 5, 8), &mut lend(&four, 0), 0);
    Ok(cases)
}

pub fn compare_all(n: u64, seed: u64) -> Result<String, String> {
    let random = &mut Random::new(seed);
    let mut tally = Tally::default();
    for i in 0..n {
        let (kind, lg_k) = ([4, 4, 6, 8][i as usize % 4], 4 + (i / 4 % 9) as u8);
        let coupons = draw::coupons(random, lg_k);
        // The same draws for each try, so that leaving coupons out changes nothing else.
        let seeds = random.below(u32::MAX) as u64;
        let once = |coupons: &[u32], tally: &mut Tally| {
            history(&mut Random::new(seeds), kind, lg_k, coupons, tally)
        };
        if let Err(fault) = once(&coupons, &mut tally) {
            let coupons = least(&coupons, |coupons| once(coupons, &mut Tally::default()).is_err());
            let fault = once(&coupons, &mut Tally::default()).err().unwrap_or(fault);
            return Err(format!(
                "image: kind {kind}, lg_k {lg_k}, coupons {coupons:08x?}:\n{fault}"
            ));
        }
        if i % 16 < 4 && lg_k < 7 {
            let Answer::Ok(state) = run(&Recipe::History { kind, lg_k, coupons }) else {
                unreachable!()
            };
            let second = examples::spread(random, &state.image);
            damaged(random, &state.image, &mut tally)?;
            damaged(random, &second, &mut tally)?;
        }
    }
    let cases = listed(&boundaries()?)?;
    let Tally { opened, fed_on, damaged, calls, taken, valueless } = tally;
    Ok(format!(
        "images: {opened} opened in three forms and {fed_on} fed on; {cases} boundaries beside their neighbours\n\
         damaged images: {damaged}, in {calls} calls: all that we open the Rust opens, alike: {taken}; the others refused as the model says; \
         of these {valueless}"
    ))
}
