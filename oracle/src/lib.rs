//! The oracle: what the original Rust, compiled unchanged, answers to histories of coupons,
//! to images and to merges. Every answer is a state, of registers or of few coupons, an error or a caught panic.

use std::fmt;
use std::panic::{self, AssertUnwindSafe};
use std::sync::Once;

use hll::{HllSketch, HllType, HllUnion};
use lists::Layout;

// The crate's modules, at the root because they name one another from there.
include!(concat!(env!("OUT_DIR"), "/modules.rs"));

pub mod aux_cases;
pub mod aux_fault;
pub mod book;
pub mod check;
pub mod damage;
pub mod examples;
pub mod images;
pub mod jobs;
pub mod list_cases;
pub mod list_check;
pub mod lists;
pub mod model;
pub mod program;
pub mod replay;
pub mod request;
pub mod samples;
pub mod valueless;

/// Carries the methods that reach private items of `hll`; see the stand-ins' door.rs.
pub struct Door;

/// Names types that are public in private modules of `hll`; the same file says which they are.
pub trait Names {
    type AuxMap;
}

/// The crate's exception table, with the functions it offers `Array4`.
pub type AuxMap = <Door as Names>::AuxMap;

/// How a sketch comes about.
#[derive(Clone, Debug)]
pub enum Recipe {
    /// Registers from the start, then coupons.
    History { kind: u8, lg_k: u8, coupons: Vec<u32> },
    /// An image opened, then coupons.
    Open { image: Vec<u8>, coupons: Vec<u32> },
    /// The crate's own start, as a list that becomes registers in time.
    FromList { kind: u8, lg_k: u8, coupons: Vec<u32> },
}

/// All that a register sketch holds and shows.
#[derive(Clone, Debug, PartialEq)]
pub struct State {
    pub kind: u8,
    pub lg_k: u8,
    pub cur_min: u8,
    pub num_at_cur_min: u32,
    pub registers: Vec<u8>,
    /// The exception table, empty places included.
    pub table: Vec<u32>,
    pub image: Vec<u8>,
}

/// The same of a sketch that has no registers yet: a list or a set.
#[derive(Clone, Debug, PartialEq)]
pub struct Few {
    pub kind: u8,
    pub lg_k: u8,
    pub layout: Layout,
    /// As the Rust counts them: a zero word, which is none, is counted too.
    pub count: usize,
    pub words: Vec<u32>,
    pub image: Vec<u8>,
}

#[derive(Clone, Debug, PartialEq)]
pub enum Answer {
    Ok(State),
    Few(Few),
    Error(String),
    Panic(String),
}

pub fn run(recipe: &Recipe) -> Answer {
    guard(|| Ok(shown(&make(recipe)?)))
}

/// Merges the sources in turn into a target of kind 8.
pub fn merge(target: &Recipe, sources: &[Recipe]) -> Answer {
    guard(|| {
        let mut target = make(target)?;
        for source in sources {
            Door::merge(&mut target, &make(source)?)?;
        }
        Ok(shown(&target))
    })
}

/// The crate's own union of the sources, handed out as a sketch of the given kind.
pub fn union(lg_k: u8, kind: u8, sources: &[Recipe]) -> Answer {
    guard(|| {
        let mut union = HllUnion::new(lg_k).map_err(text)?;
        for source in sources {
            union.update(&make(source)?);
        }
        Ok(shown(&union.to_sketch(hll_type(kind))))
    })
}

fn make(recipe: &Recipe) -> Result<HllSketch, String> {
    let (mut sketch, coupons) = match recipe {
        Recipe::History { kind, lg_k, coupons } => (Door::start(*kind, *lg_k), coupons),
        Recipe::Open { image, coupons } => (HllSketch::deserialize(image).map_err(text)?, coupons),
        Recipe::FromList { kind, lg_k, coupons } => {
            (HllSketch::new(*lg_k, hll_type(*kind)).map_err(text)?, coupons)
        }
    };
    for &word in coupons {
        sketch.update_with_coupon(Door::coupon(word));
    }
    Ok(sketch)
}

fn shown(sketch: &HllSketch) -> Answer {
    let (lg_k, image) = (sketch.lg_config_k(), sketch.serialize());
    let kind = match sketch.target_type() {
        HllType::Hll4 => 4,
        HllType::Hll6 => 6,
        HllType::Hll8 => 8,
    };
    if let Some((layout, count, words)) = Door::coupons(sketch) {
        return Answer::Few(Few { kind, lg_k, layout, count, words, image });
    }
    Answer::Ok(State {
        kind,
        lg_k,
        cur_min: image[6],
        num_at_cur_min: u32::from_le_bytes(image[32..36].try_into().unwrap()),
        registers: Door::registers(sketch).unwrap(),
        table: table(sketch),
        image,
    })
}

/// The exception table's words at their places. They are private to their file; the crate's
/// derived `Debug` shows them, as `entries: [Coupon(0), ...]`, and only a table has entries.
fn table(sketch: &HllSketch) -> Vec<u32> {
    let shown = format!("{sketch:?}");
    let Some((_, rest)) = shown.split_once("entries: [") else { return Vec::new() };
    let (entries, _) = rest.split_once(']').unwrap();
    entries
        .split(", ")
        .map(|entry| entry["Coupon(".len()..entry.len() - 1].parse().unwrap())
        .collect()
}

fn hll_type(kind: u8) -> HllType {
    match kind {
        4 => HllType::Hll4,
        6 => HllType::Hll6,
        _ => HllType::Hll8,
    }
}

fn text(error: error::Error) -> String {
    error.to_string()
}

/// Runs the Rust; a panic becomes an answer and prints nothing.
fn guard(work: impl FnOnce() -> Result<Answer, String>) -> Answer {
    static SILENCE: Once = Once::new();
    SILENCE.call_once(|| {
        let loud = panic::take_hook();
        panic::set_hook(Box::new(move |info| {
            if !GUARDED.get() {
                loud(info)
            }
        }));
    });
    GUARDED.set(true);
    let outcome = panic::catch_unwind(AssertUnwindSafe(work));
    GUARDED.set(false);
    match outcome {
        Ok(Ok(answer)) => answer,
        Ok(Err(text)) => Answer::Error(text),
        Err(load) => Answer::Panic(
            load.downcast_ref::<String>()
                .cloned()
                .or_else(|| load.downcast_ref::<&str>().map(|text| text.to_string()))
                .unwrap_or_default(),
        ),
    }
}

thread_local! {
    // Only the Rust's panics are silenced; a fault of our own is still heard.
    static GUARDED: std::cell::Cell<bool> = const { std::cell::Cell::new(false) };
}

pub fn hex(bytes: &[u8]) -> String {
    bytes.iter().map(|b| format!("{b:02x}")).collect()
}

pub fn words(words: &[u32]) -> String {
    words.iter().map(|w| format!("{w:08x}")).collect::<Vec<_>>().join(",")
}

/// One line, whatever the Rust says.
impl fmt::Display for Answer {
    fn fmt(&self, f: &mut fmt::Formatter<'_>) -> fmt::Result {
        let line = |text: &str| text.lines().map(str::trim).collect::<Vec<_>>().join("; ");
        match self {
            Answer::Ok(s) => write!(
                f,
                "ok kind={} lgk={} cur_min={} num={} regs={} table={} image={}",
                s.kind,
                s.lg_k,
                s.cur_min,
                s.num_at_cur_min,
                hex(&s.registers),
                words(&s.table),
                hex(&s.image)
            ),
            Answer::Few(few) => write!(
                f,
                "{} kind={} lgk={} count={} words={} image={}",
                few.layout,
                few.kind,
                few.lg_k,
                few.count,
                words(&few.words),
                hex(&few.image)
            ),
            Answer::Error(text) => write!(f, "error {}", line(text)),
            Answer::Panic(text) => write!(f, "panic {}", line(text)),
        }
    }
}
