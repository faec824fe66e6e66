//! The merge program as documents 01 and 02 tell it, on files in memory: what it prints for a job,
//! and what it leaves. Merged registers and images are the Rust's and the refusals of opening are the
//! model's; only what the program adds to them is stated here.

use crate::model::said;
use crate::{Answer, Recipe, State, merge};
use std::collections::BTreeMap;
use std::fmt;
use std::ops::{Range, RangeInclusive};

/// The names of documents 01 and 02, each at its number; 13 is not used.
pub const NAMES: [&str; 26] = [
    "OK",
    "KIND",
    "LGK",
    "SIZE",
    "DAMAGED",
    "FINER",
    "NO_ROOM",
    "SHORT",
    "HEADER",
    "MODE",
    "COUNTS",
    "LGARR",
    "VALUE",
    "",
    "SPARE",
    "TALLY",
    "OUT",
    "LONG",
    "JOB",
    "IO",
    "LARGE",
    "AUX_EMPTY",
    "AUX_TWICE",
    "AUX_LOW",
    "AUX_COUNT",
    "AUX_MATCH",
];

/// The answers that come with a place.
pub const PLACED: RangeInclusive<u8> = 21..=25;

const LGK: u8 = 2;
const FINER: u8 = 5;
const HEADER: u8 = 8;
const MODE: u8 = 9;
const LONG: u8 = 17;
const JOB: u8 = 18;
const IO: u8 = 19;
const LARGE: u8 = 20;

/// Files by their paths in the program's folder. Another folder is there if it holds a file, and
/// nothing outside can be read or written: the jobs name only /dev/full there.
#[derive(Clone, Default)]
pub struct Disk(pub BTreeMap<String, Vec<u8>>);

/// The path without what means nothing in it: `.` and doubled slashes.
fn plain(path: &str) -> String {
    let parts = path.split('/').filter(|part| !["", "."].contains(part));
    parts.collect::<Vec<_>>().join("/")
}

impl Disk {
    pub fn read(&self, path: &str) -> Option<&[u8]> {
        self.0.get(&plain(path)).map(Vec::as_slice)
    }

    fn is_folder(&self, path: &str) -> bool {
        self.0.keys().any(|name| name.starts_with(&format!("{path}/")))
    }

    /// Whether it could be written; if not, nothing has changed.
    fn write(&mut self, path: &str, bytes: &[u8]) -> bool {
        let path = plain(path);
        let within = path.rsplit_once('/').is_none_or(|(folder, _)| self.is_folder(folder));
        let free = within && !self.is_folder(&path);
        if free {
            self.0.insert(path, bytes.to_vec());
        }
        free
    }
}

struct Job {
    lg_k: u8,
    ins: Vec<String>,
    out: String,
}

/// A job is judged whole: at most 4,096 bytes; each line ended by a line feed; `lgk=` 4 to 12, 1 to
/// 64 `in=`, `out=`, in this order and nothing behind.
fn job(text: &[u8]) -> Option<Job> {
    if text.len() > 4096 {
        return None;
    }
    let lines: Vec<&[u8]> = text.strip_suffix(b"\n")?.split(|byte| *byte == b'\n').collect();
    let [size, ins @ .., out] = &lines[..] else { return None };
    let size = size.strip_prefix(b"lgk=")?;
    let lg_k = (4..=12).find(|lg_k: &u8| lg_k.to_string().as_bytes() == size)?;
    if !(1..=64).contains(&ins.len()) {
        return None;
    }
    let ins: Option<Vec<String>> = ins.iter().map(|line| path(line, b"in=")).collect();
    Some(Job { lg_k, ins: ins?, out: path(out, b"out=")? })
}

/// 1 to 200 bytes, each 33 to 126.
fn path(line: &[u8], key: &[u8]) -> Option<String> {
    let path = line.strip_prefix(key)?;
    let fit = (1..=200).contains(&path.len()) && path.iter().all(|byte| (33..=126).contains(byte));
    fit.then(|| String::from_utf8(path.to_vec()).unwrap())
}

/// A file's number and place, 0 if it is merged: IO, LONG, what bytes 0 to 39 are refused for,
/// LARGE, the rest of opening, FINER.
fn refused(file: Option<&[u8]>, target: u8) -> (u8, u32) {
    let Some(image) = file else { return (IO, 0) };
    if image.len() > 40_000 {
        return (LONG, 0);
    }
    let opening = said(image);
    if image.len() < 40 || [HEADER, MODE, LGK].contains(&opening.0) {
        return opening;
    }
    match (image[3], opening) {
        (13.., _) => (LARGE, 0),
        (lg_k, (0, _)) if lg_k < target => (FINER, 0),
        (_, opening) => opening,
    }
}

/// What a run comes to; a refusal's file is counted from 1 and is 0 for job and output.
pub enum Outcome {
    Refused { no: u8, place: u32, file: usize },
    Merged { files: usize, state: State },
}

pub fn run(disk: &mut Disk, text: &[u8]) -> Outcome {
    let Some(job) = job(text) else { return Outcome::Refused { no: JOB, place: 0, file: 0 } };
    let mut sources = Vec::new();
    for path in &job.ins {
        let file = disk.read(path);
        let (no, place) = refused(file, job.lg_k);
        if no != 0 {
            return Outcome::Refused { no, place, file: sources.len() + 1 };
        }
        sources.push(Recipe::Open { image: file.unwrap().to_vec(), coupons: Vec::new() });
    }
    let state = merged(job.lg_k, &sources);
    if !disk.write(&job.out, &state.image) {
        return Outcome::Refused { no: IO, place: 0, file: 0 };
    }
    Outcome::Merged { files: sources.len(), state }
}

/// The Rust's merges into an empty sketch, with the flag and the hip that we write (nos. 15, 16).
fn merged(lg_k: u8, sources: &[Recipe]) -> State {
    let empty = Recipe::History { kind: 8, lg_k, coupons: Vec::new() };
    let Answer::Ok(mut state) = merge(&empty, sources) else { panic!("the Rust refused") };
    state.image[5] = 16;
    state.image[8..16].fill(0);
    let [first, second] = sums(&state.registers);
    let double = |at: usize| f64::from_le_bytes(state.image[at..at + 8].try_into().unwrap());
    assert_eq!(double(16) * 2f64.powi(31), first as f64, "the Rust's kxq0");
    assert_eq!(double(24) * 2f64.powi(63), second as f64, "the Rust's kxq1");
    state
}

/// kxq0 * 2^31 and kxq1 * 2^63.
fn sums(registers: &[u8]) -> [u64; 2] {
    let sum = |values: Range<u8>| {
        let some = registers.iter().filter(|value| values.contains(value));
        some.map(|value| 1 << (values.end - 1 - value)).sum()
    };
    [sum(0..32), sum(32..64)]
}

/// The report.
impl fmt::Display for Outcome {
    fn fmt(&self, f: &mut fmt::Formatter<'_>) -> fmt::Result {
        match self {
            Outcome::Refused { no, place, file } => {
                writeln!(f, "answer={}\ncode={no}\nfile={file}", NAMES[*no as usize])?;
                if PLACED.contains(no) {
                    writeln!(f, "place={place}")?;
                }
                Ok(())
            }
            Outcome::Merged { files, state } => {
                let zeros = state.registers.iter().filter(|register| **register == 0).count();
                let max = state.registers.iter().max().unwrap();
                let [first, second] = sums(&state.registers);
                writeln!(f, "answer=OK\nfiles={files}\nlgk={}\nzeros={zeros}", state.lg_k)?;
                writeln!(f, "max={max}\nkxq0n={first}\nkxq1n={second}")
            }
        }
    }
}
