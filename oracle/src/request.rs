//! The driver's language: one request a line, read and answered. README.md describes it.

use crate::{Answer, Recipe, hex, merge, run, union};
use std::fmt;

#[derive(Clone, Debug)]
pub enum Request {
    Run(Recipe),
    Merge { target: Recipe, sources: Vec<Recipe> },
    Union { lg_k: u8, kind: u8, sources: Vec<Recipe> },
}

impl Request {
    pub fn answer(&self) -> Answer {
        match self {
            Request::Run(recipe) => run(recipe),
            Request::Merge { target, sources } => merge(target, sources),
            Request::Union { lg_k, kind, sources } => union(*lg_k, *kind, sources),
        }
    }

    pub fn parse(line: &str) -> Result<Request, String> {
        let words: Vec<&str> = line.split_whitespace().collect();
        let mut parts = words.split(|word| *word == "/");
        let head = parts.next().unwrap_or_default();
        match head {
            ["merge", target @ ..] => Ok(Request::Merge {
                target: recipe(target)?,
                sources: parts.map(recipe).collect::<Result<_, _>>()?,
            }),
            ["union", lg_k, kind] => Ok(Request::Union {
                lg_k: number(lg_k)?,
                kind: kind_of(kind)?,
                sources: parts.map(recipe).collect::<Result<_, _>>()?,
            }),
            _ if parts.next().is_none() => recipe(head).map(Request::Run),
            _ => Err("only merge and union have sources".into()),
        }
    }
}

fn recipe(words: &[&str]) -> Result<Recipe, String> {
    match words {
        ["history", kind, lg_k, coupons @ ..] => Ok(Recipe::History {
            kind: kind_of(kind)?,
            lg_k: lg_k_of(lg_k)?,
            coupons: coupons_of(coupons)?,
        }),
        ["fromlist", kind, lg_k, coupons @ ..] => Ok(Recipe::FromList {
            kind: kind_of(kind)?,
            lg_k: number(lg_k)?,
            coupons: coupons_of(coupons)?,
        }),
        ["open", image, coupons @ ..] => {
            Ok(Recipe::Open { image: image_of(image)?, coupons: coupons_of(coupons)? })
        }
        _ => Err(format!("no such sketch: {}", words.join(" "))),
    }
}

fn number(word: &str) -> Result<u8, String> {
    word.parse().map_err(|_| format!("no number: {word}"))
}

fn kind_of(word: &str) -> Result<u8, String> {
    match number(word)? {
        kind @ (4 | 6 | 8) => Ok(kind),
        kind => Err(format!("no kind: {kind}")),
    }
}

/// The arrays themselves do not check; beyond these bounds they are not the crate's to judge.
fn lg_k_of(word: &str) -> Result<u8, String> {
    match number(word)? {
        lg_k @ 4..=21 => Ok(lg_k),
        lg_k => Err(format!("no lg_k: {lg_k}")),
    }
}

fn coupons_of(words: &[&str]) -> Result<Vec<u32>, String> {
    words
        .iter()
        .map(|word| u32::from_str_radix(word, 16).map_err(|_| format!("no coupon: {word}")))
        .collect()
}

/// Bytes in hex, joined by `+`; a part may be repeated, as in `00*8`.
fn image_of(word: &str) -> Result<Vec<u8>, String> {
    let mut image = Vec::new();
    for part in word.split('+') {
        let (digits, times) = part.split_once('*').unwrap_or((part, "1"));
        let bytes: Option<Vec<u8>> = match digits.len() % 2 {
            0 => (0..digits.len())
                .step_by(2)
                .map(|i| u8::from_str_radix(digits.get(i..i + 2)?, 16).ok())
                .collect(),
            _ => None,
        };
        let (Some(bytes), Ok(times)) = (bytes, times.parse()) else {
            return Err(format!("no bytes: {part}"));
        };
        image.extend(bytes.repeat(times));
    }
    Ok(image)
}

impl fmt::Display for Request {
    fn fmt(&self, f: &mut fmt::Formatter<'_>) -> fmt::Result {
        let sources = match self {
            Request::Run(recipe) => return recipe.fmt(f),
            Request::Merge { target, sources } => {
                write!(f, "merge {target}")?;
                sources
            }
            Request::Union { lg_k, kind, sources } => {
                write!(f, "union {lg_k} {kind}")?;
                sources
            }
        };
        sources.iter().try_for_each(|source| write!(f, " / {source}"))
    }
}

impl fmt::Display for Recipe {
    fn fmt(&self, f: &mut fmt::Formatter<'_>) -> fmt::Result {
        let coupons = match self {
            Recipe::History { kind, lg_k, coupons } => {
                write!(f, "history {kind} {lg_k}")?;
                coupons
            }
            Recipe::FromList { kind, lg_k, coupons } => {
                write!(f, "fromlist {kind} {lg_k}")?;
                coupons
            }
            Recipe::Open { image, coupons } => {
                let image = if image.is_empty() { "00*0".into() } else { hex(image) };
                write!(f, "open {image}")?;
                coupons
            }
        };
        coupons.iter().try_for_each(|coupon| write!(f, " {coupon:08x}"))
    }
}
