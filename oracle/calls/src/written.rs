//! Our images beside the Rust's, byte for byte: all but the flags, which we set always alike, and the HIP sum, which we do not keep.

use crate::draw;
use crate::histories::{feed, start};
use crate::least::least;
use crate::lent::Lent;
use crate::ours::{Ours, answered, same};
use crate::room::Room;
use crate::rust;
use oracle::examples::Random;
use oracle::{Door, State};

#[derive(Default)]
pub struct Tally {
    written: usize,
    bytes: usize,
}

/// The image of a sketch that has a history, in buffers that are just long enough, longer, and too short.
pub fn written(ours: &Ours, rust: &State, tally: &mut Tally) -> Result<(), String> {
    let long = rust.image.len();
    for room in [long, long + 1, long + 9, long - 1, 40, 0] {
        let mut out = Lent::noise(room);
        let (number, len) = ours.write(&mut out);
        answered("write", number, if room < long { 16 } else { 0 })?;
        let kept = if room < long { 0 } else { long };
        if len != kept {
            return Err(format!("write has length {len}, not {kept}"));
        }
        let (image, behind) = out.all().split_at(kept);
        let noise: Vec<u8> = Lent::<u8>::noise(room).all()[kept..].to_vec();
        same("the bytes behind the image", behind, &noise)?;
        if !out.intact() {
            return Err("memory around the image was written".into());
        }
        if kept > 0 {
            let mut wanted = rust.image.clone();
            wanted[5] = if rust.kind == 4 { 24 } else { 16 };
            wanted[8..16].fill(0);
            same("the image's bytes", image, &wanted)?;
            tally.written += 1;
            tally.bytes += kept;
        }
    }
    Ok(())
}

fn history(kind: u8, lg_k: u8, coupons: &[u32], tally: &mut Tally) -> Result<(), String> {
    let area = draw::needed(kind, lg_k, coupons);
    let mut ours = start(kind, lg_k, area, area)?;
    let mut rust = Door::start(kind, lg_k);
    feed(&mut ours, &mut rust, &mut Room::empty(kind, lg_k), coupons)?;
    written(&ours, &rust::state(&rust), tally)
}

pub fn compare_all(n: u64, seed: u64) -> Result<String, String> {
    let random = &mut Random::new(seed);
    let mut tally = Tally::default();
    for i in 0..n {
        let (kind, lg_k) = ([4, 4, 6, 8][i as usize % 4], 4 + (i / 4 % 9) as u8);
        let coupons = draw::coupons(random, lg_k);
        let once = |coupons: &[u32], tally: &mut Tally| history(kind, lg_k, coupons, tally);
        if let Err(fault) = once(&coupons, &mut tally) {
            let coupons = least(&coupons, |coupons| once(coupons, &mut Tally::default()).is_err());
            let fault = once(&coupons, &mut Tally::default()).err().unwrap_or(fault);
            return Err(format!(
                "write: kind {kind}, lg_k {lg_k}, coupons {coupons:08x?}:\n{fault}"
            ));
        }
    }
    Ok(format!("images written: {}, {} bytes compared", tally.written, tally.bytes))
}
