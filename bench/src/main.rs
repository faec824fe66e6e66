//! Our calls and the original Rust side by side, in one run, as tables of times and ratios. It fails if the sides disagree, never
//! because one is slow.

mod feed;
mod images;
mod input;
mod lists;
mod merge;
mod ours;
mod race;
mod rust;
mod side;
mod table;
mod unpack;

use input::Three;
use std::process::ExitCode;

const KINDS: [u8; 3] = [8, 6, 4];

fn main() -> ExitCode {
    match measure() {
        Ok(()) => ExitCode::SUCCESS,
        Err(fault) => {
            println!("DIFFERENT: {fault}");
            ExitCode::FAILURE
        }
    }
}

fn measure() -> Result<(), String> {
    let filled = |sizes: [u8; 5]| -> Vec<Three> {
        let of = |kind: &u8| sizes.map(|lg_k| Three::filled(*kind, lg_k, 1));
        KINDS.iter().flat_map(of).chain(sizes.map(Three::crowded)).collect()
    };
    let mut sketches = filled([4, 8, 12, 16, 21]);
    feed::batches(&sketches)?;
    feed::as_long(&sketches)?;
    lists::all(&sketches)?;
    unpack::all(&sketches)?;
    merge::all(&sketches, 0)?;
    // The least target has lg_k 4.
    merge::all(&filled([6, 8, 12, 16, 21]), 2)?;
    images::write(&sketches)?;
    sketches.extend([8, 10, 12, 14].map(Three::piled));
    images::open(&sketches)?;
    images::refuse();
    feed::checks(&sketches);
    Ok(())
}
