//! The proved leaves against the original Rust, word for word and byte for byte. `leaves N SEED` compares N random lists
//! of each sort; it stops at the first difference, with status 1.

mod cells;
mod checks;
mod draw;
mod leaf;
mod lent;
mod map;
mod order;
mod report;
mod tables;
mod whole;

use std::process::ExitCode;

fn main() -> ExitCode {
    let numbers: Vec<u64> = std::env::args().skip(1).filter_map(|word| word.parse().ok()).collect();
    let [n, seed] = numbers[..] else {
        eprintln!("usage: leaves N SEED");
        return ExitCode::from(2);
    };
    match compare(n, seed) {
        Ok(()) => ExitCode::SUCCESS,
        Err(fault) => {
            println!("DIFFERENT: {fault}");
            ExitCode::FAILURE
        }
    }
}

fn compare(n: u64, seed: u64) -> Result<(), String> {
    map::form()?;
    println!("{}", whole::compare_all(n, seed)?);
    println!("{}", tables::compare_all(n, seed)?);
    println!("{}", checks::compare_all(n, seed)?);
    println!("{}", cells::compare_all(n, seed)?);
    Ok(())
}
