//! The public calls against the original Rust, byte for byte. `calls N SEED` compares N histories of each kind and what follows from
//! them; it stops at the first difference, with status 1.

mod call;
mod draw;
#[cfg(feature = "open")]
mod every;
mod good;
mod histories;
mod least;
mod lent;
#[cfg(feature = "lists")]
mod list_refusals;
#[cfg(feature = "lists")]
mod lists;
mod merges;
#[cfg(feature = "open")]
mod opened;
#[path = "../../leaves/src/order.rs"]
mod order;
mod ours;
mod refusals;
#[path = "../../leaves/src/report.rs"]
mod report;
mod room;
mod rust;
#[cfg(feature = "open")]
mod words;
#[cfg(feature = "write")]
mod written;

use std::process::ExitCode;

fn main() -> ExitCode {
    let numbers: Vec<u64> = std::env::args().skip(1).filter_map(|word| word.parse().ok()).collect();
    let [n, seed] = numbers[..] else {
        eprintln!("usage: calls N SEED");
        return ExitCode::from(2);
    };
    match compare(n, seed) {
        Ok(()) => ExitCode::SUCCESS,
        Err(fault) => {
            println!("DIFFERENT: {fault}");
            ExitCode::FAILURE
        }
    }
}

fn compare(n: u64, seed: u64) -> Result<(), String> {
    println!("{}", histories::compare_all(n, seed)?);
    println!("{}", merges::compare_all(n, seed)?);
    #[cfg(feature = "write")]
    println!("{}", written::compare_all(n, seed)?);
    #[cfg(feature = "open")]
    println!("{}", opened::compare_all(n, seed)?);
    #[cfg(feature = "open")]
    println!("{}", words::compare_all(n, seed)?);
    #[cfg(feature = "open")]
    println!("{}", every::compare_all()?);
    #[cfg(feature = "lists")]
    println!("{}", lists::compare_all(n, seed)?);
    #[cfg(feature = "lists")]
    println!("{}", list_refusals::compare_all(n, seed)?);
    println!("{}", refusals::compare_all(n, seed)?);
    println!("{}", refusals::table()?);
    Ok(())
}
