//! The oracle's driver. Without words it answers requests from standard input, line by line;
//! `examples N SEED` prints requests with their answers, `book N SEED` the same for the proof checker,
//! `replay N SEED`, `places N SEED` and `wrong SEED` the lists of the crate `replay`, `check N SEED`
//! compares with the model; `jobs FOLDER` and `samples FOLDER` write what the merge program is run on.

use oracle::request::Request;
use oracle::{book, check, examples, jobs, replay, samples};
use std::io::{self, BufRead, Write};
use std::path::Path;
use std::process::ExitCode;

fn main() -> ExitCode {
    let words: Vec<String> = std::env::args().skip(1).collect();
    let words: Vec<&str> = words.iter().map(String::as_str).collect();
    if let ["jobs" | "samples", folder] = words[..] {
        println!("{}", write(words[0], Path::new(folder)).expect("the folder can't be written"));
        return ExitCode::SUCCESS;
    }
    let (command, numbers) = words.split_first().unwrap_or((&"", &[]));
    let numbers: Vec<u64> = numbers.iter().filter_map(|word| word.parse().ok()).collect();
    match (*command, &numbers[..]) {
        ("", _) => answer().expect("standard input or output failed"),
        ("examples", [n, seed]) => examples::examples(*n, *seed)
            .for_each(|request| println!("{request}\n{}", request.answer())),
        ("book", [n, seed]) => print!("{}", book::book(*n, *seed)),
        ("replay", [n, seed]) => print!("{}", replay::replay(*n, *seed)),
        ("places", [n, seed]) => print!("{}", replay::places(*n, *seed)),
        ("wrong", [seed]) => print!("{}", replay::wrong(*seed)),
        ("check", [n, seed]) => match check::check(*n, *seed) {
            Ok(done) => println!("{done}"),
            Err(fault) => {
                println!("{fault}");
                return ExitCode::FAILURE;
            }
        },
        _ => {
            eprintln!(
                "usage: oracle [examples N SEED | book N SEED | replay N SEED | places N SEED | wrong SEED \
                 | check N SEED | jobs FOLDER | samples FOLDER]"
            );
            return ExitCode::from(2);
        }
    }
    ExitCode::SUCCESS
}

/// Makes the files; says what was made.
fn write(command: &str, folder: &Path) -> io::Result<String> {
    if command == "jobs" {
        return jobs::write(folder);
    }
    let samples = samples::samples();
    jobs::lay_out(folder, &samples)?;
    Ok(format!("{} files", samples.0.len()))
}

/// One line out for each line in; empty lines and remarks (`#`) are handed through.
fn answer() -> io::Result<()> {
    let mut out = io::BufWriter::new(io::stdout().lock());
    for line in io::stdin().lock().lines() {
        let line = line?;
        match Request::parse(&line) {
            _ if line.is_empty() || line.starts_with('#') => writeln!(out, "{line}")?,
            Ok(request) => writeln!(out, "{}", request.answer())?,
            Err(fault) => writeln!(out, "bad {fault}")?,
        }
        out.flush()?;
    }
    Ok(())
}
