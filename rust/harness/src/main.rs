//! Compares the proved library with the plain Rust model on many inputs, then times both.
//!
//!     x10-harness [--seed N] [--size N] [--rounds N] [--row N] [--compare | --measure]
//!
//! The seed is taken from the clock where none is given, and printed. A size of 2 has twice the
//! cases; --rounds says how many rounds are timed, and --row times only one row. --compare and
//! --measure do only the one. The status is 1 where anything differs, and where a number that a
//! routine can answer, a code that it can write or a situation that is listed did not come.

mod compare;
mod inputs;
mod lent;
mod measure;
mod reached;
mod rng;
mod tally;

use std::process::ExitCode;
use std::time::{Instant, SystemTime, UNIX_EPOCH};

struct Options {
    seed: u64,
    size: usize,
    rounds: usize,
    row: Option<usize>,
    compare: bool,
    measure: bool,
}

fn options() -> Result<Options, String> {
    let clock = SystemTime::now().duration_since(UNIX_EPOCH).map_or(0, |since| since.as_nanos() as u64);
    let mut options =
        Options { seed: clock, size: 1, rounds: measure::ROUNDS, row: None, compare: true, measure: true };
    let mut args = std::env::args().skip(1);
    while let Some(arg) = args.next() {
        let mut number = || -> Result<u64, String> {
            let text = args.next().ok_or(format!("{arg} wants a number"))?;
            text.parse().map_err(|_| format!("{arg} {text}: not a number"))
        };
        match arg.as_str() {
            "--seed" => options.seed = number()?,
            "--size" => options.size = number()?.max(1) as usize,
            "--rounds" => options.rounds = number()?.max(1) as usize,
            "--row" => options.row = Some(number()? as usize),
            "--compare" => options.measure = false,
            "--measure" => options.compare = false,
            _ => return Err(format!("{arg}: no such option")),
        }
    }
    Ok(options)
}

/// Whether all was equal and every number was met.
fn compare(seed: u64, size: usize) -> bool {
    let start = Instant::now();
    let tallies = compare::all(seed, size);
    for tally in &tallies {
        println!("{}", tally.told());
    }
    let cases: u64 = tallies.iter().map(|tally| tally.cases).sum();
    let differences: u64 = tallies.iter().map(|tally| tally.differences).sum();
    let seconds = start.elapsed().as_secs_f64();
    println!(
        "compared: {cases} cases in {seconds:.1} s, {differences} differences (seed {seed}, size {size})"
    );

    let missed: Vec<String> = tallies.iter().flat_map(|tally| tally.missed()).collect();
    if missed.is_empty() {
        println!("met: every number that a routine can answer, every event and every situation");
    } else {
        println!("NOT MET: {}", missed.join(", "));
    }
    differences == 0 && missed.is_empty()
}

fn measure(seed: u64, rounds: usize, row: Option<usize>) {
    println!("{}\n", measure::how(rounds));
    println!("| routine | timed | Rattle ns | Rust ns | ratio |");
    println!("|---|---|---:|---:|---:|");
    for row in measure::all(seed, rounds, row) {
        let (rattle, rust, ratio) = (row.rattle_ns, row.rust_ns, row.ratio());
        println!("| `{}` | {} | {rattle:.2} | {rust:.2} | {ratio:.2} |", row.routine, row.timed);
    }
}

fn main() -> ExitCode {
    let options = match options() {
        Ok(options) => options,
        Err(wrong) => {
            eprintln!("x10-harness: {wrong}");
            return ExitCode::from(2);
        }
    };
    println!("seed {}", options.seed);
    let mut same = true;
    if options.compare {
        same = compare(options.seed, options.size);
        println!();
    }
    if options.measure {
        measure(options.seed, options.rounds, options.row);
    }
    if same {
        ExitCode::SUCCESS
    } else {
        ExitCode::FAILURE
    }
}
