//! Compares the proved price store with the second program.
//!
//! Every script is run by the proved program `steps`, by the wrapper of the proved library and by the second program;
//! all of them must list the same bytes. The clock rules are compared number by number. The first difference ends the
//! comparison with exit status 1.

#![forbid(unsafe_code)]

mod clocks;
mod edges;
mod examples;
mod generate;
mod listings;
mod steps;
mod tally;

use std::env;
use std::path::PathBuf;
use std::process::ExitCode;
use std::time::Instant;

use clocks::compare_clock_rules;
use generate::Generated;
use listings::Comparison;

const DEFAULT_COUNT: u64 = 21_000;
const DEFAULT_SEED: u64 = 20_260_101;
const CLOCK_TRIPLES: u64 = 100_000;

struct Arguments {
    steps: PathBuf,
    count: u64,
    seed: u64,
}

fn arguments() -> Result<Arguments, String> {
    const USAGE: &str = "usage: compare STEPS [COUNT [SEED]]";
    let mut words = env::args_os().skip(1);
    let steps = words.next().ok_or(USAGE)?.into();
    let mut number = |default: u64| match words.next() {
        None => Ok(default),
        Some(word) => word
            .to_str()
            .and_then(|word| word.parse().ok())
            .ok_or(USAGE),
    };
    let count = number(DEFAULT_COUNT)?;
    let seed = number(DEFAULT_SEED)?;
    Ok(Arguments { steps, count, seed })
}

fn run() -> Result<(), String> {
    let Arguments { steps, count, seed } = arguments()?;
    let started = Instant::now();

    let clocks = compare_clock_rules(seed, CLOCK_TRIPLES)?;
    let mut comparison = Comparison::new(steps);
    comparison.examples(&examples::all()?)?;
    comparison.edges(&edges::all())?;
    comparison.generated(&Generated::new(seed, count))?;

    print!("{clocks}{}", comparison.tally());
    println!("seed {seed}, {:.1} s", started.elapsed().as_secs_f64());
    let missing = comparison.tally().missing();
    if !missing.is_empty() {
        return Err(format!("never met in any script: {}", missing.join(", ")));
    }
    println!("no difference");
    Ok(())
}

fn main() -> ExitCode {
    match run() {
        Ok(()) => ExitCode::SUCCESS,
        Err(message) => {
            eprintln!("{message}");
            ExitCode::FAILURE
        }
    }
}
