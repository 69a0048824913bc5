//! Watches the second program keep its promises.
//!
//! Generated runs make calls on a group; after every call each promise of `docs/RULES.md`, section 10, is checked. The
//! store as it is must keep them in every run. With each of the three known shortcuts planted, some run must break one:
//! so the watch does see what it looks for.

#![forbid(unsafe_code)]

mod observer;
mod puts;
mod run;

use std::env;
use std::process::ExitCode;
use std::time::Instant;

use observer::Counts;
use second::Shortcut;

const DEFAULT_RUNS: u64 = 20_000;
const DEFAULT_SEED: u64 = 20_260_101;

const SHORTCUTS: [Shortcut; 3] = [
    Shortcut::StableLeftAlone,
    Shortcut::RaisedByDepends,
    Shortcut::TidyByOneServer,
];

fn arguments() -> Result<(u64, u64), String> {
    const USAGE: &str = "usage: watch [RUNS [SEED]]";
    let mut words = env::args().skip(1);
    let mut number = |default: u64| match words.next() {
        None => Ok(default),
        Some(word) => word.parse().map_err(|_| USAGE.to_owned()),
    };
    Ok((number(DEFAULT_RUNS)?, number(DEFAULT_SEED)?))
}

/// Every run keeps the promises.
fn watch_unplanted(seed: u64, runs: u64) -> Result<Counts, String> {
    let mut counts = Counts::default();
    for number in 0..runs {
        let run = run::run(seed, number, Shortcut::None).map_err(|failure| {
            format!(
                "run {number}, call {}, {:?}: {}",
                failure.call_number, failure.call, failure.broken
            )
        })?;
        counts.add(&run);
    }
    Ok(counts)
}

/// Some run breaks a promise.
fn watch_planted(seed: u64, runs: u64, shortcut: Shortcut) -> Result<String, String> {
    (0..runs)
        .find_map(|number| Some((number, run::run(seed, number, shortcut).err()?)))
        .map(|(number, failure)| {
            format!(
                "{shortcut:?}: run {number}, call {}, {:?}: {}",
                failure.call_number, failure.call, failure.broken
            )
        })
        .ok_or_else(|| format!("{shortcut:?}: not caught in {runs} runs"))
}

fn watch() -> Result<(), String> {
    let (runs, seed) = arguments()?;
    let started = Instant::now();
    let Counts {
        calls,
        refused,
        puts,
        shown,
        causes,
        snapshot_answers,
        agreements,
    } = watch_unplanted(seed, runs)?;
    println!("{runs} runs, {calls} calls ({refused} refused), {puts} puts, {shown} versions shown");
    println!("every promise was kept:");
    println!("  (a) {causes} gets would show what is in a session's past");
    println!("  (b) {snapshot_answers} answers of open snapshots were as at first");
    println!("  (c) {agreements} times every outbox was empty and the sites agreed");
    println!("shortcuts caught:");
    for shortcut in SHORTCUTS {
        println!("  {}", watch_planted(seed, runs, shortcut)?);
    }
    println!("seed {seed}, {:.1} s", started.elapsed().as_secs_f64());
    Ok(())
}

fn main() -> ExitCode {
    match watch() {
        Ok(()) => ExitCode::SUCCESS,
        Err(message) => {
            eprintln!("{message}");
            ExitCode::FAILURE
        }
    }
}

#[cfg(test)]
mod tests {
    use super::*;

    #[test]
    fn a_few_runs_keep_the_promises() {
        let counts = watch_unplanted(DEFAULT_SEED, 40).unwrap();
        assert!(counts.puts > 0 && counts.shown > 0 && counts.snapshot_answers > 0);
        assert!(counts.agreements > 0);
    }

    #[test]
    fn a_planted_shortcut_is_caught() {
        watch_planted(DEFAULT_SEED, 100, Shortcut::RaisedByDepends).unwrap();
    }
}
