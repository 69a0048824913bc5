//! Compares the listings of scripts.

use std::fmt::Write;
use std::path::PathBuf;
use std::sync::atomic::{AtomicBool, AtomicU64, Ordering};
use std::thread;

use crate::edges::Edge;
use crate::examples::Example;
use crate::generate::Generated;
use crate::steps;
use crate::tally::Tally;

const THREADS: usize = 2;

/// How many bytes a buffer has past what a listing needs, to see that they stay.
const BEHIND: usize = 61;

/// A comparison of the programs, script after script.
pub struct Comparison {
    steps: PathBuf,
    tally: Tally,
}

impl Comparison {
    pub fn new(steps: PathBuf) -> Self {
        Self {
            steps,
            tally: Tally::default(),
        }
    }

    pub fn tally(&self) -> &Tally {
        &self.tally
    }

    /// Compares the examples, and their listings with those that they say they have.
    pub fn examples(&mut self, examples: &[Example]) -> Result<(), String> {
        for Example {
            name,
            script,
            listing,
        } in examples
        {
            let listed = self.compare(script).map_err(|error| at(name, &error))?;
            let names = ("the example", "the programs");
            same(script, names, listing, &listed).map_err(|error| at(name, &error))?;
            self.tally.add("examples", &listed);
        }
        Ok(())
    }

    /// Compares the edges.
    pub fn edges(&mut self, edges: &[Edge]) -> Result<(), String> {
        for Edge { name, script } in edges {
            let listed = self.compare(script).map_err(|error| at(name, &error))?;
            self.tally.add("edges", &listed);
        }
        Ok(())
    }

    /// Compares the generated scripts, on several threads.
    pub fn generated(&mut self, generated: &Generated) -> Result<(), String> {
        let next = AtomicU64::new(0);
        let stop = AtomicBool::new(false);
        let comparison = &*self;
        let work = || {
            let mut tally = Tally::default();
            while !stop.load(Ordering::Relaxed) {
                let number = next.fetch_add(1, Ordering::Relaxed);
                if number >= generated.count() {
                    break;
                }
                let (class, script) = generated.script(number);
                match comparison.compare(&script) {
                    Ok(listed) => tally.add(class, &listed),
                    Err(error) => {
                        stop.store(true, Ordering::Relaxed);
                        return Err(at(&format!("{class} script {number}"), &error));
                    }
                }
            }
            Ok(tally)
        };
        let tallies = thread::scope(|scope| {
            let threads: Vec<_> = (0..THREADS).map(|_| scope.spawn(work)).collect();
            threads
                .into_iter()
                .map(|thread| {
                    thread
                        .join()
                        .unwrap_or_else(|_| Err("a thread panicked".to_owned()))
                })
                .collect::<Result<Vec<_>, _>>()
        })?;
        tallies.iter().for_each(|tally| self.tally.merge(tally));
        Ok(())
    }

    /// Runs a script by every program and answers the listing, if it is the same of all.
    fn compare(&self, script: &[u8]) -> Result<Vec<u8>, String> {
        let expected = second::listing(script);
        let printed = steps::listing(&self.steps, script)
            .map_err(|error| format!("{error}\nscript {}", hexadecimal(script)))?;
        same(script, ("second", "steps"), &expected, &printed)?;
        let wrapped = price_store::listing_to_vec(script);
        same(script, ("second", "library"), &expected, &wrapped)?;
        compare_buffers(script, &expected)?;
        Ok(expected)
    }
}

/// Compares the forms that write to a buffer, for buffers that are too short, just long enough and longer.
fn compare_buffers(script: &[u8], expected: &[u8]) -> Result<(), String> {
    let lines = expected.iter().filter(|&&byte| byte == b'\n').count();
    let needed = lines * price_store::MAX_LINE;
    let mut sizes = vec![needed, needed + BEHIND];
    if needed > 0 {
        sizes.extend([0, needed - 1]);
    }
    for size in sizes {
        let mut wanted = pattern(size);
        let wanted_answer = second::listing_into(script, &mut wanted);
        let mut buffer = pattern(size);
        let answer = match price_store::listing(script, &mut buffer) {
            Ok(length) => length as i64,
            Err(price_store::ShortBuffer) => -16,
        };
        let fits = size >= needed;
        let right_answer = if fits { expected.len() as i64 } else { -16 };
        let right_bytes = if fits { expected } else { &[] };
        let mut right_buffer = pattern(size);
        right_buffer[..right_bytes.len()].copy_from_slice(right_bytes);
        if (answer, &buffer) != (right_answer, &right_buffer)
            || (wanted_answer, &wanted) != (right_answer, &right_buffer)
        {
            return Err(format!(
                "a buffer of {size} bytes for {lines} lines: library {answer}, second \
                 {wanted_answer}, or the buffers differ\nscript {}",
                hexadecimal(script)
            ));
        }
    }
    Ok(())
}

/// Bytes that no listing has, each different from the next.
fn pattern(size: usize) -> Vec<u8> {
    (0..size).map(|at| 0x80 | at as u8).collect()
}

fn same(
    script: &[u8],
    (first_name, second_name): (&str, &str),
    first: &[u8],
    second: &[u8],
) -> Result<(), String> {
    if first == second {
        return Ok(());
    }
    let mut message = format!("script {}\n", hexadecimal(script));
    let line = first_difference(first, second);
    for (name, listing) in [(first_name, first), (second_name, second)] {
        let _ = writeln!(message, "{name}:");
        let text = String::from_utf8_lossy(listing);
        let around = text
            .lines()
            .enumerate()
            .skip(line.saturating_sub(3))
            .take(6);
        for (at, text) in around {
            let sign = if at == line { '>' } else { ' ' };
            let _ = writeln!(message, "{sign} {text}");
        }
    }
    Err(message)
}

fn first_difference(first: &[u8], second: &[u8]) -> usize {
    let equal = first
        .iter()
        .zip(second)
        .take_while(|(first, second)| first == second);
    equal.filter(|&(&byte, _)| byte == b'\n').count()
}

fn hexadecimal(bytes: &[u8]) -> String {
    bytes.iter().fold(String::new(), |mut text, byte| {
        let _ = write!(text, "{byte:02X}");
        text
    })
}

fn at(name: &str, error: &str) -> String {
    format!("difference at {name}\n{error}")
}
